//! A night of the engine that this store is for. A long query pays out rows; the planner finds half-way that another plan is
//! cheaper and switches. The rows already paid stand in the store, and the new plan, which meets the rows in another order, skips
//! them. Twice more the plan changes, once with a day's corrections in between. The totals must be those of a run without a switch.

use cikolaro::{Batch, Refusal, Store};

const ROWS: u64 = 4_000;
const BATCH: usize = 250;

/// A row of the query's answer: paid to an account.
#[derive(Clone)]
struct Row {
    account: u32,
    day: u16,
    id: u64,
    cents: u64,
}

impl Row {
    /// What names the row, whatever plan meets it.
    fn key(&self) -> Vec<u8> {
        let mut key = self.account.to_be_bytes().to_vec();
        key.extend(self.day.to_be_bytes());
        key.extend(self.id.to_be_bytes());
        key
    }
}

/// Numbers that are the same in every run.
fn mix(n: u64) -> u64 {
    let mut z = n.wrapping_add(0x9e37_79b9_7f4a_7c15);
    z = (z ^ z >> 30).wrapping_mul(0xbf58_476d_1ce4_e5b9);
    z ^ z >> 27
}

fn table() -> Vec<Row> {
    (1..=ROWS)
        .map(|id| Row {
            account: (mix(id) % 97) as u32,
            day: (mix(id + ROWS) % 30) as u16,
            id,
            cents: 1 + mix(id * 3) % 10_000,
        })
        .collect()
}

#[derive(Default)]
struct Night {
    paid: u64,
    cents: u64,
    skipped: u64,
}

/// Runs a plan, that is rows in its order, until so many are paid.
fn run(store: &mut Store<Vec<u8>>, night: &mut Night, plan: &[Row], most: u64) -> Result<(), cikolaro::Error> {
    let mut left = most;
    for rows in plan.chunks(BATCH) {
        if left == 0 {
            return Ok(());
        }
        let mut emitted = Batch::new();
        for row in rows {
            if left == 0 {
                break;
            }
            if store.get(&row.key())?.is_some() {
                night.skipped += 1;
                continue;
            }
            night.paid += 1;
            night.cents += row.cents;
            emitted.set(row.key(), row.id);
            left -= 1;
        }
        store.apply(&emitted)?;
    }
    Ok(())
}

fn main() -> Result<(), Box<dyn std::error::Error>> {
    let rows = table();
    let by_id = rows.clone();
    let mut by_account = rows.clone();
    by_account.sort_by_key(|row| (row.account, row.day, row.id));
    let mut by_cents = rows.clone();
    by_cents.sort_by_key(|row| (std::cmp::Reverse(row.cents), row.id));

    let mut plain = Night::default();
    run(&mut Store::new(1_200)?, &mut plain, &by_id, u64::MAX)?;

    let mut switched = Night::default();
    let mut store = Store::new(1_200)?;
    run(&mut store, &mut switched, &by_id, 1_500)?;
    println!("plan 1, by id:      {} rows paid, {} cents", switched.paid, switched.cents);
    run(&mut store, &mut switched, &by_account, 1_300)?;
    println!("plan 2, by account: {} rows paid, {} cents, {} skipped", switched.paid, switched.cents, switched.skipped);

    // Corrections come in while the plan is switched again: rows of account 5 are taken back and paid anew.
    let mut back = Batch::new();
    for entry in store.entries_from(&5u32.to_be_bytes())? {
        let entry = entry?;
        if !entry.key().starts_with(&5u32.to_be_bytes()) {
            break;
        }
        switched.paid -= 1;
        switched.cents -= rows[entry.value as usize - 1].cents;
        back.remove(entry.key());
    }
    let taken_back = back.len();
    store.apply(&back)?;
    println!("{taken_back} rows of account 5 taken back");

    run(&mut store, &mut switched, &by_cents, u64::MAX)?;
    println!("plan 3, by cents:   {} rows paid, {} cents, {} skipped", switched.paid, switched.cents, switched.skipped);
    println!("without a switch:   {} rows paid, {} cents", plain.paid, plain.cents);

    assert_eq!((switched.paid, switched.cents), (plain.paid, plain.cents));
    assert_eq!(store.entries().count() as u64, ROWS);
    println!("audit: {} slots reached of {}", store.audit()?.reached, store.count());

    // A store that is too small says so, and says how many rows stand in it: none is lost silently.
    let mut small = Store::new(3)?;
    let mut batch = Batch::new();
    for row in &by_account[..40] {
        batch.set(row.key(), row.id);
    }
    let error = small.apply(&batch).unwrap_err();
    assert_eq!(error.refusal, Refusal::NoRoom);
    assert_eq!(small.entries().count(), error.applied);
    println!("a store of 3 slots: {error}");
    Ok(())
}
