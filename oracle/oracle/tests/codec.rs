//! Node bytes: the original and our reading of 01 on many inputs; then the
//! strict reading, which the original doesn't have, against both.

use oracle::model::codec;
use oracle::nodes::{any_node, bytes_of, damaged, Damage, Lengths};
use oracle::random::Random;
use oracle::readings::{answer, strict_answer};
use oracle::report::report;
use oracle::sloppy::any_flawed;
use original::btree::glue::{read_node, write_node};

const LENGTHS: [Lengths; 4] = [
    Lengths::Short,
    Lengths::Short,
    Lengths::Edges,
    Lengths::EdgesAllowed,
];

/// All strings of these lengths over {0, 1, 255}.
#[test]
fn short_inputs_read_the_same() {
    let mut count = 0;
    for input in short_inputs(11) {
        let _ = answer(&input);
        count += 1;
    }
    report("short_inputs_read_the_same", &[("inputs", count)]);
}

/// All strings over {0, 1, 255} up to this length.
fn short_inputs(longest: usize) -> impl Iterator<Item = Vec<u8>> {
    let of_length = |length| (0..3usize.pow(length as u32)).map(move |i| spelled(i, length));
    (0..=longest).flat_map(of_length)
}

fn spelled(mut index: usize, length: usize) -> Vec<u8> {
    let digit = |_| {
        let digit = [0, 1, 255][index % 3];
        index /= 3;
        digit
    };
    (0..length).map(digit).collect()
}

#[test]
fn any_bytes_read_the_same() {
    let mut random = Random::new(101);
    let mut numbers = Numbers::default();
    for _ in 0..400_000 {
        let bytes = any_bytes(&mut random);
        numbers.add(answer(&bytes).err());
    }
    numbers.tell("any_bytes_read_the_same", &[0, 4, 11, 12, 13, 14], 1000);
}

/// How often each number was answered.
#[derive(Default)]
struct Numbers([usize; 21]);

impl Numbers {
    fn add(&mut self, refused: Option<u8>) {
        self.0[usize::from(refused.unwrap_or(0))] += 1;
    }

    /// Says the counts, none of which may be small.
    fn tell(&self, test: &str, numbers: &[usize], least: usize) {
        let told: Vec<_> = numbers
            .iter()
            .map(|n| (format!("answered {n}"), self.0[*n]))
            .collect();
        assert!(told.iter().all(|(_, count)| *count >= least), "{told:?}");
        let told: Vec<_> = told.iter().map(|(what, n)| (what.as_str(), *n)).collect();
        report(test, &told);
    }
}

fn any_bytes(random: &mut Random) -> Vec<u8> {
    let lengths = *random.pick(&LENGTHS);
    let node = any_node(8, lengths, random);
    match random.below(8) {
        0 => {
            let length = random.below(60);
            random.bytes(length)
        }
        1 | 2 => bytes_of(&node),
        _ => {
            let damage = *random.pick(&Damage::ALL);
            damaged(&node, damage, random)
        }
    }
}

/// The original's writer against ours; what is written reads back, without
/// the children that are dropped; written again it is the same.
#[test]
fn nodes_are_written_the_same() {
    const CASES: usize = 100_000;
    let mut random = Random::new(102);
    for _ in 0..CASES {
        let lengths = *random.pick(&[Lengths::Short, Lengths::EdgesAllowed]);
        let node = any_node(8, lengths, &mut random);
        let bytes = write_node(&node).expect("the original writes any node");
        let ours = codec::write(&node.children, &node.separators);
        assert_eq!(ours.as_ref(), Ok(&bytes));
        let read = read_node(&bytes).expect("a written node is readable");
        let used = node.separators.len() + 1;
        assert_eq!(read.separators, node.separators);
        assert_eq!(read.children[..used], node.children[..used]);
        assert!(read.children[used..].iter().all(|child| *child == 0));
        assert_eq!(write_node(&read), Ok(bytes));
    }
    report("nodes_are_written_the_same", &[("nodes", CASES)]);
}

/// Behind nothing; behind a child and a value; behind a child, a value and
/// 0xFF; behind a full node: all strings over {0, 1, 255}. `strict_answer`
/// makes sure of four things. Strict accepts exactly if the lenient reading
/// accepts and the writer makes these bytes; then both read the same node; its
/// 4 and 11 to 14 are the lenient reading's; its 18, 19 and 20 are what stands
/// at their places, behind a front that is in standard form.
#[test]
fn short_inputs_read_strictly() {
    let mut numbers = Numbers::default();
    let value = |value: u64| [[0; 8], value.to_le_bytes()].concat();
    let long = |number| [value(number), vec![255]].concat();
    let full = codec::write(&[], &vec![(vec![], 1); 8]).expect("it can be written");
    let fronts = [
        (vec![], 11),
        (value(0), 10),
        (value(1), 10),
        (long(0), 10),
        (long(1), 10),
        (full, 9),
    ];
    for (front, longest) in &fronts {
        for input in short_inputs(*longest) {
            let bytes = [&front[..], &input].concat();
            numbers.add(strict_answer(&bytes).err().map(|refused| refused.number));
        }
    }
    let given = [0, 11, 12, 13, 14, 18, 19, 20];
    numbers.tell("short_inputs_read_strictly", &given, 10);
}

/// The same with random bytes, half of them with sloppy separators.
#[test]
fn any_bytes_read_strictly() {
    let mut random = Random::new(103);
    let mut numbers = Numbers::default();
    for at in 0..400_000 {
        let bytes = match at % 2 {
            0 => any_bytes(&mut random),
            _ => any_flawed(&mut random),
        };
        numbers.add(strict_answer(&bytes).err().map(|refused| refused.number));
    }
    let given = [0, 4, 11, 12, 13, 14, 18, 19, 20];
    numbers.tell("any_bytes_read_strictly", &given, 1000);
}

/// One separator with several causes: the first of 12, 13, 14, 18, 19, 4 is
/// the answer, and a cause further behind isn't seen.
#[test]
fn the_first_cause_is_the_answer() {
    let node = |separator: &[u8], behind: &[u8]| [&[0; 8], separator, behind].concat();
    let zero = [0u8; 8];
    let one = 1u64.to_le_bytes();
    let long = |value: &[u8], size: u32| [value, &[255], &size.to_le_bytes()].concat();
    let too_long = [&long(&one, 289)[..], &[7; 289]].concat();
    let cases: [(Vec<u8>, u8, usize); 12] = [
        (node(&zero, &[]), 12, 8),
        (node(&[&zero[..], &[255, 0, 0, 0]].concat(), &[]), 13, 8),
        (node(&long(&zero, 1), &[]), 14, 8),
        (node(&long(&zero, 300), &[7; 299]), 14, 8),
        (node(&long(&zero, 254), &[7; 254]), 18, 8),
        (node(&long(&one, 254), &[7; 254]), 18, 8),
        (node(&long(&zero, 255), &[7; 255]), 19, 8),
        (node(&long(&zero, 300), &[7; 300]), 19, 8),
        (node(&too_long, &[]), 4, 8),
        (node(&too_long, &[0; 17]), 4, 8),
        (node(&long(&one, 0), &[0; 3]), 18, 8),
        (node(&long(&one, 255), &[7; 255]), 11, 276),
    ];
    for (bytes, number, place) in cases {
        let refused = strict_answer(&bytes).expect_err("there is a cause");
        assert_eq!((refused.number, refused.place), (number, place));
    }
    let accepted = node(&long(&one, 255), &[7; 263]);
    assert_eq!(
        strict_answer(&accepted).map(|node| node.separators.len()),
        Ok(1)
    );
}
