//! House lines, good and bad: parsed, and run as batches on a store, beside our own reading of 01.

use cikolaro::raw;
use oracle::lists::walks::laid_out;
use oracle::model::store::Store as Model;
use oracle::random::Random;
use original::btree::glue::Change;

use crate::records::{encoded, refusal};
use crate::shrink::shrunk;
use crate::{same, Compared, Counts};

/// "More than 16,384 bytes .. is 15."
const MOST_TEXT: usize = 16_384;

/// The changes that a text says; none where it is 15, whatever the room.
fn changes(text: &[u8]) -> Option<Vec<Change>> {
    if text.len() > MOST_TEXT {
        return None;
    }
    let Some((last, lines)) = text.split_last() else { return Some(Vec::new()) };
    if *last != b'\n' {
        return None;
    }
    lines.split(|&b| b == b'\n').map(change).collect()
}

/// One line without its LF.
fn change(line: &[u8]) -> Option<Change> {
    let fields: Vec<&[u8]> = line.split(|&b| b == b'\t').collect();
    match fields[..] {
        [b"set", key, value] => Some(Change::Set(hex_key(key)?, decimal(value)?)),
        [b"del", key] => Some(Change::Dereference(hex_key(key)?)),
        _ => None,
    }
}

fn digit(b: u8) -> Option<u8> {
    match b {
        b'0'..=b'9' => Some(b - b'0'),
        b'a'..=b'f' => Some(b - b'a' + 10),
        _ => None,
    }
}

/// "Hex of odd length .. 15"; the empty text is the empty key.
fn hex_key(hex: &[u8]) -> Option<Vec<u8>> {
    let bytes = hex.chunks_exact(2);
    if !bytes.remainder().is_empty() {
        return None;
    }
    bytes.map(|pair| Some(digit(pair[0])? * 16 + digit(pair[1])?)).collect()
}

/// "no signs or leading zeros; a lone 0 is a value"; "a value above a u64 [is] 15".
fn decimal(field: &[u8]) -> Option<u64> {
    let padded = field.len() > 1 && field[0] == b'0';
    if field.is_empty() || padded || !field.iter().all(u8::is_ascii_digit) {
        return None;
    }
    std::str::from_utf8(field).ok()?.parse().ok()
}

/// A store, lent words and a text for each of a few batches.
#[derive(Clone)]
struct Night {
    count: u32,
    words: usize,
    /// Lines, each with its LF where it has one.
    texts: Vec<Vec<Vec<u8>>>,
    /// For rooms and for what stands in lent bytes and words before a call.
    seed: u64,
}

pub fn case(random: &mut Random, counts: &mut Counts) -> Compared {
    let count = random.between(1, 12) as u32;
    let words = if random.percent(90) { random.between(1, 3) } else { 0 };
    let texts = (0..random.between(1, 8)).map(|_| text(random)).collect();
    let night = Night { count, words, texts, seed: random.any() };
    check(&night, counts).map_err(|told| smallest(night, told))
}

/// The same with lines taken out, as long as it disagrees.
fn smallest(night: Night, told: String) -> String {
    let with = |texts: &[Vec<Vec<u8>>]| Night { texts: texts.to_vec(), ..night.clone() };
    let fails = |texts: &[Vec<Vec<u8>>]| check(&with(texts), &mut Counts::default()).is_err();
    let mut texts = shrunk(night.texts.clone(), &fails);
    for i in 0..texts.len() {
        let others = texts.clone();
        texts[i] = shrunk(others[i].clone(), &|lines: &[Vec<u8>]| {
            let mut texts = others.clone();
            texts[i] = lines.to_vec();
            fails(&texts)
        });
    }
    let last = check(&with(&texts), &mut Counts::default()).err().unwrap_or(told);
    let texts: Vec<String> = texts.iter().map(|lines| lines.concat().escape_ascii().to_string()).collect();
    format!("{last}\n  slots {}, words {}, seed {}, texts {texts:?}", night.count, night.words, night.seed)
}

/// Lines with keys that mostly rise, some of them bad; now and then as much text as is taken, or a little more.
fn text(random: &mut Random) -> Vec<Vec<u8>> {
    if random.percent(2) {
        let mut lines = vec![b"del\t\n".to_vec(); MOST_TEXT / 5 - 1];
        lines.push([&b"del\t6161616161"[..random.between(6, 14)], b"\n"].concat());
        return lines;
    }
    let mut keys: Vec<Vec<u8>> = (0..random.between(0, 25))
        .map(|_| {
            let length = if random.percent(3) { random.between(286, 290) } else { random.below(4) };
            random.bytes(length)
        })
        .collect();
    if random.percent(85) {
        keys.sort();
    }
    // Two texts of three have no flaw.
    let flawed = random.below(keys.len().max(1) * 3);
    keys.iter().enumerate().map(|(at, key)| line(key, at == flawed, random)).collect()
}

fn line(key: &[u8], is_bad: bool, random: &mut Random) -> Vec<u8> {
    let hex: String = key.iter().map(|b| format!("{b:02x}")).collect();
    let any = random.any() >> random.below(64);
    let value = if random.percent(2) { *random.pick(&[0, u64::MAX]) } else { any.max(1) };
    let good = if random.percent(70) { format!("set\t{hex}\t{value}\n") } else { format!("del\t{hex}\n") };
    if is_bad {
        flawed(&hex, value, good, random)
    } else {
        good.into_bytes()
    }
}

/// A line with a flaw that 01 names, or with any byte another one, which may be no flaw.
fn flawed(hex: &str, value: u64, good: String, random: &mut Random) -> Vec<u8> {
    let bad = match random.below(16) {
        0 => "\n".to_string(),
        1 => good.replace('\n', ""),
        2 => good.replace('\n', "\r\n"),
        3 => good.replacen('\t', " ", 1),
        4 => good.replace('\n', "\t\n"),
        5 => good.replace('\n', "\n\n"),
        6 => format!("set\t{hex}0\t{value}\n"),
        7 => format!("set\t{hex}6A\t{value}\n"),
        8 => format!("set\t{hex}\t0{value}\n"),
        9 => format!("set\t{hex}\t+{value}\n"),
        10 => format!("set\t{hex}\t-0\n"),
        11 => format!("set\t{hex}\t1844674407370955161{}\n", random.between(4, 9)),
        12 => format!("set\t{hex}\t{value}00000000000000000000\n"),
        13 => format!("{}\t{hex}\t{value}\n", random.pick(&["Set", "sets", "se", "", "del"])),
        _ => {
            let mut bytes = good.into_bytes();
            let at = random.below(bytes.len());
            let any = random.any() as u8;
            bytes[at] = *random.pick(&[b'\t', b'\n', b'0', b'f', b'g', b'/', b':', b'`', 0, any]);
            return bytes;
        }
    };
    bad.into_bytes()
}

fn check(night: &Night, counts: &mut Counts) -> Compared {
    let mut random = Random::new(night.seed);
    let mut model = Model::format(night.count);
    let mut store = laid_out(&model.shape(), &model.free_chain());
    for lines in &night.texts {
        let text = lines.concat();
        let said = changes(&text);
        let length = said.as_deref().map_or(100, |records| encoded(records).len());
        let room = *random.pick(&[length, length, length + 1, length.saturating_sub(1), 40_000, 0]);
        let taken = said.filter(|_| length <= room);
        counts.texts += 1;
        counts.texts_refused += usize::from(taken.is_none());
        let mut left = taken.as_deref().map(encoded).unwrap_or_default();
        let answer = taken.as_ref().map_or((15, 0), |_| (0, left.len()));
        left.resize(room, 0);
        let mut buffer = random.bytes(room);
        same("parse", raw::parse(&text, &mut buffer), answer)?;
        same("the record buffer", &buffer, &left)?;

        let marks: Vec<u64> = (0..night.words).map(|_| random.any()).collect();
        let (number, applied) = run(&mut model, night.words, taken.as_deref());
        let (mut marks_after, mut buffer) = (marks.clone(), random.bytes(room));
        let ran = raw::run_lines(&mut store, &mut marks_after, &mut buffer, &text);
        same("number and applied of run_lines", ran, (number, applied))?;
        same("the record buffer of run_lines", &buffer, &left)?;
        let zeroed = number == 0 || number == 9;
        same("the marks of run_lines", marks_after, if zeroed { vec![0; night.words] } else { marks })?;
        same("the store after run_lines", store == laid_out(&model.shape(), &model.free_chain()), true)?;
        counts.lines_applied += applied;
    }
    Ok(())
}

/// The number and the records applied, on our own side; "Any 15 comes before the batch's own refusals."
fn run(model: &mut Model, words: usize, taken: Option<&[Change]>) -> (u32, usize) {
    let Some(records) = taken else { return (15, 0) };
    if words == 0 {
        return (2, 0);
    }
    match refusal(&encoded(records)) {
        0 => {
            let told = model.batch(records);
            (u32::from(told.number), told.applied)
        }
        number => (number, 0),
    }
}
