//! Node readings: bytes, and the answers in 01's numbers, of the lenient and
//! of the strict reading.

use super::frame::{self, Frame};
use super::List;
use crate::model::codec::{Reading, MOST_SEPARATORS};
use crate::nodes::{add_long_separator, any_node, bytes_of, damaged, node, Damage, Lengths, EDGES};
use crate::random::Random;
use crate::readings::{answer, strict_answer};
use crate::sloppy::{add_behind, flawed, Flaw};
use original::btree::glue::NodeParts;

/// The seed of the stored list.
pub const SEED: u64 = 0x5EED_00A1;

/// No block is longer.
const LIMIT: usize = 4096;

/// No input is longer: "The largest node is [...] 2,480 bytes."
const LONGEST_INPUT: usize = 2480;

pub fn list() -> List {
    let mut inputs = Vec::new();
    add_short(&mut inputs);
    add_second_separator(&mut inputs);
    add_sizes(&mut inputs);
    add_one_node_damaged_everywhere(&mut inputs);
    let mut random = Random::new(SEED);
    add_random(&mut inputs, &mut random);
    add_too_long(&mut inputs, &mut random);
    add_sloppy(&mut inputs, &mut random);
    let blocks = frame::distinct(inputs.iter().map(|input| case(input)).collect());
    frame::list("node_readings.bin", &blocks, blocks.len(), LIMIT)
}

fn case(input: &[u8]) -> Frame {
    let mut frame = Frame::default();
    assert!(input.len() <= LONGEST_INPUT);
    frame.part(input);
    match answer(input) {
        Err(number) => frame.byte(number.into()),
        Ok(node) => {
            frame.byte(0);
            add_node(&mut frame, &node);
        }
    }
    let (number, place) = match strict_answer(input) {
        Err(refused) => (refused.number, refused.place),
        Ok(_) => (0, input.len()),
    };
    frame.byte(number.into());
    frame.short(place);
    frame
}

fn add_node(frame: &mut Frame, node: &Reading) {
    frame.byte(node.separators.len());
    node.children.iter().for_each(|child| frame.long(*child));
    for separator in &node.separators {
        frame.long(separator.value);
        frame.short(separator.key.start);
        frame.short(separator.key.len());
    }
}

/// All strings of 0 to 8 bytes over {0, 255}. Then 9 to 20 bytes: all choices
/// for the bytes that decide something, the others 0.
fn add_short(inputs: &mut Vec<Vec<u8>>) {
    for length in 0..=8 {
        let places: Vec<Place> = (0..length).map(|at| (at, &[0, 255][..])).collect();
        add_choices(inputs, &vec![0; length], &places);
    }
    for length in 9..=20 {
        let child: [Place; 2] = [(0, &[0, 255]), (7, &[0, 1])];
        let separator = [8, 15, 16, 17, 18, 19].map(|at| (at, &[0, 1, 255][..]));
        let places = [&child[..], &separator[..]].concat();
        add_choices(inputs, &vec![0; length], &places);
    }
}

/// Behind a child, a whole separator and a child: 0 to 13 bytes more, all
/// choices for those that decide something.
fn add_second_separator(inputs: &mut Vec<Vec<u8>>) {
    let whole = bytes_of(&NodeParts {
        children: [3, 4, 0, 0, 0, 0, 0, 0, 0],
        separators: vec![(vec![5], 6)],
    });
    let places = [0, 7, 8, 9, 10, 11, 12].map(|at| (whole.len() + at, &[0, 1, 255][..]));
    for more in 0..=13 {
        let base = [&whole[..], &vec![0; more]].concat();
        add_choices(inputs, &base, &places);
    }
}

/// A place in an input and the bytes to try there.
type Place<'a> = (usize, &'a [u8]);

/// The base with every choice of bytes at those of the places that it has.
fn add_choices(inputs: &mut Vec<Vec<u8>>, base: &[u8], places: &[Place]) {
    let mut choices = vec![base.to_vec()];
    for (at, bytes) in places.iter().filter(|(at, _)| *at < base.len()) {
        let with = |input: &Vec<u8>, byte: u8| {
            let mut input = input.clone();
            input[*at] = byte;
            input
        };
        choices = choices
            .iter()
            .flat_map(|input| bytes.iter().map(move |byte| with(input, *byte)))
            .collect();
    }
    inputs.extend(choices);
}

/// Lengths in four bytes, with too little behind them, enough, and more.
fn add_sizes(inputs: &mut Vec<Vec<u8>>) {
    const HUGE: [u32; 5] = [65_536, 1 << 24, 1 << 31, u32::MAX - 8, u32::MAX];
    for value in [0, 1] {
        for length in [0, 1, 200].into_iter().chain(EDGES) {
            for missing in [1, 0] {
                add_size(inputs, value, length, missing.min(length), 0);
            }
            for more in [1, 8, 9] {
                add_size(inputs, value, length, 0, more);
            }
        }
        for size in HUGE {
            let mut input = vec![0; 8];
            add_long_separator(&mut input, &[9; 20], value);
            input[17..21].copy_from_slice(&size.to_le_bytes());
            inputs.push(input);
        }
    }
}

fn add_size(inputs: &mut Vec<Vec<u8>>, value: u64, length: usize, missing: usize, more: usize) {
    let mut input = vec![0; 8];
    add_long_separator(&mut input, &vec![7; length], value);
    input.truncate(input.len() - missing);
    input.extend(vec![0; more]);
    inputs.push(input);
}

/// A full node: cut everywhere, and every byte changed.
fn add_one_node_damaged_everywhere(inputs: &mut Vec<Vec<u8>>) {
    let full = bytes_of(&NodeParts {
        children: [1, 2, 3, 4, 5, 6, 7, 8, 9],
        separators: (0..8u8).map(|at| (vec![at], 10 + u64::from(at))).collect(),
    });
    inputs.extend((0..full.len()).map(|length| full[..length].to_vec()));
    for at in 0..full.len() {
        for byte in [0, 255] {
            let mut input = full.clone();
            input[at] = byte;
            inputs.push(input);
        }
    }
}

fn add_random(inputs: &mut Vec<Vec<u8>>, random: &mut Random) {
    for _ in 0..2200 {
        inputs.push(bytes_of(&any_node(8, Lengths::Short, random)));
    }
    for damage in Damage::ALL {
        for _ in 0..1750 {
            let node = any_node(7, Lengths::Short, random);
            inputs.push(damaged(&node, damage, random));
        }
        for _ in 0..50 {
            let node = any_node(3, Lengths::Edges, random);
            inputs.push(damaged(&node, damage, random));
        }
    }
    for _ in 0..400 {
        inputs.push(bytes_of(&any_node(3, Lengths::Edges, random)));
    }
    for _ in 0..20 {
        inputs.push(bytes_of(&node(8, Lengths::EdgesAllowed, random)));
    }
    inputs.push(largest(random));
}

/// A key that is too long as each of the separators, whole and then: cut before
/// its last byte, cut behind it, cut in the next child.
fn add_too_long(inputs: &mut Vec<Vec<u8>>, random: &mut Random) {
    for at in 0..8 {
        for length in [289, 290, 300, 1000] {
            let mut node = node(at + 1, Lengths::Short, random);
            node.separators[at].0 = random.bytes(length);
            let whole = bytes_of(&node);
            for missing in [9, 8, 1, 0] {
                inputs.push(whole[..whole.len() - missing].to_vec());
            }
            let more = random.below(30);
            inputs.push([whole, random.bytes(more)].concat());
        }
    }
}

/// The largest node.
fn largest(random: &mut Random) -> Vec<u8> {
    let bytes = bytes_of(&NodeParts {
        children: std::array::from_fn(|_| random.any()),
        separators: (0..8).map(|at| (random.bytes(288), at + 1)).collect(),
    });
    assert_eq!(bytes.len(), LONGEST_INPUT);
    bytes
}

/// What the strict reading adds, in each of the separators: each flaw alone,
/// with another cause in the same separator or further behind, and with bytes
/// behind the end. Then full nodes with nothing but bytes behind.
fn add_sloppy(inputs: &mut Vec<Vec<u8>>, random: &mut Random) {
    for at in 0..MOST_SEPARATORS {
        for flaw in Flaw::ALL {
            add_flaw(inputs, at, flaw, random);
            add_two_flaws(inputs, at, flaw, random);
        }
    }
    for _ in 0..300 {
        inputs.push(full_with_more(&[], random));
    }
}

fn add_flaw(inputs: &mut Vec<Vec<u8>>, at: usize, flaw: Flaw, random: &mut Random) {
    let flaws = [(at, flaw)];
    for _ in 0..8 {
        let count = random.between(at + 1, MOST_SEPARATORS);
        inputs.push(flawed(count, &flaws, random));
    }
    for _ in 0..3 {
        inputs.push(cut_within(at, flaw, random));
    }
    add_cut_behind(inputs, at, flaw, random);
    for _ in 0..2 {
        inputs.push(full_with_more(&flaws, random));
    }
}

/// Cut in the flawed separator itself, more often before its last byte.
fn cut_within(at: usize, flaw: Flaw, random: &mut Random) -> Vec<u8> {
    let mut input = flawed(at, &[], random);
    let start = input.len();
    flaw.add(&mut input, random);
    let last = input.len() - 1;
    let any = random.between(start + 1, last);
    input.truncate(*random.pick(&[last, any]));
    input
}

/// Cut further behind, one byte short of a head, of a long size, of a key, of
/// a child; behind the eighth separator only a child can be cut.
fn add_cut_behind(inputs: &mut Vec<Vec<u8>>, at: usize, flaw: Flaw, random: &mut Random) {
    let flaws = [(at, flaw)];
    let value = [1; 8];
    let cuts: [&[u8]; 4] = [
        &[],
        &[0xFF, 0, 0, 0],
        &[5, 1, 2, 3, 4],
        &[0, 0, 0, 0, 0, 0, 0, 0],
    ];
    for cut in cuts {
        if at + 1 == MOST_SEPARATORS {
            let mut input = flawed(MOST_SEPARATORS, &flaws, random);
            input.pop();
            inputs.push(input);
        } else {
            let count = random.between(at + 1, MOST_SEPARATORS - 1);
            let front = flawed(count, &flaws, random);
            inputs.push([&front, &value[..], cut].concat());
        }
    }
}

/// Every second flaw further behind.
fn add_two_flaws(inputs: &mut Vec<Vec<u8>>, at: usize, flaw: Flaw, random: &mut Random) {
    if at + 1 == MOST_SEPARATORS {
        return;
    }
    for second in Flaw::ALL {
        let behind = random.between(at + 1, MOST_SEPARATORS - 1);
        let count = random.between(behind + 1, MOST_SEPARATORS);
        let flaws = [(at, flaw), (behind, second)];
        inputs.push(flawed(count, &flaws, random));
    }
}

fn full_with_more(flaws: &[(usize, Flaw)], random: &mut Random) -> Vec<u8> {
    let mut input = flawed(MOST_SEPARATORS, flaws, random);
    add_behind(&mut input, random);
    input
}
