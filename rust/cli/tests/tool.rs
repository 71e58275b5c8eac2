//! The tool on real files.

use std::fs;
use std::io::Write;
use std::path::{Path, PathBuf};
use std::process::{Command, Output, Stdio};
use std::sync::atomic::{AtomicU32, Ordering};

/// A folder of its own for each test, taken away at its end.
struct Folder(PathBuf);

impl Folder {
    fn new() -> Folder {
        static NEXT: AtomicU32 = AtomicU32::new(0);
        let name = format!("cikolaro-tool-{}-{}", std::process::id(), NEXT.fetch_add(1, Ordering::Relaxed));
        let path = std::env::temp_dir().join(name);
        fs::create_dir(&path).unwrap();
        Folder(path)
    }

    fn path(&self, name: &str) -> String {
        self.0.join(name).to_str().unwrap().to_string()
    }

    fn write(&self, name: &str, bytes: &[u8]) -> String {
        fs::write(self.0.join(name), bytes).unwrap();
        self.path(name)
    }

    fn names(&self) -> Vec<String> {
        let mut names: Vec<_> =
            fs::read_dir(&self.0).unwrap().map(|e| e.unwrap().file_name().into_string().unwrap()).collect();
        names.sort();
        names
    }
}

impl Drop for Folder {
    fn drop(&mut self) {
        let _ = fs::remove_dir_all(&self.0);
    }
}

fn tool(words: &[&str]) -> Output {
    Command::new(env!("CARGO_BIN_EXE_cikolaro")).args(words).stdin(Stdio::null()).output().unwrap()
}

fn tool_fed(words: &[&str], text: &[u8]) -> Output {
    let mut child = Command::new(env!("CARGO_BIN_EXE_cikolaro"))
        .args(words)
        .stdin(Stdio::piped())
        .stdout(Stdio::piped())
        .stderr(Stdio::piped())
        .spawn()
        .unwrap();
    child.stdin.take().unwrap().write_all(text).unwrap();
    child.wait_with_output().unwrap()
}

/// What it wrote and how it ended.
fn ended(output: &Output) -> (String, i32) {
    (String::from_utf8(output.stdout.clone()).unwrap(), output.status.code().unwrap())
}

fn said(output: &Output) -> String {
    String::from_utf8(output.stderr.clone()).unwrap()
}

fn ok(text: &str) -> (String, i32) {
    (text.to_string(), 0)
}

fn formatted(folder: &Folder, count: u32) -> String {
    let store = folder.path("store");
    assert_eq!(ended(&tool(&["format", &store, &count.to_string()])).1, 0);
    store
}

fn sets(keys: std::ops::RangeInclusive<u32>) -> Vec<u8> {
    keys.flat_map(|k| format!("set\t{k:08x}\t{}\n", k + 1).into_bytes()).collect()
}

#[test]
fn the_told_input_writes_the_told_lines() {
    let folder = Folder::new();
    let store = formatted(&folder, 25);
    assert_eq!(ended(&tool_fed(&["apply", &store], b"set\t61\t5\nset\t62\t7\n")), ok("applied\t2\n"));
    assert_eq!(ended(&tool(&["scan", &store])), ok("61\t5\n62\t7\n"));
    assert_eq!(ended(&tool(&["scan", &store, "--back"])), ok("62\t7\n61\t5\n"));
    assert_eq!(ended(&tool(&["scan", &store, "--from", "6100"])), ok("62\t7\n"));
    assert_eq!(ended(&tool(&["scan", &store, "--most", "1"])), ok("61\t5\n"));
    assert_eq!(ended(&tool(&["get", &store, "62"])), ok("7\n"));
    assert_eq!(ended(&tool(&["get", &store, "63"])), (String::new(), 1));
    assert_eq!(ended(&tool(&["audit", &store])), ok("passed\t1\t25\n"));
    assert_eq!(folder.names(), ["store"]);
}

#[test]
fn refusals_have_their_number_and_leave_the_file() {
    let folder = Folder::new();
    let store = formatted(&folder, 3);
    tool_fed(&["apply", &store], b"set\t61\t5\n");
    let before = fs::read(&store).unwrap();
    let long = format!("set\t{}\t1\n", "61".repeat(289));
    let much = b"del\t61\n".repeat(2341);
    let cases: [(&[u8], &str); 7] = [
        (b"set\t61\t05\n", "refused\t15\t0\n"),
        (b"set\t61\t5", "refused\t15\t0\n"),
        (b"set\t62\t5\nset\t61\t5\n", "refused\t6\t0\n"),
        (b"set\t61\t0\n", "refused\t5\t0\n"),
        (long.as_bytes(), "refused\t4\t0\n"),
        (b"put\t61\t5\n", "refused\t15\t0\n"),
        (&much, "refused\t15\t0\n"),
    ];
    for (text, line) in cases {
        let output = tool_fed(&["apply", &store], text);
        assert_eq!(ended(&output), (line.to_string(), 4));
        assert!(said(&output).starts_with("cikolaro: refused "), "{}", said(&output));
        assert_eq!(fs::read(&store).unwrap(), before);
    }
}

#[test]
fn sorted_lines_may_stand_in_any_order() {
    let folder = Folder::new();
    let store = formatted(&folder, 3);
    let text = b"set\t62\t5\nset\t61\t5\nset\t62\t9\n";
    assert_eq!(ended(&tool_fed(&["apply", &store, "--sort"], text)), ok("applied\t3\n"));
    assert_eq!(ended(&tool(&["scan", &store])), ok("61\t5\n62\t9\n"));
}

#[test]
fn without_room_the_applied_part_stays_unless_whole() {
    let folder = Folder::new();
    let store = formatted(&folder, 2);
    let before = fs::read(&store).unwrap();
    let lines = folder.write("lines", &sets(1..=9));
    assert_eq!(ended(&tool(&["apply", &store, &lines, "--whole"])), ("refused\t9\t0\n".to_string(), 6));
    assert_eq!(fs::read(&store).unwrap(), before);
    assert_eq!(ended(&tool(&["apply", &store, &lines])), ("refused\t9\t8\n".to_string(), 6));
    assert_eq!(ended(&tool(&["scan", &store])).0.lines().count(), 8);
}

#[test]
fn many_lines_run_in_batches_with_progress() {
    let folder = Folder::new();
    let store = formatted(&folder, 6_000);
    let mut lines: Vec<Vec<u8>> = sets(1..=20_000).split_inclusive(|&b| b == b'\n').map(<[u8]>::to_vec).collect();
    lines.reverse();
    let lines = folder.write("lines", &lines.concat());
    assert_eq!(ended(&tool(&["apply", &store, &lines])), ("refused\t15\t0\n".to_string(), 4));
    let output = tool(&["apply", &store, &lines, "--many", "1000"]);
    assert_eq!(ended(&output), ok("applied\t20000\n"));
    assert!(said(&output).contains("100% 20000 records"), "{}", said(&output));
    let entries = ended(&tool(&["scan", &store])).0;
    let told: String = (1..=20_000u32).map(|k| format!("{k:08x}\t{}\n", k + 1)).collect();
    assert_eq!(entries, told);
    let stat = ended(&tool(&["stat", &store])).0;
    assert!(stat.contains("entries\t20000\n") && stat.contains("slots\t6000\n"), "{stat}");
    let output = tool_fed(&["apply", &store, "--many", "1"], b"set\t61\t5\nbad\n");
    assert_eq!(ended(&output), ("refused\t15\t1\n".to_string(), 4));
    assert_eq!(ended(&tool(&["get", &store, "61"])), ok("5\n"));
}

#[test]
fn damage_is_found() {
    let folder = Folder::new();
    let store = formatted(&folder, 4);
    tool_fed(&["apply", &store], &sets(1..=9));
    let mut bytes = fs::read(&store).unwrap();
    let last = bytes.len() - 1;
    bytes[last] = 1;
    fs::write(&store, &bytes).unwrap();
    for command in ["audit", "stat", "picture"] {
        assert_eq!(ended(&tool(&[command, &store])), ("refused\t8\t0\n".to_string(), 5), "{command}");
    }
    assert_eq!(ended(&tool_fed(&["apply", &store], b"")), ("refused\t8\t0\n".to_string(), 5));
    bytes.pop();
    fs::write(&store, &bytes).unwrap();
    for words in [vec!["audit", &store], vec!["get", &store, "61"], vec!["scan", &store], vec!["apply", &store]] {
        assert_eq!(ended(&tool(&words)), ("refused\t1\t0\n".to_string(), 5), "{words:?}");
    }
    assert_eq!(fs::read(&store).unwrap(), bytes);
}

#[test]
fn a_file_that_is_there_is_not_formatted_unasked() {
    let folder = Folder::new();
    let store = formatted(&folder, 2);
    tool_fed(&["apply", &store], b"set\t61\t5\n");
    assert_eq!(ended(&tool(&["format", &store, "2"])).1, 3);
    assert_eq!(ended(&tool(&["get", &store, "61"])), ok("5\n"));
    assert_eq!(ended(&tool(&["format", &store, "2", "--force"])).1, 0);
    assert_eq!(ended(&tool(&["get", &store, "61"])), (String::new(), 1));
    for count in ["0", "65536", "99999999999"] {
        assert_eq!(ended(&tool(&["format", &folder.path("new"), count])), ("refused\t1\t0\n".to_string(), 5));
    }
    assert_eq!(folder.names(), ["store"]);
}

#[test]
fn files_that_are_not_there_and_bad_words_are_told() {
    let folder = Folder::new();
    let none = folder.path("none");
    for words in [vec!["audit", &none], vec!["get", &none, "61"], vec!["apply", &none], vec!["picture", &none]] {
        assert_eq!(ended(&tool(&words)), (String::new(), 3), "{words:?}");
    }
    let store = formatted(&folder, 1);
    let beyond = Path::new(&none).join("p.svg");
    assert_eq!(ended(&tool(&["picture", &store, beyond.to_str().unwrap()])).1, 3);
    let bad: [&[&str]; 7] = [
        &[],
        &["grow"],
        &["audit"],
        &["audit", &store, &store],
        &["scan", &store, "--up"],
        &["scan", &store, "--most"],
        &["scan", &store, "--most", "x"],
    ];
    for words in bad {
        assert_eq!(ended(&tool(words)), (String::new(), 2), "{words:?}");
    }
    assert_eq!(ended(&tool(&["get", &store, "6"])), ("refused\t15\t0\n".to_string(), 4));
}

#[test]
fn help_is_there_for_each_command() {
    assert!(ended(&tool(&["--help"])).0.contains("Exit status"));
    for command in ["format", "audit", "apply", "get", "scan", "stat", "picture", "node"] {
        let (text, status) = ended(&tool(&[command, "--help"]));
        assert_eq!(status, 0);
        assert!(text.starts_with(&format!("cikolaro {command} ")), "{text}");
    }
}

#[test]
fn a_split_can_be_looked_at() {
    let folder = Folder::new();
    let store = formatted(&folder, 4);
    tool_fed(
        &["apply", &store],
        b"set\t61\t1\nset\t62\t2\nset\t63\t3\nset\t64\t4\nset\t65\t5\nset\t66\t6\nset\t67\t7\nset\t68\t8\nset\t69\t9\n",
    );
    let svg = ended(&tool(&["picture", &store])).0;
    assert!(svg.starts_with("<svg ") && svg.ends_with("</svg>\n"));
    for text in ["slot 1 · 4/8", "slot 2 · 4/8", "slot 3 · 1/8", ">e</text>", "free chain: 4", "<title>69 = 9</title>"]
    {
        assert!(svg.contains(text), "{text}");
    }
    let out = folder.path("p.svg");
    assert_eq!(ended(&tool(&["picture", &store, &out])), ok(""));
    assert_eq!(fs::read_to_string(&out).unwrap(), svg);
    assert_eq!(ended(&tool(&["picture", &store, "--most", "2"])).1, 2);
}

const SEVEN: &str = "0700000000000000";
const FIVE: &str = "0500000000000000";
const ZERO: &str = "0000000000000000";

/// A node of so many separators, key `6162`, value 5, every child 7.
fn node_hex(separators: usize) -> String {
    format!("{SEVEN}{}", format!("{FIVE}026162{SEVEN}").repeat(separators))
}

#[test]
fn a_node_in_standard_form_is_shown_by_both_readings() {
    let one = node_hex(1);
    let shown = ok("7\n6162\t5\t7\n");
    for words in [vec!["node", &one], vec!["node", "--strict", &one], vec!["node", &one, "--strict"]] {
        assert_eq!(ended(&tool(&words)), shown, "{words:?}");
    }
    assert_eq!(ended(&tool(&["node", "--strict", ZERO])), ok("0\n"));
    assert_eq!(ended(&tool(&["node", "--strict", &node_hex(8)])), ok(&format!("7\n{}", "6162\t5\t7\n".repeat(8))));
    let long = format!("{ZERO}{FIVE}ff20010000{}{ZERO}", "61".repeat(288));
    assert_eq!(ended(&tool(&["node", "--strict", &long])), ok(&format!("0\n{}\t5\t0\n", "61".repeat(288))));
}

#[test]
fn a_node_is_read_from_standard_input() {
    let (one, shown) = (node_hex(1), ok("7\n6162\t5\t7\n"));
    for text in [one.clone(), format!("{one}\n")] {
        assert_eq!(ended(&tool_fed(&["node", "-"], text.as_bytes())), shown);
        assert_eq!(ended(&tool_fed(&["node", "--strict", "-"], text.as_bytes())), shown);
    }
    // More hex than one text of house lines has.
    let much = format!("{}{}", node_hex(8), "00".repeat(20_000));
    assert_eq!(ended(&tool_fed(&["node", "-"], much.as_bytes())), ended(&tool(&["node", &node_hex(8)])));
    assert_eq!(ended(&tool_fed(&["node", "--strict", "-"], much.as_bytes())), ("refused\t20\t160\n".to_string(), 4));
}

#[test]
fn sloppy_node_bytes_are_refused_by_the_strict_reading_alone() {
    let (one, full) = (node_hex(1), node_hex(8));
    let shown = "7\n6162\t5\t7\n";
    let cases = [
        (
            format!("{SEVEN}{FIVE}ff020000006162{SEVEN}"),
            shown,
            18,
            8,
            "a length below 255; the separator begins at byte 8",
        ),
        (format!("{one}{ZERO}00"), shown, 19, 27, "the value 0; the separator begins at byte 27"),
        (format!("{full}00"), &format!("7\n{}", "6162\t5\t7\n".repeat(8)), 20, 160, "they begin at byte 160"),
    ];
    for (hex, lenient, number, place, meaning) in cases {
        assert_eq!(ended(&tool(&["node", &hex])), ok(lenient), "{hex}");
        let output = tool(&["node", "--strict", &hex]);
        assert_eq!(ended(&output), (format!("refused\t{number}\t{place}\n"), 4), "{hex}");
        assert!(said(&output).starts_with(&format!("cikolaro: refused {number}: ")), "{}", said(&output));
        assert!(said(&output).trim_end().ends_with(meaning), "{}", said(&output));
    }
}

#[test]
fn bad_node_bytes_are_refused_by_both_readings() {
    let one = node_hex(1);
    let cases = [
        (String::new(), 11, 0, "the child begins at byte 0"),
        (one[..2 * 20].to_string(), 11, 19, "the child begins at byte 19"),
        (format!("{one}{FIVE}"), 12, 27, "the separator begins at byte 27"),
        (format!("{one}{FIVE}ff000000"), 13, 27, "the separator begins at byte 27"),
        (format!("{one}{FIVE}0261"), 14, 27, "the separator begins at byte 27"),
        (format!("{SEVEN}{FIVE}ff21010000{}{SEVEN}", "61".repeat(289)), 4, 8, "the separator begins at byte 8"),
    ];
    for (hex, number, place, meaning) in cases {
        assert_eq!(ended(&tool(&["node", &hex])), (format!("refused\t{number}\t0\n"), 4), "{hex}");
        let output = tool(&["node", "--strict", &hex]);
        assert_eq!(ended(&output), (format!("refused\t{number}\t{place}\n"), 4), "{hex}");
        assert!(said(&output).trim_end().ends_with(meaning), "{}", said(&output));
    }
}

#[test]
fn what_is_no_hex_is_told() {
    for hex in ["0", "0g", "AA", "00 00", "0x00", "00\n", "é"] {
        let output = tool(&["node", hex]);
        assert_eq!(ended(&output), (String::new(), 2), "{hex:?}");
        assert!(said(&output).contains("lowercase hex"), "{}", said(&output));
    }
    for text in [&b"00\n00\n"[..], b"00\r\n", b"0", &[255]] {
        assert_eq!(ended(&tool_fed(&["node", "-"], text)), (String::new(), 2), "{text:?}");
    }
    assert_eq!(ended(&tool(&["node"])), (String::new(), 2));
}
