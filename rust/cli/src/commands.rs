//! The commands.

use std::io::{self, BufWriter, IsTerminal, Write};
use std::path::Path;

use cikolaro::node::{self, Node};
use cikolaro::view::{self, Tree};
use cikolaro::{lines, store_size, Batch, Cursor, Entries, Error, Refusal, Store, MOST_RECORDS, MOST_SLOTS};

use crate::args::{number, Args};
use crate::failure::Failure;
use crate::{files, picture as drawing};

type Done = Result<(), Failure>;

/// Who reads standard output may stop early: that is no failure.
fn piped(written: io::Result<()>) -> Done {
    match written {
        Err(error) if error.kind() != io::ErrorKind::BrokenPipe => {
            Err(Failure::File(format!("standard output can't be written: {error}")))
        }
        _ => Ok(()),
    }
}

fn say(text: String) -> Done {
    piped(writeln!(io::stdout(), "{text}"))
}

pub fn format(words: &[String]) -> Done {
    let args = Args::of(words, &["--force"], &[], 2, 2)?;
    let count = u32::try_from(number(&args.plain[1])?).unwrap_or(u32::MAX);
    let store = Store::new(count)?;
    if Path::new(&args.plain[0]).exists() && !args.has("--force") {
        return Err(Failure::File(format!("{} is there already; --force replaces it", args.plain[0])));
    }
    files::replace(&args.plain[0], store.bytes())?;
    say(format!("formatted\t{count}\t{}", store_size(count)))
}

pub fn audit(words: &[String]) -> Done {
    let args = Args::of(words, &[], &[], 1, 1)?;
    let store = Store::unaudited(files::read(&args.plain[0])?);
    let audit = store.audit()?;
    say(format!("passed\t{}\t{}", audit.reached, store.count()))
}

pub fn apply(words: &[String]) -> Done {
    let args = Args::of(words, &["--sort", "--whole"], &["--many"], 1, 2)?;
    let file = &args.plain[0];
    let mut store = Store::unaudited(files::read(file)?);
    let text = files::read_text(args.plain.get(1).map(String::as_str))?;
    let before = store.bytes().to_vec();
    let ran = match args.number("--many")? {
        Some(size) if (1..=MOST_RECORDS).contains(&size) => apply_many(&mut store, &text, size),
        Some(size) => return Err(Failure::Usage(format!("--many {size} is not 1 to {MOST_RECORDS}"))),
        None => apply_one(&mut store, &text, args.has("--sort")),
    };
    let (applied, error) = match ran {
        Ok(applied) => (applied, None),
        Err(error) if args.has("--whole") => return Err(Failure::Refused(Error { applied: 0, ..error })),
        Err(error) => (error.applied, Some(error)),
    };
    if store.bytes() != before {
        files::replace(file, store.bytes())?;
    }
    match error {
        Some(error) => Err(error.into()),
        None => say(format!("applied\t{applied}")),
    }
}

/// 01's way: the text is one batch.
fn apply_one(store: &mut Store<Vec<u8>>, text: &[u8], sort: bool) -> Result<usize, Error> {
    match sort {
        true => store.apply(&lines::parse(text)?),
        false => store.run_lines(text),
    }
}

/// Any number of lines, in sorted batches of a size. The error counts the records of all batches.
fn apply_many(store: &mut Store<Vec<u8>>, text: &[u8], size: usize) -> Result<usize, Error> {
    let mut progress = Progress::new();
    let mut applied = 0;
    let mut batch = Batch::new();
    let mut rest = text;
    while !rest.is_empty() {
        let bad = Error { refusal: Refusal::BadText, applied };
        let end = rest.iter().position(|&b| b == b'\n').ok_or(bad)?;
        batch.append(lines::parse(&rest[..=end]).map_err(|_| bad)?);
        rest = &rest[end + 1..];
        if batch.len() == size || rest.is_empty() {
            applied += store.apply(&batch).map_err(|e| Error { applied: applied + e.applied, ..e })?;
            batch.clear();
            progress.tell(text.len() - rest.len(), text.len(), applied);
        }
    }
    Ok(applied)
}

/// Says on standard error how far a long run is: on a terminal at once, else at each tenth.
struct Progress {
    terminal: bool,
    told: usize,
}

impl Progress {
    fn new() -> Progress {
        Progress { terminal: io::stderr().is_terminal(), told: 0 }
    }

    fn tell(&mut self, done: usize, all: usize, applied: usize) {
        let percent = done * 100 / all;
        if self.terminal {
            eprint!("\r{percent}% {applied} records");
            if done == all {
                eprintln!();
            }
        } else if percent / 10 > self.told / 10 {
            eprintln!("{percent}% {applied} records");
        }
        self.told = percent;
    }
}

/// A key in hex; what is no hex is 15, as in a line.
fn key(hex: &str) -> Result<Vec<u8>, Failure> {
    Ok(lines::parse_key(hex.as_bytes())?)
}

pub fn get(words: &[String]) -> Done {
    let args = Args::of(words, &[], &[], 2, 2)?;
    let store = Store::unaudited(files::read(&args.plain[0])?);
    match store.get(&key(&args.plain[1])?)? {
        Some(value) => say(value.to_string()),
        None => Err(Failure::Absent),
    }
}

pub fn scan(words: &[String]) -> Done {
    let args = Args::of(words, &["--back"], &["--from", "--most"], 1, 1)?;
    let store = Store::unaudited(files::read(&args.plain[0])?);
    let back = args.has("--back");
    let cursor = match args.value("--from") {
        Some(hex) => Cursor::seek(&key(hex)?)?,
        None if back => Cursor::end(),
        None => Cursor::start(),
    };
    let entries = if back { Entries::backward(&store, cursor) } else { Entries::forward(&store, cursor) };
    let mut out = BufWriter::new(io::stdout().lock());
    for entry in entries.take(args.number("--most")?.unwrap_or(usize::MAX)) {
        let entry = match entry {
            Ok(entry) => entry,
            Err(refusal) => {
                piped(out.flush())?;
                return Err(refusal.into());
            }
        };
        if writeln!(out, "{}\t{}", lines::hex(entry.key()), entry.value).is_err() {
            // The reader is gone; `flush` below tells it from other failures.
            break;
        }
    }
    piped(out.flush())
}

pub fn stat(words: &[String]) -> Done {
    let args = Args::of(words, &[], &[], 1, 1)?;
    let store = Store::unaudited(files::read(&args.plain[0])?);
    let tree = view::tree(&store)?;
    let mut out = BufWriter::new(io::stdout().lock());
    piped(numbers(&tree).iter().try_for_each(|(name, n)| writeln!(out, "{name}\t{n}")).and_then(|()| out.flush()))
}

fn numbers(tree: &Tree) -> Vec<(String, usize)> {
    let (mut entries, mut key_bytes, mut fills) = (0, 0, [0usize; 9]);
    if let Some(root) = &tree.root {
        root.visit(0, &mut |node, _| {
            entries += node.separators.len();
            key_bytes += node.separators.iter().map(|(key, _)| key.len()).sum::<usize>();
            fills[node.separators.len()] += 1;
        });
    }
    let reached: usize = fills.iter().sum();
    let mut numbers = vec![
        ("slots".to_string(), tree.count as usize),
        ("reached".to_string(), reached),
        ("free".to_string(), tree.free.len()),
        ("depth".to_string(), tree.depth as usize),
        ("entries".to_string(), entries),
        ("key bytes".to_string(), key_bytes),
    ];
    numbers.extend(fills.iter().enumerate().filter(|(_, n)| **n > 0).map(|(held, n)| (format!("nodes of {held}"), *n)));
    numbers.push(("full in percent".to_string(), (entries * 100).checked_div(reached * 8).unwrap_or(0)));
    numbers
}

pub fn picture(words: &[String]) -> Done {
    let args = Args::of(words, &[], &["--most"], 1, 2)?;
    let store = Store::unaudited(files::read(&args.plain[0])?);
    let tree = view::tree(&store)?;
    let most = args.number("--most")?.unwrap_or(400).min(MOST_SLOTS as usize);
    let nodes = tree.root.as_ref().map_or(0, view::Node::nodes);
    if nodes > most {
        return Err(Failure::Usage(format!("the tree has {nodes} nodes; --most {nodes} draws them all")));
    }
    let svg = drawing::svg(&tree);
    match args.plain.get(1) {
        Some(out) => files::replace(out, svg.as_bytes()),
        None => piped(io::stdout().write_all(svg.as_bytes())),
    }
}

pub fn node(words: &[String]) -> Done {
    let args = Args::of(words, &["--strict"], &[], 1, 1)?;
    let bytes = node_bytes(&args.plain[0])?;
    let node = if args.has("--strict") { node::read_strict(&bytes)? } else { node::read(&bytes)? };
    let mut out = BufWriter::new(io::stdout().lock());
    piped(write_node(&mut out, &node).and_then(|()| out.flush()))
}

fn write_node(out: &mut impl Write, node: &Node) -> io::Result<()> {
    writeln!(out, "{}", node.children[0])?;
    for ((key, value), child) in node.separators.iter().zip(&node.children[1..]) {
        writeln!(out, "{}\t{value}\t{child}", lines::hex(key))?;
    }
    Ok(())
}

/// So much hex is read at once: whole bytes, and less than one text may have.
const HEX_AT_ONCE: usize = 8_000;

/// The bytes that a word in hex says; for `-` those of standard input, where an LF may end them.
fn node_bytes(word: &str) -> Result<Vec<u8>, Failure> {
    let text = match word {
        "-" => files::read_text(None)?,
        hex => format!("{hex}\n").into_bytes(),
    };
    let hex = text.strip_suffix(b"\n").unwrap_or(&text);
    let parts: Result<Vec<Vec<u8>>, Refusal> = hex.chunks(HEX_AT_ONCE).map(lines::parse_key).collect();
    Ok(parts.map_err(|_| Failure::Usage("node bytes are lowercase hex, two digits a byte".into()))?.concat())
}
