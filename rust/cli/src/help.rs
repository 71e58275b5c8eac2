//! What `--help` says.

pub const ALL: &str = "\
cikolaro: proved B-tree stores in files

  cikolaro format FILE COUNT   make an empty store of COUNT slots
  cikolaro audit FILE          whether the store passes the audit
  cikolaro apply FILE [LINES]  apply changes, read as lines
  cikolaro get FILE KEY        the value of a key
  cikolaro scan FILE           entries in key order
  cikolaro stat FILE           how full the store is
  cikolaro picture FILE [OUT]  the tree as an SVG
  cikolaro node HEX            what a node's bytes say

`cikolaro COMMAND --help` says more. Keys are lowercase hex, values decimal.

A refusal writes `refused` TAB number TAB records applied to standard output, and its meaning to standard error.
Exit status: 0 done; 1 the key is absent; 2 bad usage; 3 a file can't be read or written; 4 the input is refused (3 to 7, 11 to 15,
18 to 20); 5 the store is refused (1, 8); 6 no room (9).
A file is replaced as a whole or not at all.
";

pub fn of(command: &str) -> Option<&'static str> {
    Some(match command {
        "format" => FORMAT,
        "audit" => AUDIT,
        "apply" => APPLY,
        "get" => GET,
        "scan" => SCAN,
        "stat" => STAT,
        "picture" => PICTURE,
        "node" => NODE,
        _ => return None,
    })
}

const FORMAT: &str = "\
cikolaro format FILE COUNT [--force]

Makes FILE an empty store of COUNT slots (1 to 65,535), 24 + 2,560 * COUNT bytes. A FILE that is there stays unless --force is given.
";

const AUDIT: &str = "\
cikolaro audit FILE

Writes `passed` TAB slots reached TAB slots, or the refusal: 1 for what has not the size of a store, 8 for a store that is damaged.
The file is only read.
";

const APPLY: &str = "\
cikolaro apply FILE [LINES] [--sort] [--many N] [--whole]

Applies changes to the store, read from the file LINES, or from standard input where it is not given or is `-`:
  set TAB key TAB value
  del TAB key
each ended by LF. The lines are one batch: at most 16,384 bytes, and no key below the one before. Writes `applied` TAB records.

  --sort    the keys may stand in any order; of several changes of a key the last counts
  --many N  any number of lines, in batches of N (1 to 65,535), each sorted; progress goes to standard error
  --whole   all lines or none: where one batch is refused the file stays as it was

Without --whole the file holds afterwards what was applied before the refusal (9: no room; with --many also the batches before).
";

const GET: &str = "\
cikolaro get FILE KEY

Writes the value of KEY (lowercase hex; `` is the empty key), or ends with status 1 where it is absent.
";

const SCAN: &str = "\
cikolaro scan FILE [--from KEY] [--back] [--most N]

Writes entries, key TAB value, in key order.

  --from KEY  begin at KEY, or at the next where it is absent
  --back      in falling order
  --most N    at most N entries
";

const STAT: &str = "\
cikolaro stat FILE

Writes, name TAB number: slots, reached, free, depth, entries, key bytes, nodes by how many separators they hold, and how full the
nodes are in percent. The store is audited first.
";

const PICTURE: &str = "\
cikolaro picture FILE [OUT] [--most N]

Writes the tree as an SVG to OUT, or to standard output: each node with its slot, its fill and its keys (as text where they are
printable, else in hex; long ones cut). The store is audited first.

  --most N  refuse a tree of more than N nodes (default 400)
";

const NODE: &str = "\
cikolaro node [--strict] HEX

Reads the bytes of one node, in lowercase hex; from standard input, where an LF may end them, if HEX is `-`. Writes a line with the first
child, then one for each separator: key TAB value TAB the child behind it. A child is a slot number, or 0 for none.

  --strict  take only what a store itself would write: refuse 0xFF before a length below 255 (18), a separator with value 0 (19) and
            bytes behind the ninth child (20)

Without --strict such a length is read, such a separator ends the node, and bytes behind the end are ignored. Either way refused are
under 8 bytes for a child (11), under 9 for a separator's value and length (12), under 4 for a length behind 0xFF (13), a key cut short
(14) and a key over 288 bytes (4).

A refusal writes `refused` TAB number TAB 0, and with --strict `refused` TAB number TAB place: the offset where the refused child or
separator begins (a separator begins with its value), or for 20 that of the first byte behind the ninth child.
";
