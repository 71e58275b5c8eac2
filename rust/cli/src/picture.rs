//! A tree as SVG: a box for each node, with its slot, its fill and its keys, and a line to each child.

use std::fmt::Write;

use cikolaro::lines::hex;
use cikolaro::view::{Node, Tree};

const CELL: usize = 74;
const NARROWEST: usize = 110;
const HEIGHT: usize = 58;
const GAP: usize = 18;
const LEVEL: usize = 130;
const MARGIN: usize = 20;
const TOP: usize = 70;
/// How many letters of a key are shown.
const SHOWN: usize = 9;

struct Drawing {
    boxes: String,
    lines: String,
    /// Where the next leaf begins.
    next: usize,
}

/// Where a node's box lies.
struct Placed {
    left: usize,
    width: usize,
}

impl Placed {
    fn middle(&self) -> usize {
        self.left + self.width / 2
    }
}

pub fn svg(tree: &Tree) -> String {
    let mut drawing = Drawing { boxes: String::new(), lines: String::new(), next: MARGIN };
    if let Some(root) = &tree.root {
        drawing.node(root, 0);
    }
    let width = drawing.next.max(640) + MARGIN;
    let height = TOP + LEVEL * tree.depth as usize + HEIGHT + MARGIN;
    format!(
        "<svg xmlns=\"http://www.w3.org/2000/svg\" viewBox=\"0 0 {width} {height}\" width=\"{width}\" height=\"{height}\" \
         font-family=\"monospace\" font-size=\"12\">\n<rect width=\"{width}\" height=\"{height}\" fill=\"#fff\"/>\n\
         {}{}{}</svg>\n",
        head(tree),
        drawing.lines,
        drawing.boxes
    )
}

fn head(tree: &Tree) -> String {
    let nodes = tree.root.as_ref().map_or(0, Node::nodes);
    let free: Vec<String> = tree.free.iter().take(12).map(u32::to_string).collect();
    let more = if tree.free.len() > 12 { ", …" } else { "" };
    format!(
        "<text x=\"{MARGIN}\" y=\"26\" font-size=\"15\">depth {}, {nodes} of {} slots reached</text>\n\
         <text x=\"{MARGIN}\" y=\"46\" fill=\"#555\">free chain: {}{more}</text>\n",
        tree.depth,
        tree.count,
        if free.is_empty() { "none".to_string() } else { free.join(", ") }
    )
}

impl Drawing {
    fn node(&mut self, node: &Node, level: usize) -> Placed {
        // A box has room for its first line, however few keys it has.
        let width = (CELL * node.separators.len()).max(NARROWEST);
        let children: Vec<Placed> = node.children.iter().map(|child| self.node(child, level + 1)).collect();
        let left = match (children.first(), children.last()) {
            (Some(first), Some(last)) => ((first.middle() + last.middle()) / 2).saturating_sub(width / 2).max(MARGIN),
            _ => self.next,
        };
        let placed = Placed { left, width };
        self.next = self.next.max(left + width + GAP);
        let top = TOP + LEVEL * level;
        self.links(&placed, &children, node.separators.len(), top);
        self.draw(node, &placed, top);
        placed
    }

    /// Child i hangs below the gap before separator i.
    fn links(&mut self, placed: &Placed, children: &[Placed], separators: usize, top: usize) {
        for (i, child) in children.iter().enumerate() {
            let from = placed.left + placed.width * i / separators.max(1);
            let (y, below) = (top + HEIGHT, top + LEVEL);
            let half = (y + below) / 2;
            let _ = writeln!(
                self.lines,
                "<path d=\"M{from} {y} C{from} {half} {x} {half} {x} {below}\" fill=\"none\" stroke=\"#888\"/>",
                x = child.middle()
            );
        }
    }

    fn draw(&mut self, node: &Node, placed: &Placed, top: usize) {
        let Placed { left, width } = *placed;
        let held = node.separators.len();
        let colour = match held {
            8 => "#f6d5c8",
            0..=4 => "#d7e6f5",
            _ => "#e4f1da",
        };
        let _ = writeln!(
            self.boxes,
            "<rect x=\"{left}\" y=\"{top}\" width=\"{width}\" height=\"{HEIGHT}\" rx=\"4\" fill=\"{colour}\" stroke=\"#333\"/>\
             <text x=\"{}\" y=\"{}\" fill=\"#333\">slot {} · {held}/8</text>",
            left + 5,
            top + 15,
            node.slot
        );
        for (i, (key, value)) in node.separators.iter().enumerate() {
            let x = left + CELL * i;
            let _ = writeln!(
                self.boxes,
                "<g><title>{} = {value}</title><path d=\"M{x} {y} v{h}\" stroke=\"#333\" stroke-width=\"{w}\"/>\
                 <text x=\"{tx}\" y=\"{ty}\">{}</text><text x=\"{tx}\" y=\"{vy}\" fill=\"#666\" font-size=\"10\">{}</text></g>",
                hex(key),
                shown(key),
                cut(&value.to_string()),
                y = top + 20,
                h = HEIGHT - 20,
                w = if i == 0 { 0 } else { 1 },
                tx = x + 5,
                ty = top + 35,
                vy = top + 50,
            );
        }
    }
}

/// A key as text where it is printable, else in hex.
fn shown(key: &[u8]) -> String {
    let printable = !key.is_empty() && key.iter().all(|b| b.is_ascii_graphic());
    let text = match key {
        [] => "(empty)".to_string(),
        _ if printable => String::from_utf8_lossy(key).into_owned(),
        _ => hex(key),
    };
    cut(&text).replace('&', "&amp;").replace('<', "&lt;").replace('>', "&gt;")
}

fn cut(text: &str) -> String {
    if text.len() <= SHOWN {
        return text.to_string();
    }
    format!("{}…", &text[..SHOWN - 1])
}
