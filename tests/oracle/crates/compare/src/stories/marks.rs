//! Marks: fields confirmed, touched again and taken over by the next ship, with the ramp's and the office's readers
//! after each step.

use desk::ui::NodeId;

use crate::author::Author;
use crate::stories::fields::{edit, empty, focused_field, type_in};
use crate::stories::pointer::click;
use crate::stories::starts::start;
use crate::stories::tree::{grow_tree, tidy};
use crate::styles::{self, PX};
use crate::texts;

/// Both readers.
fn read(author: &mut Author, node: NodeId) {
    author.call_on("ramp", node);
    author.call_on("office", node);
}

/// The field at the focus with a draught in it.
fn filled_field(author: &mut Author) -> Option<NodeId> {
    let node = focused_field(author)?;
    empty(author, node);
    let text = texts::draught(&mut author.rng);
    type_in(author, text);
    Some(node)
}

/// A confirmed field, and then keys that change its text, move its caret or do nothing, one after the other.
pub fn touch_confirmed(author: &mut Author) {
    let Some(node) = filled_field(author) else { return };
    for _ in 0..2 + author.rng.below(4) {
        author.call_on("confirm", node);
        if author.rng.chance(25) {
            author.call("ship");
        }
        touch(author, node);
        read(author, node);
        if author.rng.chance(15) {
            author.call("ship");
            read(author, node);
        }
    }
}

fn touch(author: &mut Author, node: NodeId) {
    match author.rng.below(10) {
        0 | 1 => {
            let op = author.rng.pick(&["left", "right", "home", "end"]);
            author.call(format!("edit {op}"));
        }
        2 => {
            // The caret goes; nothing is there to take away.
            let (end, op) = author.rng.pick(&[("home", "backspace"), ("end", "delete")]);
            author.call(format!("edit {end}"));
            author.call_on("confirm", node);
            author.call(format!("edit {op}"));
        }
        3 => {
            let code = texts::no_scalar(&mut author.rng);
            author.call(format!("char {code}"));
        }
        4 => {
            // The same character again: the text is as it was, but keys changed it.
            author.call("edit home");
            if let Some(&first) = author.ui().field_text(node).and_then(<[u8]>::first) {
                author.call("edit delete");
                author.call(format!("char {first}"));
            }
        }
        5 => author.call("char 48"),
        6 => edit(author),
        7 => author.call_on("field", node),
        8 => author.call_on("confirm", node),
        _ => author.solve(),
    }
}

/// A draught among so many spaces that no character fits, or just one of a byte.
pub fn full_and_confirmed(author: &mut Author) {
    let Some(node) = filled_field(author) else { return };
    if author.rng.chance(50) {
        author.call("edit home");
    }
    let full = 63 + author.rng.below(2);
    while author.ui().field_text(node).is_some_and(|text| text.len() < full) {
        author.call("char 32");
    }
    author.call_on("confirm", node);
    for _ in 0..3 {
        if author.rng.chance(30) {
            author.call("ship");
        }
        let bytes = 1 + author.rng.below(4);
        let code = texts::code_of(&mut author.rng, bytes);
        author.call(format!("char {code}"));
        read(author, node);
        author.call_on("confirm", node);
    }
    author.call("edit backspace");
    read(author, node);
}

/// Nothing to confirm: a field that is empty or holds no metres, no field, no such node.
pub fn unconfirmed(author: &mut Author) {
    if let Some(node) = focused_field(author) {
        for _ in 0..1 + author.rng.below(3) {
            empty(author, node);
            author.call_on("confirm", node);
            read(author, node);
            let text = texts::metres(&mut author.rng);
            type_in(author, &text);
            author.call_on("confirm", node);
            read(author, node);
        }
    }
    let others = [author.some_live(), author.some_stale(), author.made_up()];
    for node in others {
        author.call_on("confirm", node);
        read(author, node);
    }
}

/// A panel and its nodes, whose fields are untouched, typed into or confirmed.
fn panel(author: &mut Author) -> Option<(NodeId, Vec<NodeId>)> {
    let root = author.root();
    let panel = author.insert(root)?;
    let mut nodes = Vec::new();
    for _ in 0..2 + author.rng.below(4) {
        let Some(node) = author.insert(panel) else { break };
        author.style(node, &styles::plain_box(12 * PX, 9 * PX));
        author.call_on("field", node);
        nodes.push(node);
    }
    author.solve();
    for &node in &nodes {
        if author.rng.chance(80)
            && let Some(point) = author.point_in(node)
        {
            click(author, point);
            let text = texts::draught(&mut author.rng);
            type_in(author, text);
            if author.rng.chance(65) {
                author.call_on("confirm", node);
            }
        }
    }
    Some((panel, nodes))
}

/// The next ship, with fields of every mark side by side, some of which have lost their nodes; then others take those.
pub fn next_ship(author: &mut Author) {
    let Some((panel, mut nodes)) = panel(author) else { return };
    match author.rng.below(4) {
        0 => author.call_on("remove", panel),
        1 | 2 if !nodes.is_empty() => {
            let gone = author.rng.pick(&nodes);
            author.call_on("remove", gone);
        }
        _ => {}
    }
    author.call("ship");
    nodes.iter().for_each(|&node| read(author, node));
    let root = author.root();
    for _ in 0..author.rng.below(4) {
        let Some(node) = author.insert(root) else { break };
        author.call_on("field", node);
        nodes.push(node);
    }
    // A text that was kept is confirmed as it stands; an empty one is not.
    for &node in &nodes {
        if author.rng.chance(50) {
            author.call_on("confirm", node);
        }
        read(author, node);
    }
    author.call("char 55");
    author.call("ship");
    nodes.iter().for_each(|&node| read(author, node));
}

/// A confirmed field whose node goes: its slot and then its field are another node's, and neither mark nor text is.
pub fn taken_again(author: &mut Author) {
    let Some(node) = filled_field(author) else { return };
    if author.rng.chance(80) {
        author.call_on("confirm", node);
    }
    let Some(parent) = author.ui().parent(node) else { return };
    author.call_on("remove", node);
    if author.rng.chance(30) {
        author.call("ship");
    }
    author.call_on("confirm", node);
    read(author, node);
    let Some(again) = author.insert(parent) else { return };
    author.call_on("confirm", again);
    read(author, again);
    author.call("char 56");
    author.call_on("field", again);
    read(author, again);
    author.call_on("confirm", again);
    author.call_on("field", again);
    read(author, again);
}

/// A start leaves no field, so that the next tree's are untouched.
pub fn across_a_start(author: &mut Author) {
    let Some(node) = filled_field(author) else { return };
    author.call_on("confirm", node);
    let limit = author.rng.between(2, 30);
    start(author, limit);
    for word in ["confirm", "ramp", "office"] {
        author.call_on(word, node);
    }
    let root = author.root();
    author.call_on("field", root);
    read(author, root);
    author.call_on("confirm", root);
    grow_tree(author);
    tidy(author);
}
