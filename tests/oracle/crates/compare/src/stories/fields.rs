//! Fields: made, reclaimed, typed into, full, and read as metres.

use desk::ui::NodeId;

use crate::author::Author;
use crate::stories::pointer::click;
use crate::styles::{self, PX};
use crate::texts;

/// A panel with fields inside: typed into, then removed as a whole while fields are made elsewhere.
pub fn panel_of_fields(author: &mut Author) {
    let root = author.root();
    let Some(panel) = author.insert(root) else { return };
    let mut inside = Vec::new();
    for _ in 0..1 + author.rng.below(4) {
        let Some(node) = author.insert(panel) else { break };
        author.style(node, &styles::plain_box(12 * PX, 9 * PX));
        author.call_on("field", node);
        inside.push(node);
    }
    author.solve();
    for &node in &inside {
        if let Some(point) = author.point_in(node) {
            click(author, point);
            keys(author, 3);
        }
    }
    if author.rng.chance(75) {
        author.call_on("remove", panel);
    }
    for &node in &inside {
        author.call_on("text", node);
    }
    author.call("char 52");
    for _ in 0..author.rng.below(4) {
        let Some(node) = author.insert(root) else { break };
        author.call_on("text", node);
        author.call_on("field", node);
        author.call_on("text", node);
    }
}

pub fn nine_fields(author: &mut Author) {
    for node in author.live().into_iter().take(11) {
        author.call_on("field", node);
    }
    if author.rng.chance(50)
        && let Some(node) = author.some_child(|ui, node| ui.field_text(node).is_some())
    {
        author.call_on("remove", node);
        for _ in 0..2 {
            let node = author.some_id();
            author.call_on("field", node);
            author.call_on("cursor", node);
        }
    }
}

/// Some keys at the focus, whoever has it.
pub fn keys(author: &mut Author, count: usize) {
    for _ in 0..count {
        if author.rng.chance(60) {
            let code = texts::code(&mut author.rng);
            author.call(format!("char {code}"));
        } else {
            edit(author);
        }
    }
}

pub fn edit(author: &mut Author) {
    let op = author.rng.pick(&["backspace", "delete", "left", "left", "right", "home", "end"]);
    author.call(format!("edit {op}"));
}

/// A field with the focus, made where there is none.
pub fn focused_field(author: &mut Author) -> Option<NodeId> {
    if let Some(focus) = author.ui().focus()
        && author.ui().field_text(focus).is_some()
        && author.rng.chance(70)
    {
        return Some(focus);
    }
    author.solve();
    let (node, point) = author.target(|_, _| true)?;
    author.call_on("field", node);
    click(author, point);
    author.ui().field_text(node)?;
    Some(node)
}

pub fn type_some(author: &mut Author) {
    let Some(node) = focused_field(author) else { return };
    for _ in 0..3 {
        keys(author, 4);
        author.call_on("text", node);
        author.call_on("cursor", node);
    }
}

/// A field of 57 to 64 bytes, with characters of every length tried at its end and in its middle.
pub fn fill_field(author: &mut Author) {
    let Some(node) = focused_field(author) else { return };
    let full = 57 + author.rng.below(8);
    let bytes = 1 + author.rng.below(4);
    while author.ui().field_text(node).is_some_and(|text| text.len() + bytes <= full) {
        let code = texts::code_of(&mut author.rng, bytes);
        author.call(format!("char {code}"));
    }
    for _ in 0..10 {
        if author.rng.chance(35) {
            edit(author);
        } else {
            let bytes = 1 + author.rng.below(4);
            let code = texts::code_of(&mut author.rng, bytes);
            author.call(format!("char {code}"));
        }
        if author.rng.chance(40) {
            author.call_on("text", node);
            author.call_on("cursor", node);
        }
    }
}

/// Takes all characters of the focused field away.
pub fn empty(author: &mut Author, node: NodeId) {
    author.call("edit end");
    while author.ui().field_text(node).is_some_and(|text| !text.is_empty()) {
        author.call("edit backspace");
    }
}

pub fn type_in(author: &mut Author, text: &str) {
    for character in text.chars() {
        author.call(format!("char {}", u32::from(character)));
    }
}

pub fn read_metres(author: &mut Author) {
    let Some(node) = focused_field(author) else { return };
    for _ in 0..1 + author.rng.below(4) {
        empty(author, node);
        let text = texts::metres(&mut author.rng);
        type_in(author, &text);
        author.call_on("metres", node);
        let word = author.rng.pick(&["confirm", "confirm", "ramp", "office"]);
        author.call_on(word, node);
        author.call_on("ramp", node);
    }
    let other = author.some_id();
    author.call_on("metres", other);
}

/// A field cleared with the space bar: spaces in an empty field, or before a text that is then deleted. At times
/// they fill the field.
pub fn clear_with_spaces(author: &mut Author) {
    let Some(node) = focused_field(author) else { return };
    empty(author, node);
    let text = if author.rng.chance(70) { texts::metres(&mut author.rng) } else { String::new() };
    type_in(author, &text);
    author.call("edit home");
    let spaces = if author.rng.chance(5) { 64 } else { 1 + author.rng.below(4) };
    type_in(author, &" ".repeat(spaces));
    author.call_on("metres", node);
    for _ in text.chars() {
        author.call("edit delete");
    }
    for word in ["metres", "confirm", "text", "cursor", "office"] {
        author.call_on(word, node);
    }
}
