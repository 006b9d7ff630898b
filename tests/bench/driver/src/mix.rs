//! Answers mixed into one number, as `crates/bench/src/mix.rt` has it.

use renew_frame::StateHash;
use renew_ui::{NodeId, Rect, Ui};

use crate::shapes::{focus, id};

pub const MISSING: u64 = 3;
pub const FULL: u64 = 4;
pub const FIELDLESS: u64 = 8;
pub const ILL_FORMED: u64 = 11;
pub const WIDE: u64 = 12;
pub const SHORT: u64 = 13;

/// One number more, modulo 2^32.
pub fn mix(acc: u64, x: u64) -> u64 {
    (acc % 4_294_967_296 * 1_664_525 + x % 4_294_967_296 + 1_013_904_223) % 4_294_967_296
}

pub fn refused(number: u64) -> u64 {
    number * 16_777_216
}

pub fn verdict(landed: bool, why: u64) -> u64 {
    if landed { 0 } else { refused(why) }
}

pub fn node(d: NodeId) -> u64 {
    d.generation() % 65_536 * 65_536 + u64::from(d.index())
}

pub fn neighbour(found: Option<NodeId>) -> u64 {
    found.map_or(1, node)
}

pub fn rect(acc: u64, found: Option<Rect>) -> u64 {
    match found {
        Some(Rect { x, y, width, height }) => [x, y, width, height]
            .iter()
            .fold(acc, |acc, side| mix(acc, side.to_bits().max(0).cast_unsigned())),
        None => mix(acc, refused(MISSING)),
    }
}

/// The number of a node that has no field.
pub fn no_field(ui: &Ui, d: NodeId) -> u64 {
    refused(if ui.is_live(d) { FIELDLESS } else { MISSING })
}

fn text_of(ui: &Ui, acc: u64, d: NodeId) -> u64 {
    let (length, text) = match ui.field_text(d) {
        Some(text) => (text.len() as u64, text),
        None => (no_field(ui, d), &[][..]),
    };
    (0..64).fold(mix(acc, length), |acc, i| mix(acc, text.get(i).copied().unwrap_or(0).into()))
}

/// Boxes, texts and the interaction of a tree.
pub fn whole(ui: &Ui, shape: u32, acc: u64) -> u64 {
    let acc = (0..128).fold(acc, |acc, k| rect(acc, ui.rect(id(k))));
    let acc = (4..12).fold(acc, |acc, k| text_of(ui, acc, id(k)));
    let acc = text_of(ui, acc, id(focus(shape)));
    mix(acc, ui.absorb(StateHash::new()).finish())
}
