//! The shapes, as `crates/bench/src/shapes.rt` has them.

use renew_ui::{Align, Direction, Edges, Fixed, NodeId, Size, StatePatch, Style, UiEvent};

pub const ROOT: u32 = 0;
pub const FORM: u32 = 1;
pub const FLAT: u32 = 2;
pub const CHAIN: u32 = 3;
pub const EIGHTS: u32 = 4;
pub const PANEL: u32 = 5;

/// How many of the patches are in the pool.
pub const POOL: u32 = 8;

/// Pixels; a width or height of 0 is automatic.
struct Look {
    column: bool,
    width: u32,
    height: u32,
    padding: u32,
    gap: u32,
    grow: u32,
    centred: bool,
}

pub fn id(k: u32) -> NodeId {
    NodeId::made_up(k, 1)
}

pub fn count(shape: u32) -> u32 {
    match shape {
        FORM => 20,
        FLAT | CHAIN | EIGHTS => 128,
        PANEL => 80,
        _ => 1,
    }
}

pub fn parent(shape: u32, k: u32) -> u32 {
    match shape {
        FORM if k < 4 => 0,
        FORM => (k - 4) / 6 + 1,
        CHAIN => k.saturating_sub(1),
        EIGHTS => k.saturating_sub(1) / 8,
        PANEL if k <= 60 => k / 2,
        _ => 0,
    }
}

pub fn focus(shape: u32) -> u32 {
    match shape {
        FORM => 11,
        FLAT => 120,
        CHAIN | EIGHTS => 127,
        PANEL => 60,
        _ => 0,
    }
}

pub fn moved(shape: u32, there: bool) -> UiEvent {
    let (x, y) = match shape {
        _ if !there => (15, 40),
        FORM => (130, 150),
        FLAT => (1200, 10),
        CHAIN => (150, 150),
        EIGHTS => (10, 333),
        PANEL => (9, 126),
        _ => (640, 360),
    };
    UiEvent::PointerMoved { x, y }
}

fn px(n: u32) -> Fixed {
    Fixed::from_bits(i64::from(n) * 65_536)
}

fn size(n: u32) -> Size {
    if n == 0 { Size::Auto } else { Size::Px(px(n)) }
}

fn styled(look: &Look) -> Style {
    Style {
        direction: if look.column { Direction::Column } else { Direction::Row },
        width: size(look.width),
        height: size(look.height),
        margin: Edges::all(px(0)),
        padding: Edges::all(px(look.padding)),
        gap: px(look.gap),
        grow: look.grow,
        justify: Align::Start,
        align_cross: if look.centred { Align::Center } else { Align::Start },
        background: [0; 4],
    }
}

fn around(column: bool, padding: u32, gap: u32, grow: u32) -> Look {
    Look { column, width: 0, height: 0, padding, gap, grow, centred: false }
}

fn leaf(width: u32, height: u32, grow: u32) -> Look {
    Look { column: false, width, height, padding: 2, gap: 0, grow, centred: false }
}

fn form_look(k: u32) -> Look {
    match k {
        0 => around(true, 0, 0, 0),
        1..=3 => {
            Look { column: false, width: 1280, height: 100, padding: 10, gap: 10, grow: 0, centred: true }
        }
        _ if k % 5 == 4 => leaf(100, 24, k % 3),
        _ => leaf(100, 24, 0),
    }
}

fn look(shape: u32, k: u32) -> Look {
    match shape {
        FORM => form_look(k),
        FLAT if k == 0 => around(false, 4, 1, 0),
        FLAT => leaf(6 + k % 4, 20 + k % 30, k % 3),
        CHAIN if k == 127 => leaf(100, 50, 0),
        CHAIN => around(k % 2 == 1, 1, 0, k % 2),
        EIGHTS if k < 16 => around(k % 2 == 1, 2, 1, k % 5),
        EIGHTS => leaf(8 + k % 7, 6 + k % 5, k % 5),
        PANEL if k < 31 => around(k % 2 == 1, 1, 1, k % 2),
        PANEL => leaf(8, 8, k % 3),
        _ => around(true, 8, 4, 0),
    }
}

pub fn style(shape: u32, k: u32) -> Style {
    styled(&look(shape, k))
}

pub fn other_style() -> Style {
    styled(&leaf(40, 30, 2))
}

/// The first `count` patches.
pub fn patches(count: u32) -> Vec<StatePatch> {
    (0..count)
        .map(|p| StatePatch { style: styled(&leaf(10 + p % 8, 12, p % 3)), touches_layout: p % 2 == 0 })
        .collect()
}

pub fn table(k: u32) -> [u16; 16] {
    core::array::from_fn(|bits| match bits {
        1..8 => ((k as usize % 8 + bits) % 8) as u16,
        _ => u16::MAX,
    })
}
