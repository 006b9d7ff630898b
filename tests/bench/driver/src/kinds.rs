//! The kinds of call, numbered as `crates/bench/src/kinds.rt` has them.

use crate::shapes::{CHAIN, EIGHTS, FLAT, FORM, PANEL, ROOT};

pub const NEW: u32 = 0;
pub const INSERT_REMOVE: u32 = 1;
pub const REMOVE_PANEL: u32 = 2;
pub const SET_STYLE: u32 = 3;
pub const SET_STATE_TABLE: u32 = 4;
pub const SET_PATCH_POOL: u32 = 5;
pub const MAKE_FIELD: u32 = 6;
pub const NO_FIELD: u32 = 7;
pub const FIELD_TEXT: u32 = 8;
pub const FIELD_CURSOR: u32 = 9;
pub const METRES: u32 = 10;
pub const CLEAN_SOLVE: u32 = 11;
pub const FULL_PASS: u32 = 12;
pub const RECT: u32 = 13;
pub const IS_LIVE: u32 = 14;
pub const FIRST_CHILD: u32 = 15;
pub const NEXT_SIBLING: u32 = 16;
pub const POINTER_MOVED: u32 = 17;
pub const PRESS_RELEASE: u32 = 18;
pub const KEY: u32 = 19;
pub const OUTPUT: u32 = 20;
pub const ABSORB: u32 = 21;
pub const MEASURE: u32 = 22;
pub const NARROW_LINES: u32 = 23;
pub const WIDE_LINES: u32 = 24;
pub const CHECK: u32 = 25;
pub const COPIES: u32 = 26;

const ON_TREES: [(u32, &str); 20] = [
    (INSERT_REMOVE, "`insert` and `remove` of a leaf"),
    (SET_STYLE, "`set_style`"),
    (SET_STATE_TABLE, "`set_state_table`"),
    (SET_PATCH_POOL, "`set_patch_pool`"),
    (MAKE_FIELD, "`make_field`, has one"),
    (NO_FIELD, "`make_field`, refused"),
    (FIELD_TEXT, "`field_text`"),
    (FIELD_CURSOR, "`field_cursor`"),
    (METRES, "`metres`"),
    (CLEAN_SOLVE, "`solve`, clean"),
    (FULL_PASS, "`solve`, full pass"),
    (RECT, "`rect`"),
    (IS_LIVE, "`is_live`"),
    (FIRST_CHILD, "`first_child`"),
    (NEXT_SIBLING, "`next_sibling`"),
    (POINTER_MOVED, "`handle`, pointer moved"),
    (PRESS_RELEASE, "`handle`, press or release"),
    (KEY, "`handle`, key"),
    (OUTPUT, "press, release and `next_output`"),
    (ABSORB, "`absorb`"),
];

/// What calls by value are measured against. The source has no such calls.
const FLOOR: [(u32, &str); 2] = [(CHECK, "the check alone"), (COPIES, "the tree copied out and back")];

const SHAPES: [(u32, &str); 5] = [
    (ROOT, "root alone"),
    (FORM, "form of 20"),
    (FLAT, "128 flat"),
    (CHAIN, "chain of 128"),
    (EIGHTS, "128 by eights"),
];

/// What is timed on what.
pub struct Row {
    pub kind: u32,
    pub call: &'static str,
    pub shape: u32,
    pub tree: &'static str,
}

impl Row {
    /// Whether it is of the floor, and no call.
    pub fn is_floor(&self) -> bool {
        FLOOR.iter().any(|&(kind, _)| kind == self.kind)
    }

    /// How many checks, and how many times the tree copied out and back, its calls can't do without, on a tree of 128 nodes: a call has one check,
    /// and the copies where it gives a tree.
    pub fn least(&self) -> Option<[f64; 2]> {
        if self.is_floor() || !matches!(self.shape, FLAT | CHAIN | EIGHTS) {
            return None;
        }
        Some(match self.kind {
            FIELD_TEXT | FIELD_CURSOR | METRES | RECT | IS_LIVE | FIRST_CHILD | NEXT_SIBLING | ABSORB => {
                [1.0, 0.0]
            }
            INSERT_REMOVE => [2.0, 2.0],
            OUTPUT => [3.0, 3.0],
            _ => [1.0, 1.0],
        })
    }
}

pub fn rows() -> Vec<Row> {
    let row = |kind, call, shape, tree| Row { kind, call, shape, tree };
    let mut all = vec![row(NEW, "`new`", ROOT, "limit 128")];
    let on_trees = |(kind, call)| SHAPES.map(|(shape, tree)| row(kind, call, shape, tree));
    all.extend(ON_TREES.into_iter().flat_map(on_trees));
    all.push(row(REMOVE_PANEL, "`remove` of a panel", PANEL, "60 of 80"));
    all.push(row(MEASURE, "`measure`", ROOT, "26 bytes, no tree"));
    all.push(row(NARROW_LINES, "`break_lines`, 120 pixels", ROOT, "1,024 bytes, no tree"));
    all.push(row(WIDE_LINES, "`break_lines`, 400 pixels", ROOT, "1,024 bytes, no tree"));
    all.extend(FLOOR.into_iter().flat_map(on_trees));
    all
}
