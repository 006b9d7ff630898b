//! The Rust source: trees built by its calls, and many calls of one kind on them.

use core::hint::black_box;

use desk::metres::metres;
use renew_frame::StateHash;
use renew_ui::{EditOp, Fixed, NodeId, Ui, UiEvent, UiLimits, UiOutput, text};

use crate::ROUNDS;
use crate::clock::now;
use crate::kinds::*;
use crate::lines::break_lines;
use crate::mix::{FULL, MISSING, mix, neighbour, no_field, node, rect, refused, verdict, whole};
use crate::shapes::{self, CHAIN, EIGHTS, FLAT, FORM, id};

const TEXT: &str = "Draught 7.40, ramp 3.5, ok";
const ORDER: &str = "Berth 4, starboard side to. Two head lines and two stern lines, then springs. \
    Draught 7.40 m, ramp at 3.5 m. Stand by at 16:30. ";

fn solve(ui: &mut Ui, usual: bool) {
    ui.solve(Fixed::from_int(1280), Fixed::from_int(if usual { 720 } else { 800 }));
}

fn click(ui: &mut Ui) {
    ui.handle(UiEvent::PointerPressed);
    ui.handle(UiEvent::PointerReleased);
}

fn type_draught(ui: &mut Ui, digit: u32) {
    for ch in [49 + digit % 9, 46, 53] {
        ui.handle(UiEvent::TextEntered { ch });
    }
}

fn make_fields(ui: &mut Ui) {
    for k in 4..12 {
        let _ = ui.make_field(id(k));
    }
}

fn fill_form(ui: &mut Ui) {
    make_fields(ui);
    for f in 0..8 {
        let (place, y) = if f < 6 { (f, 50) } else { (f - 6, 150) };
        ui.handle(UiEvent::PointerMoved { x: 20 + 110 * place, y });
        click(ui);
        type_draught(ui, f.cast_unsigned());
    }
}

/// The tree of a shape: laid out, with the pointer over its leaf, which has been clicked.
pub fn tree(shape: u32) -> Ui {
    let mut ui = Ui::new(UiLimits { nodes: 128 });
    for k in 1..shapes::count(shape) {
        ui.insert(id(shapes::parent(shape, k))).expect("there is room");
    }
    for k in 0..shapes::count(shape) {
        assert!(ui.set_style(id(k), shapes::style(shape, k)));
    }
    if shape == EIGHTS {
        assert!(ui.set_patch_pool(shapes::patches(shapes::POOL)));
        for k in 0..128 {
            assert!(ui.set_state_table(id(k), shapes::table(k)));
        }
    }
    solve(&mut ui, true);
    if shape == FORM {
        fill_form(&mut ui);
    }
    ui.handle(shapes::moved(shape, true));
    click(&mut ui);
    solve(&mut ui, true);
    assert_eq!(ui.focus(), Some(id(shapes::focus(shape))), "the leaf of shape {shape} is not hit");
    ui
}

/// The tree made ready for a kind of call.
fn ready(shape: u32, kind: u32) -> Ui {
    let mut ui = tree(shape);
    match kind {
        INSERT_REMOVE if matches!(shape, FLAT | CHAIN | EIGHTS) => assert!(ui.remove(id(127))),
        SET_STATE_TABLE if shape != EIGHTS => assert!(ui.set_patch_pool(shapes::patches(shapes::POOL))),
        NO_FIELD => make_fields(&mut ui),
        OUTPUT => drop(ui.drain_outputs()),
        MAKE_FIELD | FIELD_TEXT | FIELD_CURSOR | METRES | KEY if shape != FORM => {
            ui.make_field(id(shapes::focus(shape))).expect("a field is free");
            type_draught(&mut ui, 6);
        }
        _ => {}
    }
    ui
}

/// n turns, each with its number and what the last one left. The tree passes through a black box, so that no turn is left out.
fn turns(ui: &mut Ui, n: u32, acc: u64, turn: impl Fn(&mut Ui, u32, u64) -> u64) -> u64 {
    (0..n).fold(acc, |acc, i| turn(black_box(&mut *ui), i, acc))
}

fn event(ui: &mut Ui, acc: u64, event: UiEvent) -> u64 {
    ui.handle(event);
    mix(acc, 0)
}

fn change(ui: &mut Ui, shape: u32, kind: u32, n: u32, acc: u64) -> u64 {
    let k = shapes::focus(shape);
    match kind {
        NEW => turns(ui, n, acc, |_, i, acc| {
            let fresh = Ui::new(UiLimits { nodes: 127 + i % 2 });
            mix(acc, black_box(&fresh).limits().nodes.into())
        }),
        INSERT_REMOVE => {
            let parent = id(shapes::parent(shape, shapes::count(shape).min(127)));
            turns(ui, n, acc, |ui, _, acc| match ui.insert(parent) {
                Ok(d) => mix(mix(acc, node(d)), verdict(ui.remove(d), MISSING)),
                Err(_) => mix(acc, refused(FULL)),
            })
        }
        SET_STYLE => {
            let styles = [shapes::other_style(), shapes::style(shape, k)];
            turns(ui, n, acc, |ui, i, acc| {
                mix(acc, verdict(ui.set_style(id(k), styles[i as usize % 2]), MISSING))
            })
        }
        SET_STATE_TABLE => {
            let tables = [shapes::table(k % 8 + 1), shapes::table(k)];
            turns(ui, n, acc, |ui, i, acc| {
                mix(acc, verdict(ui.set_state_table(id(k), tables[i as usize % 2]), MISSING))
            })
        }
        SET_PATCH_POOL => {
            let pools = [shapes::patches(8), shapes::patches(7)];
            turns(ui, n, acc, |ui, i, acc| {
                mix(acc, verdict(ui.set_patch_pool(pools[i as usize % 2].clone()), MISSING))
            })
        }
        MAKE_FIELD => turns(ui, n, acc, |ui, _, acc| mix(acc, field_made(ui, id(k)))),
        NO_FIELD => turns(ui, n, acc, |ui, _, acc| mix(acc, field_made(ui, id(12)))),
        CLEAN_SOLVE => turns(ui, n, acc, |ui, _, acc| {
            solve(ui, true);
            mix(acc, 0)
        }),
        FULL_PASS => turns(ui, n, acc, |ui, i, acc| {
            solve(ui, i % 2 == 1);
            mix(acc, 0)
        }),
        _ => acc,
    }
}

fn field_made(ui: &mut Ui, d: NodeId) -> u64 {
    match ui.make_field(d) {
        Ok(()) => 0,
        Err(renew_ui::UiRefused::Full) => refused(FULL),
        Err(renew_ui::UiRefused::MissingParent) => refused(MISSING),
    }
}

fn hear(ui: &mut Ui, shape: u32, kind: u32, n: u32, acc: u64) -> u64 {
    let buttons = [UiEvent::PointerPressed, UiEvent::PointerReleased];
    let keys = [UiEvent::TextEntered { ch: 55 }, UiEvent::Edit { op: EditOp::Backspace }];
    match kind {
        POINTER_MOVED => turns(ui, n, acc, |ui, i, acc| event(ui, acc, shapes::moved(shape, i % 2 == 1))),
        PRESS_RELEASE => turns(ui, n, acc, |ui, i, acc| event(ui, acc, buttons[i as usize % 2])),
        KEY => turns(ui, n, acc, |ui, i, acc| event(ui, acc, keys[i as usize % 2])),
        OUTPUT => turns(ui, n, acc, |ui, _, acc| {
            click(ui);
            let oldest = ui.drain_outputs().next().map(|UiOutput::Activated(d)| d);
            mix(acc, neighbour(oldest))
        }),
        _ => acc,
    }
}

fn read(ui: &mut Ui, shape: u32, kind: u32, n: u32, acc: u64) -> u64 {
    let ids = [id(shapes::focus(shape)), id(0)];
    let of = |i: u32| ids[i as usize % 2];
    match kind {
        FIELD_TEXT => turns(ui, n, acc, |ui, i, acc| match ui.field_text(of(i)) {
            Some(text) => mix(mix(acc, text.len() as u64), text.first().copied().unwrap_or(0).into()),
            None => mix(mix(acc, no_field(ui, of(i))), 0),
        }),
        FIELD_CURSOR => turns(ui, n, acc, |ui, i, acc| {
            mix(acc, ui.field_cursor(of(i)).map_or_else(|| no_field(ui, of(i)), u64::from))
        }),
        METRES => turns(ui, n, acc, |ui, i, acc| match ui.field_text(of(i)) {
            Some(text) => mix(acc, metres(text).map_or_else(|number| refused(number.into()), u64::from)),
            None => mix(acc, no_field(ui, of(i))),
        }),
        RECT => turns(ui, n, acc, |ui, i, acc| rect(acc, ui.rect(of(i)))),
        IS_LIVE => turns(ui, n, acc, |ui, i, acc| mix(acc, ui.is_live(of(i)).into())),
        FIRST_CHILD => turns(ui, n, acc, |ui, i, acc| mix(acc, neighbour(ui.children(of(i)).next()))),
        NEXT_SIBLING => turns(ui, n, acc, |ui, i, acc| {
            mix(acc, ui.next_sibling(of(i)).map_or(refused(MISSING), neighbour))
        }),
        ABSORB => turns(ui, n, acc, |ui, _, acc| ui.absorb(StateHash::standing_at(acc)).finish()),
        MEASURE => turns(ui, n, acc, |_, i, acc| {
            mix(acc, text::measure(black_box(&TEXT[i as usize % 2..])).to_bits().cast_unsigned())
        }),
        NARROW_LINES => lines(120, n, acc),
        WIDE_LINES => lines(400, n, acc),
        // What the floor answers; the source neither checks a tree nor copies it.
        CHECK => turns(ui, n, acc, |_, _, acc| mix(acc, 0)),
        COPIES => turns(ui, n, acc, |ui, _, acc| mix(acc, ui.live().into())),
        _ => acc,
    }
}

/// The order eight times over, from another start each time. No tree is read.
fn lines(width: u32, n: u32, acc: u64) -> u64 {
    let order = ORDER.repeat(8).into_bytes();
    let starts = &mut [0; 128];
    let acc = (0..n).fold(acc, |acc, i| {
        let broken = break_lines(black_box(&order[i as usize % 2..]), width, black_box(&mut *starts));
        mix(acc, broken.map_or_else(refused, u64::from))
    });
    starts.iter().fold(acc, |acc, &start| mix(acc, start.into()))
}

fn calls(ui: &mut Ui, shape: u32, kind: u32, n: u32, acc: u64) -> u64 {
    let acc = change(ui, shape, kind, n, acc);
    let acc = hear(ui, shape, kind, n, acc);
    read(ui, shape, kind, n, acc)
}

/// The panel removed from n trees, since the source's tree can't be copied.
fn remove_panels(trees: &mut [Ui], acc: u64) -> u64 {
    trees.iter_mut().fold(acc, |acc, ui| {
        let landed = black_box(&mut *ui).remove(id(1));
        mix(mix(acc, verdict(landed, MISSING)), ui.live().into())
    })
}

/// What `proved::run` does, on the source.
pub fn run(shape: u32, kind: u32, n: u32) -> (u64, [u64; ROUNDS]) {
    let mut ui = ready(shape, kind);
    let mut acc = 0;
    let times = [(); ROUNDS].map(|()| {
        let panels = if kind == REMOVE_PANEL { n } else { 0 };
        let mut trees: Vec<Ui> = (0..panels).map(|_| tree(shape)).collect();
        let before = now();
        acc = remove_panels(&mut trees, acc);
        acc = calls(&mut ui, shape, kind, n, acc);
        now() - before
    });
    (whole(&ui, shape, acc), times)
}
