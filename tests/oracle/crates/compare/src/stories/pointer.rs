//! The pointer: presses and releases on edges, around inserts and passes, and on slots taken again.

use desk::ui::{NodeId, Ui};

use crate::author::Author;
use crate::stories::fields::keys;
use crate::styles::{self, PX};

/// Presses where nothing has a box yet, or where only the root does, with and without a move before.
pub fn early_events(author: &mut Author) {
    let node = author.some_live();
    let inside = author.insert(node);
    if author.rng.chance(60) {
        let point = author.rng.pick(&[(0, 0), (1, 0), (-1, -1), (5, 5)]);
        author.move_to(point);
    }
    if author.rng.chance(25) {
        author.solve();
        author.call("absorb cbf29ce484222325");
    }
    author.call("press");
    author.call("pressed");
    match author.rng.below(5) {
        0 | 1 => author.solve(),
        // A pass, though a fresh tree is said to be solved for just this viewport.
        2 => author.call("solve 0 0"),
        _ => {}
    }
    author.call("release");
    author.call("focus");
    if let Some(inside) = inside {
        author.call_on("rect", inside);
    }
    author.call("char 55");
}

/// The pointer goes along edges, with presses and releases on the way.
pub fn wander(author: &mut Author) {
    if author.rng.chance(40) {
        author.solve();
    }
    for _ in 0..2 + author.rng.below(5) {
        let node = if author.rng.chance(20) { author.root() } else { author.some_live() };
        let point = match author.rng.below(20) {
            0 => (i32::MAX, i32::MIN),
            1 => (0, i32::MAX),
            2 => author.rng.pick(&[(0, 0), (-1, -1), (i32::MIN, i32::MIN)]),
            _ => author.point_near(node),
        };
        author.move_to(point);
        match author.rng.below(5) {
            0 | 1 => {
                author.call("press");
                author.call("pressed");
            }
            2 => author.call("release"),
            3 => {
                author.call("press");
                author.call("release");
                author.call("focus");
            }
            _ => {}
        }
    }
    author.call("release");
    author.call("focus");
}

pub fn click(author: &mut Author, point: (i32, i32)) {
    author.move_to(point);
    author.call("press");
    author.call("release");
}

pub fn click_some(author: &mut Author) {
    let Some((node, point)) = author.target(|_, _| true) else { return };
    author.move_to(point);
    author.call("press");
    match author.rng.below(6) {
        0 => {
            // Dragged off: the release hits another node, or comes twice.
            let other = author.some_live();
            let away = author.point_near(other);
            author.move_to(away);
            author.call("release");
            author.move_to(point);
            author.call("release");
        }
        1 => {
            // Two presses: the latest counts.
            let other = author.some_live();
            let away = author.point_near(other);
            author.move_to(away);
            author.call("press");
            author.move_to(point);
            author.call("release");
        }
        2 => {
            let away = author.point_near(node);
            author.move_to(away);
            author.call("release");
        }
        _ => author.call("release"),
    }
    author.call("focus");
    if author.rng.chance(40) {
        author.call("output");
    }
}

/// A leaf that is its parent's last child: put back, it gets the same slot and the same box.
fn replaceable(ui: &Ui, node: NodeId) -> bool {
    ui.first_child(node).is_none() && ui.next_sibling(node) == Some(None)
}

/// Removes a leaf and inserts another like it at the same place.
fn replace(author: &mut Author, node: NodeId) -> Option<NodeId> {
    let parent = author.ui().parent(node)?;
    let style = styles::words(&author.ui().base_style(node)?);
    author.call_on("remove", node);
    if author.rng.chance(25) {
        author.solve();
    }
    let again = author.insert(parent)?;
    author.style(again, &style);
    if author.rng.chance(85) {
        author.solve();
    }
    Some(again)
}

/// A slot freed and taken again between press and release.
pub fn reuse_under_press(author: &mut Author) {
    author.solve();
    let Some((node, point)) = author.target(replaceable) else { return };
    author.move_to(point);
    author.call("press");
    let Some(again) = replace(author, node) else { return };
    author.call("pressed");
    if author.rng.chance(50) {
        // Bits are derived anew while the press still names the dead node.
        keys(author, 1);
    }
    author.call("release");
    author.call("focus");
    author.call("output");
    if author.rng.chance(50) {
        author.call_on("field", again);
        author.call("char 56");
        author.call_on("text", again);
    }
}

/// A slot freed and taken again under the focus: keys reach nobody.
pub fn reuse_under_focus(author: &mut Author) {
    author.solve();
    let Some((node, point)) = author.target(replaceable) else { return };
    if author.rng.chance(70) {
        author.call_on("field", node);
    }
    click(author, point);
    author.call("char 57");
    let Some(again) = replace(author, node) else { return };
    author.call("focus");
    author.call("char 49");
    author.call_on("field", again);
    author.call("char 50");
    author.call_on("text", again);
    author.call_on("text", node);
    if author.rng.chance(60) {
        click(author, point);
        author.call("char 51");
        author.call_on("text", again);
    }
}

/// Inserts under a held press and before a pass: the new node has an empty box until then.
pub fn press_around_insert(author: &mut Author) {
    let Some((node, point)) = author.target(|_, _| true) else { return };
    author.move_to(point);
    if author.rng.chance(50) {
        author.call("press");
    }
    let inside = author.insert(node);
    if let Some(inside) = inside {
        author.style(inside, &styles::plain_box(60 * PX, 60 * PX));
        author.call_on("rect", inside);
    }
    if author.rng.chance(50) {
        author.call("press");
    }
    if author.rng.chance(50) {
        author.solve();
    }
    author.call("release");
    author.call("focus");
    author.solve();
    click(author, point);
    author.call("focus");
    if let Some(inside) = inside
        && author.rng.chance(60)
    {
        author.call_on("remove", inside);
    }
}

/// More activations than the queue holds.
pub fn overflow(author: &mut Author) {
    let limit = author.ui().limits().nodes as usize;
    if limit > 12 && !(limit == 128 && author.rng.chance(6)) {
        return;
    }
    author.solve();
    let root = author.root();
    let Some(point) = author.target(|_, _| true).map(|found| found.1).or_else(|| author.point_in(root))
    else {
        return;
    };
    author.move_to(point);
    for _ in 0..limit + 1 {
        author.call("press");
        author.call("release");
    }
    author.call("absorb 0000000000000000");
    for _ in 0..author.rng.below(limit + 3) {
        author.call("output");
    }
    author.call("press");
    author.call("release");
    author.call("absorb ffffffffffffffff");
}
