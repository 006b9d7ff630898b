//! The two starts: a pointer that is nowhere until the first move, and one that is placed at (0, 0).

use desk::ui::NodeId;

use crate::author::{Author, id};
use crate::stories::states::patches;
use crate::stories::tree::{grow_tree, tidy};
use crate::styles::{self, PX};

/// A start of either kind.
pub fn start(author: &mut Author, limit: i64) {
    let word = author.rng.pick(&["new", "origin"]);
    author.call(format!("{word} {limit}"));
    if author.rng.chance(20) {
        author.call("absorb cbf29ce484222325");
    }
}

/// A tree of any limit, the refused ones too.
pub fn new_tree(author: &mut Author) {
    let small = author.rng.between(2, 6);
    let middle = author.rng.between(7, 30);
    let limit = author.rng.weighted(&[
        (2, 0),
        (3, 1),
        (20, small),
        (50, middle),
        (2, 127),
        (14, 128),
        (3, 129),
        (1, 1_000),
        (1, i64::from(u32::MAX)),
    ]);
    start(author, limit);
    if limit > 128 && author.rng.chance(70) {
        author.call("insert 0 1");
        start(author, 20);
    }
}

/// Another tree in the middle of a script; waiting patches survive it.
pub fn anew(author: &mut Author) {
    if author.rng.chance(40) {
        patches(author, 3);
    }
    new_tree(author);
    grow_tree(author);
    tidy(author);
}

/// A refused start: the root alone, which a press hits or not, by the kind of start.
pub fn refused(author: &mut Author) {
    let limit = author.rng.pick(&[129, 129, 200, i64::from(u32::MAX)]);
    start(author, limit);
    let root = author.root();
    if author.rng.chance(80) {
        author.solve();
    }
    tap(author, root);
    new_tree(author);
    grow_tree(author);
    tidy(author);
}

/// A node in the corner and events before any move, which reach it after `origin` alone. Then a move, often to
/// (0, 0), and the same events; at times the whole again in the next tree.
pub fn corner(author: &mut Author) {
    loop {
        let limit = author.rng.between(1, 30);
        start(author, limit);
        let root = author.root();
        let node = author.insert(root).unwrap_or(root);
        let (width, height) = (author.rng.between(1, 40), author.rng.between(1, 30));
        author.style(node, &styles::plain_box(width * PX, height * PX));
        if author.rng.chance(80) {
            author.call_on("field", node);
        }
        if author.rng.chance(60) {
            dress(author, node);
        }
        if author.rng.chance(90) {
            author.solve();
        }
        tap(author, node);
        let point =
            author.rng.pick(&[(0, 0), (0, 0), (0, 0), (1, 0), (-1, -1), (i32::MIN, i32::MIN), (300, 150)]);
        author.move_to(point);
        tap(author, node);
        if author.rng.chance(70) {
            break;
        }
    }
    grow_tree(author);
    tidy(author);
}

/// A table under which a node with any bit is larger, so that its box shows the bit after the next pass.
fn dress(author: &mut Author, node: NodeId) {
    author.call(format!("patch 1 {}", styles::plain_box(50 * PX, 45 * PX)));
    author.call("pool");
    author.call(format!("table {} 65535{}", id(node), " 0".repeat(15)));
}

/// A press, a release and keys where the pointer is, if it is anywhere.
fn tap(author: &mut Author, node: NodeId) {
    if author.rng.chance(30) {
        author.call("char 56");
        seen(author, node);
    }
    author.call("press");
    author.call("pressed");
    if author.rng.chance(30) {
        seen(author, node);
    }
    author.call("release");
    author.call("focus");
    author.call("char 55");
    let word = author.rng.pick(&["text", "cursor", "metres", "office"]);
    author.call_on(word, node);
    let word = author.rng.pick(&["output", "absorb cbf29ce484222325"]);
    author.call(word);
    if author.rng.chance(50) {
        seen(author, node);
    }
}

/// What a pass makes of the bits.
fn seen(author: &mut Author, node: NodeId) {
    author.solve();
    author.call_on("rect", node);
}
