//! States: patches, tables, pools swapped while worn, and boxes that move under the pointer.

use desk::ui::NodeId;

use crate::author::{Author, id};
use crate::stories::fields::edit;
use crate::styles::{self, PX};
use crate::texts;

/// Patches for the next pool: some near a node's own style, with and without the flag.
pub fn patches(author: &mut Author, count: usize) {
    for _ in 0..count {
        let node = author.some_live();
        let style = match author.ui().base_style(node) {
            Some(base) if author.rng.chance(60) => {
                let words = styles::words(&base);
                let mut words: Vec<_> = words.split(' ').map(str::to_string).collect();
                let at = author.rng.pick(&[1, 2, 3, 5, 7, 9, 11, 15, 15, 16]);
                words[at] = match at {
                    15 | 16 => author.rng.below(256).to_string(),
                    _ => (author.rng.between(1, 50) * PX).to_string(),
                };
                words.join(" ")
            }
            _ => styles::style(&mut author.rng, author.sizes),
        };
        let touches = author.rng.below(2);
        author.call(format!("patch {touches} {style}"));
    }
}

/// A table for a node; at times one entry is foreign, also among those that are never worn.
pub fn table(author: &mut Author, node: NodeId) {
    let pool = author.ui().patch_pool().len();
    let mut entries: Vec<_> = (0..16)
        .map(|_| if pool == 0 || author.rng.chance(30) { 65_535 } else { author.rng.below(pool) })
        .collect();
    if author.rng.chance(8) {
        let at = author.rng.below(16);
        entries[at] = author.rng.pick(&[pool, pool + 1, 64, 65_534]);
    }
    let words: Vec<_> = entries.iter().map(usize::to_string).collect();
    author.call(format!("table {} {}", id(node), words.join(" ")));
}

pub fn tables(author: &mut Author) {
    for node in author.live().into_iter().take(8) {
        if author.rng.chance(65) {
            table(author, node);
        }
    }
    let node = author.some_id();
    table(author, node);
}

/// A pool, tables over it, and events that change what is worn.
pub fn wear(author: &mut Author) {
    if author.ui().patch_pool().is_empty() || author.rng.chance(40) {
        let count = author.rng.below(5);
        patches(author, count);
        author.call("pool");
    }
    tables(author);
    for _ in 0..3 {
        let node = author.some_live();
        let point = author.point_in(node).unwrap_or((1, 1));
        author.move_to(point);
        if author.rng.chance(50) {
            author.call("press");
        }
        if author.rng.chance(60) {
            author.solve();
            author.call_on("rect", node);
        }
        if author.rng.chance(50) {
            author.call("release");
        }
        if author.rng.chance(40) {
            author.solve();
            author.call_on_live("rect");
        }
        if author.rng.chance(20) {
            let style = styles::style(&mut author.rng, author.sizes);
            author.style(node, &style);
        }
        if author.rng.chance(15) {
            table(author, node);
        }
    }
}

/// Another pool while patches are worn.
pub fn swap_pool(author: &mut Author) {
    wear(author);
    let count = author.rng.below(4);
    patches(author, count);
    author.call("pool");
    if author.rng.chance(70) {
        author.solve();
        author.call_on_live("rect");
    }
    let event = author.rng.pick(&["press", "release", "move 2 2"]);
    author.call(event);
    author.solve();
    author.call_on_live("rect");
}

/// Boxes move under a resting pointer; the next event, even a code that is no character, refreshes.
pub fn moved_under_pointer(author: &mut Author) {
    let Some((node, point)) = author.target(|_, _| true) else { return };
    author.move_to(point);
    if author.rng.chance(40) {
        author.call("press");
    }
    let root = author.root();
    let pad = PX * author.rng.between(-20, 40);
    author.style(root, &format!("row auto auto 0 0 0 0 {pad} 0 {pad} 0 0 0 start start 0 0 0 0"));
    author.solve();
    match author.rng.below(4) {
        0 => edit(author),
        1 => author.call("release"),
        _ => {
            let code = texts::no_scalar(&mut author.rng);
            author.call(format!("char {code}"));
        }
    }
    author.solve();
    author.call_on("rect", node);
    author.call("focus");
}
