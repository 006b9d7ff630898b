//! The tree: growing, removing, and its largest and deepest forms.

use crate::author::Author;
use crate::stories::boxes::stage;
use crate::stories::pointer::click;
use crate::stories::starts::start;
use crate::styles::{self, PX, Sizes};

/// The largest tree there is: all side by side, all inside one another, or as it comes.
pub fn crowd(author: &mut Author) {
    start(author, 128);
    let shape = author.rng.below(3);
    let grow = 1 + author.rng.below(3);
    let style = format!("row auto auto 0 0 0 0 0 0 0 0 0 {grow} start start 0 0 0 0");
    let mut last = author.root();
    loop {
        let parent = match shape {
            0 => author.root(),
            1 => last,
            _ => author.some_live(),
        };
        let Some(node) = author.insert(parent) else { break };
        author.style(node, &style);
        last = node;
    }
    // 126 units are missing among 127 equal children.
    author.viewport = (127 * author.rng.between(0, PX) + 126, PX * author.rng.between(0, 50));
    author.solve();
    for _ in 0..8 {
        author.call_on_live("rect");
    }
    author.call_on("rect", last);
    let top = author.ui().first_child(author.root()).unwrap_or(last);
    let gone = author.rng.pick(&[top, last]);
    author.call_on("remove", gone);
    author.call_on("live", last);
}

pub fn grow_tree(author: &mut Author) {
    let mut parent = author.some_id();
    for _ in 0..1 + author.rng.below(6) {
        let Some(node) = author.insert(parent) else { return };
        if author.rng.chance(60) {
            let style = styles::style(&mut author.rng, author.sizes);
            author.style(node, &style);
        }
        if author.rng.chance(35) {
            parent = author.some_live();
        }
    }
}

pub fn restyle(author: &mut Author) {
    for _ in 0..1 + author.rng.below(3) {
        let node = author.some_id();
        let sizes = some_sizes(author);
        let style = styles::style(&mut author.rng, sizes);
        author.style(node, &style);
    }
    if author.rng.chance(50) {
        author.solve();
        author.call_on_live("rect");
    }
}

/// Mostly the script's own kind of sizes.
fn some_sizes(author: &mut Author) -> Sizes {
    match author.rng.below(20) {
        0 => Sizes::Ends,
        1 | 2 => Sizes::Fractions,
        _ => author.sizes,
    }
}

pub fn pass(author: &mut Author) {
    if author.rng.chance(45) {
        let sizes = some_sizes(author);
        author.viewport = (sizes.viewport(&mut author.rng), sizes.viewport(&mut author.rng));
    }
    author.solve();
    if author.rng.chance(30) {
        author.solve();
    }
    for _ in 0..2 {
        author.call_on_live("rect");
    }
}

/// Boxes that can be hit: a plain screen with the root's children side by side.
pub fn tidy(author: &mut Author) {
    let direction = author.rng.pick(&["row", "column"]);
    let gap = PX * author.rng.between(0, 4);
    let root = author.root();
    author.style(root, &styles::plain_stack(direction, gap));
    let children: Vec<_> = author.ui().children(root).take(8).collect();
    for child in children {
        if author.rng.chance(85) {
            let (width, height) = (author.rng.between(4, 40), author.rng.between(4, 30));
            author.style(child, &styles::plain_box(width * PX, height * PX));
        }
    }
    author.viewport = (320 * PX, 200 * PX);
    author.solve();
}

pub fn remove_some(author: &mut Author) {
    let node = match author.rng.below(12) {
        0 => author.root(),
        1 => author.some_stale(),
        2 => author.made_up(),
        _ => author
            .some_child(|ui, node| node.index() % 2 == 0 || ui.first_child(node).is_some())
            .unwrap_or(author.root()),
    };
    author.call_on("remove", node);
    author.call_on("live", node);
    author.call_on("next", node);
    // The order of freeing shows in the ids of the next inserts.
    for _ in 0..author.rng.below(5) {
        let parent = author.some_live();
        author.insert(parent);
    }
    if author.rng.chance(60) {
        author.solve();
        for _ in 0..3 {
            author.call_on_live("rect");
        }
    }
}

/// One node inside the other as deep as there is room: walks that count their depth end here.
pub fn deep_chain(author: &mut Author) {
    let style = styles::plain_box(90 * PX, 90 * PX);
    stage(author, &style, |author, stage| {
        let mut nodes = vec![stage];
        let depth = if author.rng.chance(30) { 127 } else { 12 };
        while nodes.len() < depth
            && let Some(node) = author.insert(nodes[nodes.len() - 1])
        {
            author.style(node, &style);
            nodes.push(node);
        }
        author.solve();
        let deepest = nodes[nodes.len() - 1];
        author.call_on("rect", deepest);
        if let Some(point) = author.point_in(deepest) {
            click(author, point);
            author.call("focus");
        }
        let from = author.rng.below(nodes.len());
        author.call_on("remove", nodes[from]);
        author.call_on("live", deepest);
        author.insert(author.root());
        author.insert(author.root());
    });
}
