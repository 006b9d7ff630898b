//! Boxes: leftover space shared, sums that stop, gaps, siblings over one another, centred runs.

use desk::ui::NodeId;

use crate::author::Author;
use crate::stories::fields::keys;
use crate::stories::pointer::click;
use crate::stories::tree::tidy;
use crate::styles::{self, PX, Sizes};

/// A row or column of its own under the root, worked on and most often taken away again.
pub fn stage(author: &mut Author, style: &str, work: impl FnOnce(&mut Author, NodeId)) {
    let root = author.root();
    let Some(stage) = author.insert(root) else { return };
    author.style(stage, style);
    work(author, stage);
    author.call_on("rect", stage);
    if author.rng.chance(80) {
        author.call_on("remove", stage);
        tidy(author);
    }
}

/// Leftover space among many growers: remainders, ties, products past 64 bits.
pub fn share_growth(author: &mut Author) {
    let direction = author.rng.pick(&["row", "column"]);
    let extent = match author.rng.below(4) {
        0 => author.rng.pick(&[i64::MAX, i64::MAX / 2 + 1, 1 << 62, 1 << 47]),
        1 => author.rng.bits().cast_signed(),
        _ => author.rng.between(0, 300),
    };
    let even = author.rng.chance(40);
    let grow = 1 + author.rng.below(3) as u32;
    let style = styles::plain_stack(direction, 0).replace("auto auto", &format!("{extent} {extent}"));
    stage(author, &style, |author, stage| {
        let mut nodes = Vec::new();
        let room = author.ui().limits().nodes - author.ui().live();
        let many = if room > 30 && author.rng.chance(30) { 127 } else { 2 + author.rng.below(7) };
        for _ in 0..many {
            let Some(node) = author.insert(stage) else { break };
            let grow = if even { grow } else { styles::grow(&mut author.rng) };
            let size = if author.rng.chance(80) { 0 } else { author.rng.between(-5, 5) };
            author.style(node, &format!("row {size} {size} 0 0 0 0 0 0 0 0 0 {grow} start start 0 0 0 0"));
            nodes.push(node);
        }
        author.solve();
        // Of very many the first and the last show enough.
        let hidden = 8..nodes.len().saturating_sub(8).max(8);
        for (nth, node) in nodes.into_iter().enumerate() {
            if !hidden.contains(&nth) {
                author.call_on("rect", node);
            }
        }
    });
}

/// A size at an end of the range, or 0 so many times in a hundred.
fn far(author: &mut Author, none: usize) -> i64 {
    const FAR: [i64; 6] = [i64::MIN, i64::MIN, i64::MAX, i64::MAX, i64::MIN / 2, i64::MAX / 2];
    if author.rng.chance(none) { 0 } else { author.rng.pick(&FAR) }
}

/// Four edges; often those of one direction pull opposite ways.
fn far_edges(author: &mut Author, none: usize) -> String {
    const OPPOSED: [(i64, i64); 4] =
        [(i64::MAX, i64::MIN), (i64::MIN, i64::MAX), (i64::MAX, -PX), (i64::MIN, PX)];
    let mut edges = Vec::new();
    for _ in 0..2 {
        let pair = match author.rng.below(3) {
            0 => author.rng.pick(&OPPOSED),
            _ => (far(author, none), far(author, none)),
        };
        edges.push(format!("{} {}", pair.0, pair.1));
    }
    edges.join(" ")
}

/// Sums that stop: sizes, margins, paddings and gaps at both ends, in every order.
pub fn stop_sums(author: &mut Author) {
    let style = styles::plain_stack("row", 0);
    stage(author, &style, |author, stage| {
        let mut nodes = Vec::new();
        for _ in 0..1 + author.rng.below(3) {
            nodes.extend(author.insert(stage));
        }
        for _ in 0..4 {
            far_stage(author, stage);
            for &node in &nodes {
                far_child(author, node);
            }
            if author.rng.chance(50) {
                author.viewport =
                    (Sizes::Ends.viewport(&mut author.rng), Sizes::Ends.viewport(&mut author.rng));
            }
            author.solve();
            author.call_on("rect", stage);
            for &node in &nodes {
                author.call_on("rect", node);
            }
        }
    });
}

fn far_stage(author: &mut Author, stage: NodeId) {
    let direction = author.rng.pick(&["row", "column"]);
    let [width, height] = [far_size(author, 50), far_size(author, 50)];
    let (margin, padding) = (far_edges(author, 80), far_edges(author, 50));
    let gap = far(author, 50);
    let align = author.rng.pick(&["start start", "end center", "center end"]);
    author.style(stage, &format!("{direction} {width} {height} {margin} {padding} {gap} 0 {align} 0 0 0 0"));
}

fn far_child(author: &mut Author, node: NodeId) {
    let [width, height] = [far_size(author, 30), far_size(author, 30)];
    let (margin, padding) = (far_edges(author, 50), far_edges(author, 50));
    let grow = author.rng.pick(&[0, 0, 1, 3]);
    author.style(node, &format!("column {width} {height} {margin} {padding} 0 {grow} start start 0 0 0 0"));
}

fn far_size(author: &mut Author, auto: usize) -> String {
    if author.rng.chance(auto) { "auto".to_string() } else { far(author, 10).to_string() }
}

/// Siblings that lie over one another: the later one is hit.
pub fn overlap(author: &mut Author) {
    let direction = author.rng.pick(&["row", "column"]);
    let gap = -PX * author.rng.between(3, 12);
    let style = styles::plain_stack(direction, gap);
    stage(author, &style, |author, stage| {
        let mut nodes = Vec::new();
        for _ in 0..2 + author.rng.below(2) {
            let Some(node) = author.insert(stage) else { break };
            author.style(node, &styles::plain_box(12 * PX, 12 * PX));
            nodes.push(node);
        }
        author.solve();
        for node in nodes {
            let point = author.point_near(node);
            click(author, point);
            author.call("focus");
        }
    });
}

/// Gaps between children, where the stage's size and its later children show how many there are.
pub fn gaps(author: &mut Author) {
    let direction = author.rng.pick(&["row", "column"]);
    let gap = author.sizes.inner(&mut author.rng);
    let style = styles::plain_stack(direction, gap);
    stage(author, &style, |author, stage| {
        let mut nodes = Vec::new();
        for _ in 0..1 + author.rng.below(5) {
            let Some(node) = author.insert(stage) else { break };
            author.style(node, &styles::plain_box(3 * PX, 2 * PX));
            nodes.push(node);
        }
        author.solve();
        for node in nodes {
            author.call_on("rect", node);
        }
    });
}

/// What is left free for centring: about a whole number of pixels, odd or even, or of half pixels; seldom less than nothing.
fn spare(author: &mut Author) -> i64 {
    const ABOUT: [i64; 7] = [0, 0, 1, -1, PX / 2, PX / 2 - 1, PX - 1];
    PX * author.rng.between(-1, 9) + author.rng.pick(&ABOUT)
}

/// A run centred in one direction or in both, pressed about its edges and typed into.
pub fn centre(author: &mut Author) {
    let direction = author.rng.pick(&["row", "column"]);
    let align = author.rng.pick(&["center center", "center center", "center start", "start center", "end center"]);
    let side = PX * author.rng.between(4, 12);
    let many = 1 + author.rng.below(3) as i64;
    // In half of all cases the content begins where the stage does, else past a fraction of a pixel.
    let padding = if author.rng.chance(50) { 0 } else { author.rng.between(0, 2 * PX) };
    let [along, across] = [many * side + spare(author), side + spare(author)];
    let [width, height] = if direction == "row" { [along, across] } else { [across, along] };
    let [width, height] = [width + padding, height + padding];
    let style = format!("{direction} {width} {height} 0 0 0 0 {padding} 0 {padding} 0 0 0 {align} 0 0 0 0");
    stage(author, &style, |author, stage| {
        let mut nodes = Vec::new();
        for _ in 0..many {
            let Some(node) = author.insert(stage) else { break };
            author.style(node, &styles::plain_box(side, side));
            author.call_on("field", node);
            nodes.push(node);
        }
        author.solve();
        for node in nodes {
            author.call_on("rect", node);
            let point = author.point_near(node);
            click(author, point);
            author.call("focus");
            keys(author, 1);
            author.call_on("text", node);
        }
    });
}
