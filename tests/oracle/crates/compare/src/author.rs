//! The writer of one script. It runs the oracle beside what it writes, so that it can aim: at live
//! and dead ids, at points inside and on the edges of the boxes of the last pass.

use desk::ui::{NodeId, Rect, Ui};
use desk::{Runner, Step};

use crate::rng::Rng;
use crate::styles::{PX, Sizes};

pub struct Author {
    pub rng: Rng,
    pub sizes: Sizes,
    pub viewport: (i64, i64),
    lines: Vec<String>,
    /// How many of these lines are calls, answered by more than `?`, and how many the script may have.
    calls: usize,
    most: usize,
    runner: Runner,
    /// Every id that an insert ever gave, in this tree or an earlier one.
    given: Vec<NodeId>,
}

impl Author {
    pub fn new(rng: Rng, sizes: Sizes, most: usize) -> Self {
        Self {
            rng,
            sizes,
            viewport: (320 * PX, 200 * PX),
            lines: Vec::new(),
            calls: 0,
            most,
            runner: Runner::default(),
            given: Vec::new(),
        }
    }

    pub fn ui(&self) -> &Ui {
        self.runner.desk().ui()
    }

    pub fn waiting(&self) -> usize {
        self.runner.desk().waiting()
    }

    /// The label that waits.
    pub fn label(&self) -> &[u8] {
        self.runner.desk().label()
    }

    pub fn written(&self) -> usize {
        self.lines.len()
    }

    pub fn calls(&self) -> usize {
        self.calls
    }

    pub fn finish(self) -> Vec<String> {
        self.lines
    }

    /// Writes one line and runs it.
    pub fn call(&mut self, line: impl Into<String>) {
        self.step(line.into());
    }

    /// Runs a line and writes it, unless the script has all its calls: a story may end later than it.
    fn step(&mut self, line: String) -> Step {
        let step = self.runner.line(format!("{line}\n").as_bytes());
        if self.calls < self.most {
            self.calls += usize::from(matches!(&step, Step::Answer(answer) if answer != "?"));
            self.lines.push(line);
        }
        step
    }

    /// Lines after the last call, whatever the number of calls.
    pub fn end_with(&mut self, lines: [String; 2]) {
        self.lines.extend(lines);
    }

    /// A call whose words end with an id.
    pub fn call_on(&mut self, word: &str, node: NodeId) {
        self.call(format!("{word} {}", id(node)));
    }

    /// A call on some live node.
    pub fn call_on_live(&mut self, word: &str) {
        let node = self.some_live();
        self.call_on(word, node);
    }

    /// An insert, and the id that it gave.
    pub fn insert(&mut self, parent: NodeId) -> Option<NodeId> {
        let Step::Answer(answer) = self.step(format!("insert {}", id(parent))) else {
            return None;
        };
        let mut numbers = answer.strip_prefix("0 ")?.split(' ');
        let index = numbers.next()?.parse().ok()?;
        let generation = numbers.next()?.parse().ok()?;
        let node = NodeId::made_up(index, generation);
        self.given.push(node);
        Some(node)
    }

    pub fn style(&mut self, node: NodeId, style: &str) {
        self.call(format!("style {} {style}", id(node)));
    }

    /// A pass with the viewport of the last one.
    pub fn solve(&mut self) {
        let (width, height) = self.viewport;
        self.call(format!("solve {width} {height}"));
    }

    pub fn move_to(&mut self, (x, y): (i32, i32)) {
        self.call(format!("move {x} {y}"));
    }

    pub fn root(&self) -> NodeId {
        self.ui().root()
    }

    /// All live nodes, the root first.
    pub fn live(&self) -> Vec<NodeId> {
        let mut nodes = vec![self.root()];
        let mut at = 0;
        while at < nodes.len() {
            nodes.extend(self.ui().children(nodes[at]));
            at += 1;
        }
        nodes
    }

    pub fn some_live(&mut self) -> NodeId {
        let live = self.live();
        self.rng.pick(&live)
    }

    /// A live node, not the root, that `suits`.
    pub fn some_child(&mut self, suits: impl Fn(&Ui, NodeId) -> bool) -> Option<NodeId> {
        let mut nodes = self.live();
        nodes.remove(0);
        nodes.retain(|&node| suits(self.ui(), node));
        (!nodes.is_empty()).then(|| self.rng.pick(&nodes))
    }

    /// An id given earlier; most often a dead one.
    pub fn some_stale(&mut self) -> NodeId {
        let dead: Vec<_> = self.given.iter().copied().filter(|&node| !self.ui().is_live(node)).collect();
        if dead.is_empty() { self.made_up() } else { self.rng.pick(&dead) }
    }

    /// An id near the live ones or far from all.
    pub fn made_up(&mut self) -> NodeId {
        let near = self.some_live();
        match self.rng.below(6) {
            0 => NodeId::made_up(near.index(), near.generation() + 1),
            1 => NodeId::made_up(near.index(), 0),
            2 => NodeId::made_up(self.ui().limits().nodes, 1),
            3 => NodeId::made_up(u32::MAX, [0, 1][self.rng.below(2)]),
            4 => NodeId::made_up(self.rng.below(140) as u32, 1 + self.rng.below(3) as u64),
            _ => NodeId::made_up(self.rng.bits() as u32, self.rng.bits()),
        }
    }

    /// Mostly a live id, at times a stale or made-up one.
    pub fn some_id(&mut self) -> NodeId {
        match self.rng.below(20) {
            0 => self.made_up(),
            1 | 2 => self.some_stale(),
            _ => self.some_live(),
        }
    }

    pub fn given(&self) -> Vec<NodeId> {
        self.given.clone()
    }

    /// A point where the oracle hits just this node.
    pub fn point_in(&mut self, node: NodeId) -> Option<(i32, i32)> {
        let rect = self.ui().rect(node)?;
        (0..8).find_map(|_| {
            let x = self.within(rect.x.to_bits(), rect.width.to_bits())?;
            let y = self.within(rect.y.to_bits(), rect.height.to_bits())?;
            (self.ui().hit(x, y) == Some(node)).then_some((x, y))
        })
    }

    /// A node that can be hit, and a point where it is.
    pub fn target(&mut self, suits: impl Fn(&Ui, NodeId) -> bool) -> Option<(NodeId, (i32, i32))> {
        (0..6).find_map(|_| {
            let node = self.some_child(&suits)?;
            Some((node, self.point_in(node)?))
        })
    }

    /// A point on or next to an edge of this node's box, most often within its span otherwise.
    pub fn point_near(&mut self, node: NodeId) -> (i32, i32) {
        let Rect { x, y, width, height } = self.ui().rect(node).unwrap_or_default();
        let across = self.rng.below(5);
        let px = self.along(x.to_bits(), width.to_bits(), across != 0 && across != 1);
        let py = self.along(y.to_bits(), height.to_bits(), across != 0 && across != 2);
        (px, py)
    }

    /// A whole pixel along one side of a box: inside, or at either edge.
    fn along(&mut self, start: i64, extent: i64, inside: bool) -> i32 {
        if inside && let Some(pixel) = self.within(start, extent) {
            return pixel;
        }
        let edge = if self.rng.chance(50) { start } else { start.saturating_add(extent) };
        clamp(pixel_up(edge) + self.rng.between(-1, 1))
    }

    /// A whole pixel inside, where there is one; the first and last more often.
    fn within(&mut self, start: i64, extent: i64) -> Option<i32> {
        let first = pixel_up(start).max(i64::from(i32::MIN));
        let last = (pixel_up(start.saturating_add(extent)) - 1).min(i64::from(i32::MAX));
        if first > last {
            return None;
        }
        Some(clamp(match self.rng.below(5) {
            0 => first,
            1 => last,
            _ => self.rng.between(first, last),
        }))
    }
}

/// The words of an id.
pub fn id(node: NodeId) -> String {
    format!("{} {}", node.index(), node.generation())
}

/// The first whole pixel at or past a raw number.
fn pixel_up(raw: i64) -> i64 {
    -(-i128::from(raw)).div_euclid(i128::from(PX)) as i64
}

fn clamp(pixel: i64) -> i32 {
    pixel.clamp(i64::from(i32::MIN), i64::from(i32::MAX)) as i32
}
