//! The source's tree with document 01's bounds and refusal numbers around it.
//!
//! Document 01's counters that stay at 2^64 - 1 are not added: no script is long enough to get there.

use renew_frame::StateHash;
use renew_ui::{Fixed, NodeId, StatePatch, Ui, UiLimits, UiRefused, text};

use crate::call::Call;
use crate::lines::lines;
use crate::marks::{Mark, Marks};
use crate::metres::metres;

const MOST_NODES: u32 = 128;
const MOST_PATCHES: usize = 64;
/// One more than a pool may hold, so that a script can show refusal 7.
const MOST_WAITING: usize = 65;
/// More than a text in lines may have, so that a script can show refusal 13.
const LONGEST_LABEL: usize = 1_100;

/// Document 01's refusal numbers that the source has no answer for, or answers by `false` or `None`.
const LARGE: u8 = 2;
const MISSING: u8 = 3;
const FULL: u8 = 4;
const ROOT: u8 = 5;
const FOREIGN: u8 = 6;
const LONG: u8 = 7;
const FIELDLESS: u8 = 8;
pub(crate) const ILL_FORMED: u8 = 11;

/// The refusal number that wish 6 of document 02 adds.
const UNCONFIRMED: u8 = 14;

/// The tree, the marks of its fields, the patches that wait for the next `pool` and the label that waits for the next
/// `lines`.
pub struct Desk {
    ui: Ui,
    marks: Marks,
    waiting: Vec<StatePatch>,
    label: Vec<u8>,
}

impl Default for Desk {
    fn default() -> Self {
        Self {
            ui: Ui::new(UiLimits { nodes: 1 }),
            marks: Marks::default(),
            waiting: Vec::new(),
            label: Vec::new(),
        }
    }
}

impl Desk {
    #[must_use]
    pub fn ui(&self) -> &Ui {
        &self.ui
    }

    #[must_use]
    pub fn waiting(&self) -> usize {
        self.waiting.len()
    }

    #[must_use]
    pub fn label(&self) -> &[u8] {
        &self.label
    }

    /// The line that a call writes; `None` is a call that the console page calls malformed.
    pub fn answer(&mut self, call: Call) -> Option<String> {
        let before = self.ui.owners_and_texts();
        let line = self.line(call);
        self.marks.follow(&before, &self.ui.owners_and_texts());
        line
    }

    fn line(&mut self, call: Call) -> Option<String> {
        let line = match call {
            Call::New(limit) => bare(self.renew(limit, Ui::new)),
            Call::Origin(limit) => bare(self.renew(limit, Ui::at_origin)),
            Call::Insert(parent) => shown(self.insert(parent).map(show_id), "0 0"),
            Call::Remove(node) => bare(self.remove(node)),
            Call::Style(node, style) => bare(accepted(self.ui.set_style(node, *style), MISSING)),
            Call::Patch(patch) => self.wait(*patch)?,
            Call::Pool => bare(self.pool()),
            Call::Table(node, table) => bare(self.table(node, table)),
            Call::Field(node) => bare(self.ui.make_field(node).map_err(refusal)),
            Call::Text(node) => shown(self.text(node).map(show_text), "0 -"),
            Call::Cursor(node) => shown(self.cursor(node), "0"),
            Call::Metres(node) => shown(self.text(node).and_then(metres), "0"),
            Call::Confirm(node) => bare(self.confirm(node)),
            Call::Ship => {
                self.marks.next_ship();
                bare(Ok(()))
            }
            Call::Ramp(node) => shown(self.confirmed_metres(node), "0"),
            Call::Office(node) => shown(self.marked_text(node), "0 - 0 0"),
            Call::Solve(width, height) => {
                self.ui.solve(width, height);
                bare(Ok(()))
            }
            Call::Rect(node) => shown(self.rect(node), "0 0 0 0"),
            Call::Handle(event) => {
                self.ui.handle(event);
                bare(Ok(()))
            }
            Call::Output => shown(Ok(show_option(self.ui.take_output())), "0 0"),
            Call::Live(node) => shown(Ok(if self.ui.is_live(node) { "yes" } else { "no" }), "no"),
            Call::First(node) => shown(Ok(show_option(self.ui.first_child(node))), "0 0"),
            Call::Next(node) => shown(self.ui.next_sibling(node).map(show_option).ok_or(MISSING), "0 0"),
            Call::Focus => shown(Ok(show_option(self.ui.stored_focus())), "0 0"),
            Call::Pressed => shown(Ok(show_option(self.ui.stored_pressed())), "0 0"),
            Call::Absorb(state) => {
                let hash = self.ui.absorb(StateHash::standing_at(state)).finish();
                shown(Ok(format!("{hash:016x}")), "0000000000000000")
            }
            Call::Measure(bytes) => shown(measure(&bytes), "0"),
            Call::Label(bytes) => self.lengthen(&bytes)?,
            Call::Lines(width, room) => self.lines(width, room),
            Call::State => shown(Ok(format!("{:016x}", self.marks.digest(self.ui.digest()).finish())), ""),
        };
        Some(line)
    }

    /// A start, at limit 1 where it is refused.
    fn renew(&mut self, limit: u32, start: fn(UiLimits) -> Ui) -> Result<(), u8> {
        let large = limit > MOST_NODES;
        self.ui = start(UiLimits { nodes: if large { 1 } else { limit } });
        accepted(!large, LARGE)
    }

    fn insert(&mut self, parent: NodeId) -> Result<NodeId, u8> {
        self.ui.insert(parent).map_err(refusal)
    }

    /// The source's one `false` is 3 for a dead node and 5 for the root.
    fn remove(&mut self, node: NodeId) -> Result<(), u8> {
        let why = if self.ui.is_live(node) { ROOT } else { MISSING };
        accepted(self.ui.remove(node), why)
    }

    fn wait(&mut self, patch: StatePatch) -> Option<String> {
        if self.waiting.len() == MOST_WAITING {
            return None;
        }
        self.waiting.push(patch);
        Some(format!("0 {}", self.waiting.len()))
    }

    fn pool(&mut self) -> Result<(), u8> {
        let pool = core::mem::take(&mut self.waiting);
        accepted(pool.len() <= MOST_PATCHES && self.ui.set_patch_pool(pool), LONG)
    }

    fn lengthen(&mut self, bytes: &[u8]) -> Option<String> {
        if self.label.len() + bytes.len() > LONGEST_LABEL {
            return None;
        }
        self.label.extend(bytes);
        Some(format!("0 {}", self.label.len()))
    }

    /// Breaks the label, which waits no more. Each place of the lent buffer tells by what it held if it was kept.
    fn lines(&mut self, width: u32, room: usize) -> String {
        let label = core::mem::take(&mut self.label);
        let mut places: Vec<u32> = (0..=u32::MAX).rev().take(room).collect();
        let answer = shown(lines(&label, width, &mut places), "0");
        answer + &places.iter().map(|place| format!(" {place}")).collect::<String>()
    }

    /// The source's one `false` is 3 for a dead node and 6 for an entry that is not in the pool.
    fn table(&mut self, node: NodeId, table: [u16; 16]) -> Result<(), u8> {
        let why = if self.ui.is_live(node) { FOREIGN } else { MISSING };
        accepted(self.ui.set_state_table(node, table), why)
    }

    fn text(&self, node: NodeId) -> Result<&[u8], u8> {
        self.ui.field_text(node).ok_or_else(|| self.no_field(node))
    }

    fn cursor(&self, node: NodeId) -> Result<u8, u8> {
        self.ui.field_cursor(node).ok_or_else(|| self.no_field(node))
    }

    /// Which of the eight fields is a live node's.
    fn field(&self, node: NodeId) -> Result<usize, u8> {
        let of_node = |(owner, _): &(Option<NodeId>, Vec<u8>)| *owner == Some(node);
        let field = self.ui.owners_and_texts().iter().position(of_node);
        field.filter(|_| self.ui.is_live(node)).ok_or_else(|| self.no_field(node))
    }

    fn confirm(&mut self, node: NodeId) -> Result<(), u8> {
        let field = self.field(node)?;
        metres(self.text(node)?)?;
        self.marks.set(field, Mark::Confirmed);
        Ok(())
    }

    /// What the ramp's reader gets.
    fn confirmed_metres(&self, node: NodeId) -> Result<u32, u8> {
        if self.marks.of(self.field(node)?) != Mark::Confirmed {
            return Err(UNCONFIRMED);
        }
        metres(self.text(node)?)
    }

    /// What the harbour office's reader gets, under every mark: bytes, caret and mark.
    fn marked_text(&self, node: NodeId) -> Result<String, u8> {
        let mark = self.marks.of(self.field(node)?);
        Ok(format!("{} {} {}", show_text(self.text(node)?), self.cursor(node)?, mark as u32))
    }

    fn no_field(&self, node: NodeId) -> u8 {
        if self.ui.is_live(node) { FIELDLESS } else { MISSING }
    }

    fn rect(&self, node: NodeId) -> Result<String, u8> {
        let rect = self.ui.rect(node).ok_or(MISSING)?;
        let [x, y, width, height] = [rect.x, rect.y, rect.width, rect.height].map(Fixed::to_bits);
        Ok(format!("{x} {y} {width} {height}"))
    }
}

fn measure(bytes: &[u8]) -> Result<i64, u8> {
    let text = core::str::from_utf8(bytes).map_err(|_| ILL_FORMED)?;
    Ok(text::measure(text).to_bits())
}

fn refusal(refused: UiRefused) -> u8 {
    match refused {
        UiRefused::MissingParent => MISSING,
        UiRefused::Full => FULL,
    }
}

fn accepted(landed: bool, why: u8) -> Result<(), u8> {
    if landed { Ok(()) } else { Err(why) }
}

/// A line of the refusal number alone.
fn bare(answer: Result<(), u8>) -> String {
    answer.err().unwrap_or(0).to_string()
}

/// A line of the refusal number and the values, `zeros` standing for them where refused.
fn shown(answer: Result<impl core::fmt::Display, u8>, zeros: &str) -> String {
    match answer {
        Ok(values) => format!("0 {values}"),
        Err(number) => format!("{number} {zeros}"),
    }
}

fn show_id(node: NodeId) -> String {
    format!("{} {}", node.index(), node.generation())
}

fn show_option(node: Option<NodeId>) -> String {
    node.map_or_else(|| "none".to_string(), show_id)
}

fn show_text(bytes: &[u8]) -> String {
    let hex: String = bytes.iter().map(|byte| format!("{byte:02x}")).collect();
    format!("{} {}", bytes.len(), if hex.is_empty() { "-" } else { &hex })
}
