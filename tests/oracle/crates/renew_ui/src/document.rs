//! Stands in for the source's `document` module. As a child of the crate's root it sees what the
//! other crates cannot, so the added calls and the state digest of the console page live here.

use renew_frame::StateHash;

use crate::layout::{Align, Direction, Edges, LayoutSlot, Rect, Size, Style};
use crate::state::StateSlot;
use crate::{Fixed, MAX_FIELDS, NIL, NodeId, Slot, Ui, UiLimits, UiOutput};

/// Named by lib.rs, used by nobody here.
pub struct Document;

/// Named by lib.rs, used by nobody here.
pub enum DocumentError {}

impl NodeId {
    /// Any id at all, also one that no tree gave.
    #[must_use]
    pub fn made_up(index: u32, generation: u64) -> Self {
        Self { index, generation }
    }
}

impl Ui {
    /// The start with a placed pointer, of wish 2 of document 02; `new` leaves it nowhere.
    #[must_use]
    pub fn at_origin(limits: UiLimits) -> Self {
        let mut ui = Self::new(limits);
        ui.interaction.pointer = Some((0, 0));
        ui
    }

    /// The pointer; none while it is nowhere.
    #[must_use]
    pub fn pointer(&self) -> Option<(i32, i32)> {
        self.interaction.pointer
    }

    /// What `children` gives first; none for a dead node.
    #[must_use]
    pub fn first_child(&self, node: NodeId) -> Option<NodeId> {
        self.children(node).next()
    }

    /// The next sibling of a live node; the outer `None` is a dead one.
    #[must_use]
    pub fn next_sibling(&self, node: NodeId) -> Option<Option<NodeId>> {
        let index = self.slot_of(node)?;
        let next = self.slots[index as usize].next_sibling;
        Some((next != NIL).then(|| self.id_at(next)))
    }

    /// Takes the front of `outputs`.
    pub fn take_output(&mut self) -> Option<NodeId> {
        if self.outputs.is_empty() {
            return None;
        }
        let UiOutput::Activated(node) = self.outputs.remove(0);
        Some(node)
    }

    /// The focus as stored, live or not.
    #[must_use]
    pub fn stored_focus(&self) -> Option<NodeId> {
        self.interaction.focus
    }

    /// The press as stored, live or not.
    #[must_use]
    pub fn stored_pressed(&self) -> Option<NodeId> {
        self.interaction.pressed
    }

    /// The node that a press at this point would hit.
    #[must_use]
    pub fn hit(&self, x: i32, y: i32) -> Option<NodeId> {
        self.hit_test(x, y)
    }

    /// The owner and the text of each field.
    #[must_use]
    pub fn owners_and_texts(&self) -> [(Option<NodeId>, Vec<u8>); MAX_FIELDS] {
        self.fields.map(|field| (field.owner, field.text().to_vec()))
    }

    /// The digest of the whole tree, seven parts in the console page's order. The marks, which are not the source's,
    /// come after them.
    #[must_use]
    pub fn digest(&self) -> StateHash {
        let mut hash = self.digest_counts(StateHash::new());
        hash = self.digest_interaction(hash);
        hash = self.digest_outputs(hash);
        hash = self.digest_pool(hash);
        hash = self.digest_stated(hash);
        for ((slot, layout), state) in self.slots.iter().zip(&self.layout).zip(&self.states) {
            hash = digest_slot(hash, slot, layout, state);
        }
        self.digest_fields(hash)
    }

    fn digest_counts(&self, hash: StateHash) -> StateHash {
        let hash = hash
            .absorb_u32(self.limits.nodes)
            .absorb_u32(self.live)
            .absorb_u32(self.free)
            .absorb_u32(u32::from(self.dirty));
        let hash = digest_raw(hash, &[self.solved_for.0, self.solved_for.1]);
        hash.absorb_u64(self.layout_passes)
    }

    fn digest_interaction(&self, hash: StateHash) -> StateHash {
        let state = &self.interaction;
        let (x, y) = self.pointer().unwrap_or_default();
        let hash = hash
            .absorb_u32(x.cast_unsigned())
            .absorb_u32(y.cast_unsigned())
            .absorb_u32(u32::from(self.pointer().is_some()));
        let hash = digest_id(hash, state.pressed);
        digest_id(hash, state.focus)
            .absorb_u64(state.activations)
            .absorb_u64(state.decisions)
            .absorb_u64(state.overflowed)
            .absorb_u64(state.edit_fold)
    }

    fn digest_outputs(&self, hash: StateHash) -> StateHash {
        let hash = hash.absorb_u32(count(self.outputs.len()));
        self.outputs.iter().fold(hash, |hash, output| {
            let UiOutput::Activated(node) = *output;
            digest_id(hash, Some(node))
        })
    }

    fn digest_pool(&self, hash: StateHash) -> StateHash {
        let hash = hash.absorb_u32(count(self.patches.len()));
        self.patches.iter().fold(hash, |hash, patch| {
            digest_style(hash, &patch.style).absorb_u32(u32::from(patch.touches_layout))
        })
    }

    fn digest_stated(&self, hash: StateHash) -> StateHash {
        let hash = hash.absorb_u32(count(self.stated.len()));
        self.stated.iter().fold(hash, |hash, &index| hash.absorb_u32(index))
    }

    fn digest_fields(&self, hash: StateHash) -> StateHash {
        self.fields.iter().fold(hash, |hash, field| {
            digest_id(hash, field.owner)
                .absorb_u32(count(field.text().len()))
                .absorb_u32(u32::from(field.cursor()))
                .absorb_bytes(field.text())
        })
    }
}

fn digest_slot(hash: StateHash, slot: &Slot, layout: &LayoutSlot, state: &StateSlot) -> StateHash {
    let hash = hash
        .absorb_u64(slot.generation)
        .absorb_u32(u32::from(slot.live))
        .absorb_u32(slot.parent)
        .absorb_u32(slot.first_child)
        .absorb_u32(slot.last_child)
        .absorb_u32(slot.prev_sibling)
        .absorb_u32(slot.next_sibling);
    let Rect { x, y, width, height } = layout.rect;
    let hash = digest_style(hash, &layout.style);
    let hash = digest_raw(hash, &[x, y, width, height, layout.wanted_width, layout.wanted_height]);
    let hash = state.table.iter().fold(hash, |hash, &entry| hash.absorb_u32(u32::from(entry)));
    digest_style(hash, &state.base).absorb_u32(u32::from(state.applied)).absorb_u32(u32::from(state.bits))
}

fn digest_style(hash: StateHash, style: &Style) -> StateHash {
    let direction = match style.direction {
        Direction::Row => 0,
        Direction::Column => 1,
    };
    let mut hash = hash.absorb_u32(direction);
    for size in [style.width, style.height] {
        hash = match size {
            Size::Auto => hash.absorb_u32(0).absorb_i64(0),
            Size::Px(raw) => hash.absorb_u32(1).absorb_i64(raw.to_bits()),
        };
    }
    for Edges { left, right, top, bottom } in [style.margin, style.padding] {
        hash = digest_raw(hash, &[left, right, top, bottom]);
    }
    digest_raw(hash, &[style.gap])
        .absorb_u32(style.grow)
        .absorb_u32(align_case(style.justify))
        .absorb_u32(align_case(style.align_cross))
        .absorb_bytes(&style.background)
}

fn align_case(align: Align) -> u32 {
    match align {
        Align::Start => 0,
        Align::Center => 1,
        Align::End => 2,
    }
}

fn digest_raw(hash: StateHash, numbers: &[Fixed]) -> StateHash {
    numbers.iter().fold(hash, |hash, number| hash.absorb_i64(number.to_bits()))
}

/// An absent id enters as 2^32 - 1 and 0.
fn digest_id(hash: StateHash, id: Option<NodeId>) -> StateHash {
    let (index, generation) = id.map_or((NIL, 0), |node| (node.index, node.generation));
    hash.absorb_u32(index).absorb_u64(generation)
}

/// A length within the arena's bounds.
fn count(length: usize) -> u32 {
    u32::try_from(length).unwrap_or(NIL)
}
