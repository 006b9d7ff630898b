//! The marks of the eight fields (wish 6 of document 02), beside the source's fields, which have none. No key is
//! asked what it did: the owner and the text of each field are held against what they were before the call.

use renew_frame::StateHash;
use renew_ui::{MAX_FIELDS, NodeId};

/// How a field's text came about: made empty or confirmed for an earlier ship, changed by a key, confirmed for this one.
#[derive(Clone, Copy, Debug, Default, PartialEq, Eq)]
pub enum Mark {
    #[default]
    Untouched,
    Typed,
    Confirmed,
}

/// The owner and the text of each field.
pub type Fields = [(Option<NodeId>, Vec<u8>); MAX_FIELDS];

/// The marks, in the order of the fields.
#[derive(Default)]
pub struct Marks([Mark; MAX_FIELDS]);

impl Marks {
    #[must_use]
    pub fn of(&self, field: usize) -> Mark {
        self.0[field]
    }

    pub fn set(&mut self, field: usize, mark: Mark) {
        self.0[field] = mark;
    }

    /// What a call left: a field that was cleared or claimed is untouched, one with another text is typed.
    pub fn follow(&mut self, before: &Fields, after: &Fields) {
        for (mark, (before, after)) in self.0.iter_mut().zip(before.iter().zip(after)) {
            if before.0 != after.0 {
                *mark = Mark::Untouched;
            } else if before.1 != after.1 {
                *mark = Mark::Typed;
            }
        }
    }

    /// For the next ship nothing is confirmed yet, in fields of dead owners neither.
    pub fn next_ship(&mut self) {
        for mark in &mut self.0 {
            if *mark == Mark::Confirmed {
                *mark = Mark::Untouched;
            }
        }
    }

    /// The last part of the digest.
    #[must_use]
    pub fn digest(&self, hash: StateHash) -> StateHash {
        self.0.iter().fold(hash, |hash, &mark| hash.absorb_u32(mark as u32))
    }
}
