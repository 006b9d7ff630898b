//! One call of the console page, read from a line.

use renew_ui::{EditOp, Fixed, NodeId, StatePatch, Style, UiEvent};

use crate::parse::Words;

/// The most places that a script can lend to `lines`.
const MOST_PLACES: usize = 1_100;

#[derive(Clone, Debug)]
pub enum Call {
    New(u32),
    Origin(u32),
    Insert(NodeId),
    Remove(NodeId),
    Style(NodeId, Box<Style>),
    Patch(Box<StatePatch>),
    Pool,
    Table(NodeId, [u16; 16]),
    Field(NodeId),
    Text(NodeId),
    Cursor(NodeId),
    Metres(NodeId),
    Confirm(NodeId),
    Ship,
    Ramp(NodeId),
    Office(NodeId),
    Solve(Fixed, Fixed),
    Rect(NodeId),
    Handle(UiEvent),
    Output,
    Live(NodeId),
    First(NodeId),
    Next(NodeId),
    Focus,
    Pressed,
    Absorb(u64),
    Measure(Vec<u8>),
    Label(Vec<u8>),
    Lines(u32, usize),
    State,
}

impl Call {
    /// The call that a line is, its newline not included.
    pub fn read(line: &[u8]) -> Option<Self> {
        let mut words = Words::new(line);
        let call = match words.word()? {
            b"new" => Self::New(words.number()?),
            b"origin" => Self::Origin(words.number()?),
            b"insert" => Self::Insert(words.id()?),
            b"remove" => Self::Remove(words.id()?),
            b"style" => Self::Style(words.id()?, Box::new(words.style()?)),
            b"patch" => Self::Patch(Box::new(words.patch()?)),
            b"pool" => Self::Pool,
            b"table" => Self::Table(words.id()?, words.table()?),
            b"field" => Self::Field(words.id()?),
            b"text" => Self::Text(words.id()?),
            b"cursor" => Self::Cursor(words.id()?),
            b"metres" => Self::Metres(words.id()?),
            b"confirm" => Self::Confirm(words.id()?),
            b"ship" => Self::Ship,
            b"ramp" => Self::Ramp(words.id()?),
            b"office" => Self::Office(words.id()?),
            b"solve" => Self::Solve(words.raw()?, words.raw()?),
            b"rect" => Self::Rect(words.id()?),
            b"move" => Self::Handle(UiEvent::PointerMoved { x: words.number()?, y: words.number()? }),
            b"press" => Self::Handle(UiEvent::PointerPressed),
            b"release" => Self::Handle(UiEvent::PointerReleased),
            b"char" => Self::Handle(UiEvent::TextEntered { ch: words.number()? }),
            b"edit" => Self::Handle(UiEvent::Edit { op: edit_op(words.word()?)? }),
            b"output" => Self::Output,
            b"live" => Self::Live(words.id()?),
            b"first" => Self::First(words.id()?),
            b"next" => Self::Next(words.id()?),
            b"focus" => Self::Focus,
            b"pressed" => Self::Pressed,
            b"absorb" => Self::Absorb(words.hash()?),
            b"measure" => Self::Measure(words.hex()?),
            b"label" => Self::Label(words.hex()?),
            b"lines" => Self::Lines(words.number()?, words.at_most(MOST_PLACES)?),
            b"state" => Self::State,
            _ => return None,
        };
        words.end(call)
    }
}

fn edit_op(word: &[u8]) -> Option<EditOp> {
    match word {
        b"backspace" => Some(EditOp::Backspace),
        b"delete" => Some(EditOp::Delete),
        b"left" => Some(EditOp::Left),
        b"right" => Some(EditOp::Right),
        b"home" => Some(EditOp::Home),
        b"end" => Some(EditOp::End),
        _ => None,
    }
}
