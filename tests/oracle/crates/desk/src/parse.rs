//! Words of a script's line. Every reader gives `None` for a word that is malformed or out of range.

use renew_ui::{Align, Direction, Edges, Fixed, NodeId, Size, StatePatch, Style};

/// The words of one line, taken from the front.
pub struct Words<'a> {
    rest: Option<&'a [u8]>,
}

impl<'a> Words<'a> {
    pub fn new(line: &'a [u8]) -> Self {
        Self { rest: Some(line) }
    }

    /// The next word, parted from its neighbours by one space. An empty one is malformed: it comes
    /// from a leading, trailing or double space.
    pub fn word(&mut self) -> Option<&'a [u8]> {
        let rest = self.rest?;
        let word = match rest.iter().position(|&byte| byte == b' ') {
            Some(space) => {
                self.rest = Some(&rest[space + 1..]);
                &rest[..space]
            }
            None => {
                self.rest = None;
                rest
            }
        };
        (!word.is_empty()).then_some(word)
    }

    /// `value`, if no word is left.
    pub fn end<T>(&self, value: T) -> Option<T> {
        self.rest.is_none().then_some(value)
    }

    /// A number of the type asked for, whose range is the type's.
    pub fn number<T: TryFrom<i128>>(&mut self) -> Option<T> {
        T::try_from(decimal(self.word()?)?).ok()
    }

    /// A number from 0 to `most`.
    pub fn at_most(&mut self, most: usize) -> Option<usize> {
        self.number().filter(|&number| number <= most)
    }

    pub fn id(&mut self) -> Option<NodeId> {
        let index = self.number()?;
        let generation = self.number()?;
        Some(NodeId::made_up(index, generation))
    }

    pub fn raw(&mut self) -> Option<Fixed> {
        self.number().map(Fixed::from_bits)
    }

    pub fn hash(&mut self) -> Option<u64> {
        let bytes: [u8; 8] = pairs(self.word()?)?.try_into().ok()?;
        Some(u64::from_be_bytes(bytes))
    }

    pub fn hex(&mut self) -> Option<Vec<u8>> {
        match self.word()? {
            b"-" => Some(Vec::new()),
            word => pairs(word),
        }
    }

    pub fn table(&mut self) -> Option<[u16; 16]> {
        let mut table = [0; 16];
        for entry in &mut table {
            *entry = self.number()?;
        }
        Some(table)
    }

    pub fn patch(&mut self) -> Option<StatePatch> {
        let touches_layout = match self.word()? {
            b"0" => false,
            b"1" => true,
            _ => return None,
        };
        let style = self.style()?;
        Some(StatePatch { style, touches_layout })
    }

    pub fn style(&mut self) -> Option<Style> {
        Some(Style {
            direction: match self.word()? {
                b"row" => Direction::Row,
                b"column" => Direction::Column,
                _ => return None,
            },
            width: self.size()?,
            height: self.size()?,
            margin: self.edges()?,
            padding: self.edges()?,
            gap: self.raw()?,
            grow: self.number()?,
            justify: self.align()?,
            align_cross: self.align()?,
            background: [self.number()?, self.number()?, self.number()?, self.number()?],
        })
    }

    fn size(&mut self) -> Option<Size> {
        match self.word()? {
            b"auto" => Some(Size::Auto),
            word => Some(Size::Px(Fixed::from_bits(i64::try_from(decimal(word)?).ok()?))),
        }
    }

    fn edges(&mut self) -> Option<Edges> {
        Some(Edges { left: self.raw()?, right: self.raw()?, top: self.raw()?, bottom: self.raw()? })
    }

    fn align(&mut self) -> Option<Align> {
        match self.word()? {
            b"start" => Some(Align::Start),
            b"center" => Some(Align::Center),
            b"end" => Some(Align::End),
            _ => None,
        }
    }
}

/// A decimal number without leading zeros and without `-0`. Twenty digits hold every range in use.
fn decimal(word: &[u8]) -> Option<i128> {
    let (negative, digits) = match word {
        [b'-', digits @ ..] => (true, digits),
        digits => (false, digits),
    };
    let plain = match digits {
        [] => false,
        [b'0'] => !negative,
        [b'0', ..] => false,
        _ => digits.len() <= 20 && digits.iter().all(u8::is_ascii_digit),
    };
    if !plain {
        return None;
    }
    let value = digits.iter().fold(0i128, |number, &digit| number * 10 + i128::from(digit - b'0'));
    Some(if negative { -value } else { value })
}

/// The bytes that lowercase hexadecimal digits write, two a byte, at least one byte.
fn pairs(word: &[u8]) -> Option<Vec<u8>> {
    if word.is_empty() || !word.len().is_multiple_of(2) {
        return None;
    }
    word.chunks(2).map(|pair| Some(nibble(pair[0])? << 4 | nibble(pair[1])?)).collect()
}

fn nibble(digit: u8) -> Option<u8> {
    match digit {
        b'0'..=b'9' => Some(digit - b'0'),
        b'a'..=b'f' => Some(digit - b'a' + 10),
        _ => None,
    }
}
