//! Random styles and sizes, as words of a script.

use desk::ui::{Align, Direction, Edges, Fixed, Size, Style};

use crate::rng::Rng;

/// One pixel.
pub const PX: i64 = 65_536;
/// Sizes that stop sums, at both ends and just before them.
const ENDS: [i64; 12] = [
    i64::MIN,
    i64::MIN + 1,
    i64::MIN / 2,
    -(1 << 47),
    -1,
    1,
    1 << 47,
    i64::MAX / 2,
    i64::MAX / 2 + 1,
    i64::MAX - 1,
    i64::MAX,
    i64::MAX,
];
const GROWS: [u32; 8] = [1, 2, 7, 1_000, 1 << 31, u32::MAX - 1, u32::MAX, u32::MAX];
const ALIGNS: [&str; 3] = ["start", "center", "end"];

/// What kind of sizes a script mostly has.
#[derive(Clone, Copy, PartialEq, Eq)]
pub enum Sizes {
    /// Whole pixels of a small screen, so that presses hit.
    Screen,
    /// A few raw units, so that remainders show.
    Fractions,
    /// Both ends of the range, so that the order of sums shows.
    Ends,
}

impl Sizes {
    /// An inner number: margin, padding or gap.
    pub fn inner(self, rng: &mut Rng) -> i64 {
        match self {
            Self::Screen if rng.chance(8) => PX * rng.between(-6, -1),
            Self::Screen => PX * rng.between(0, 9),
            Self::Fractions => rng.between(-3, 9),
            Self::Ends => rng.pick(&ENDS),
        }
    }

    /// A width or a height.
    pub fn outer(self, rng: &mut Rng) -> i64 {
        match self {
            Self::Screen => PX * rng.between(0, 90) + if rng.chance(15) { rng.between(1, 65_535) } else { 0 },
            Self::Fractions => rng.between(0, 21),
            Self::Ends => rng.pick(&ENDS),
        }
    }

    /// A viewport's width or height.
    pub fn viewport(self, rng: &mut Rng) -> i64 {
        match self {
            Self::Screen => {
                PX * rng.between(60, 400) + if rng.chance(25) { rng.between(0, 65_535) } else { 0 }
            }
            Self::Fractions => rng.between(0, 200),
            Self::Ends if rng.chance(70) => rng.pick(&ENDS),
            Self::Ends => rng.bits().cast_signed(),
        }
    }
}

/// The nineteen words of a random style.
pub fn style(rng: &mut Rng, sizes: Sizes) -> String {
    let mut words = vec![rng.pick(&["row", "column"]).to_string()];
    for _ in 0..2 {
        words.push(size(rng, sizes, 45));
    }
    // Margins, paddings and gap; at the ends they all count, elsewhere most are 0.
    let none = if sizes == Sizes::Ends { 35 } else { 60 };
    for _ in 0..9 {
        words.push(if rng.chance(none) { 0 } else { sizes.inner(rng) }.to_string());
    }
    words.push(grow(rng).to_string());
    words.push(rng.pick(&ALIGNS).to_string());
    words.push(rng.pick(&ALIGNS).to_string());
    for _ in 0..4 {
        words.push(if rng.chance(70) { 0 } else { rng.below(256) }.to_string());
    }
    words.join(" ")
}

/// `auto`, or a size, `auto` so many times in a hundred.
pub fn size(rng: &mut Rng, sizes: Sizes, auto: usize) -> String {
    if rng.chance(auto) { "auto".to_string() } else { sizes.outer(rng).to_string() }
}

pub fn grow(rng: &mut Rng) -> u32 {
    match rng.below(10) {
        0..5 => 0,
        5..8 => rng.between(1, 4) as u32,
        _ => rng.pick(&GROWS),
    }
}

/// A box of set size that holds nothing else.
pub fn plain_box(width: i64, height: i64) -> String {
    format!("row {width} {height} 0 0 0 0 0 0 0 0 0 0 start start 0 0 0 0")
}

/// A container that only stacks its children.
pub fn plain_stack(direction: &str, gap: i64) -> String {
    format!("{direction} auto auto 0 0 0 0 0 0 0 0 {gap} 0 start start 0 0 0 0")
}

/// A style's own nineteen words.
pub fn words(style: &Style) -> String {
    let direction = match style.direction {
        Direction::Row => "row",
        Direction::Column => "column",
    };
    let size = |size| match size {
        Size::Auto => "auto".to_string(),
        Size::Px(raw) => raw_word(raw),
    };
    let edges = |edges: Edges| [edges.left, edges.right, edges.top, edges.bottom].map(raw_word).join(" ");
    let align = |align| match align {
        Align::Start => ALIGNS[0],
        Align::Center => ALIGNS[1],
        Align::End => ALIGNS[2],
    };
    format!(
        "{direction} {} {} {} {} {} {} {} {} {}",
        size(style.width),
        size(style.height),
        edges(style.margin),
        edges(style.padding),
        raw_word(style.gap),
        style.grow,
        align(style.justify),
        align(style.align_cross),
        style.background.map(|byte| byte.to_string()).join(" "),
    )
}

fn raw_word(raw: Fixed) -> String {
    raw.to_bits().to_string()
}
