//! How a text is laid out and in which style it is written.

/// Lines of a text. Bounds: `width` at most 255, `indent` at least 1 and at most `width` − 2, `first` below `indent`; a layout outside
/// them is refused where it is used ([`Refusal::Layout`](crate::Refusal::Layout)).
#[derive(Clone, Copy, Debug, PartialEq, Eq, Hash)]
pub struct Layout {
    /// The longest line.
    pub width: u32,
    /// Spaces before the first word of a line.
    pub indent: u32,
    /// Bytes that already stand on the first line.
    pub first: u32,
}

impl Layout {
    /// The widest that is not refused.
    const MAX_WIDTH: u32 = 255;

    /// W + 1 of document 01, W = width − indent + 1: the numbers that the label order asks for, for each statement and one more. A
    /// layout outside its bounds is refused before they are looked at, and gets a number that is not too long.
    pub(crate) fn sums_each(self) -> usize {
        self.width.saturating_sub(self.indent).min(Layout::MAX_WIDTH) as usize + 2
    }
}

impl Default for Layout {
    /// Width 79, indent 6, first position 0.
    fn default() -> Layout {
        Layout { width: 79, indent: 6, first: 0 }
    }
}

/// The five forms of a proof text.
#[derive(Clone, Copy, Debug, PartialEq, Eq, Hash)]
#[repr(u32)]
pub enum Style {
    /// `( labels ) LETTERS`
    Compressed = 0,
    /// Every step by its label, everything repeated.
    Normal = 1,
    /// Every step by its label, marked steps referred to by a name.
    Packed = 2,
    /// As normal, each step with the hypothesis that it fills.
    Explicit = 3,
    /// As packed, each step with the hypothesis that it fills.
    PackedExplicit = 4,
}

impl Style {
    /// Every style, in the order of the numbers.
    pub const ALL: [Style; 5] = [Style::Compressed, Style::Normal, Style::Packed, Style::Explicit, Style::PackedExplicit];

    /// Document 01's number, 0 to 4.
    pub fn number(self) -> u32 {
        self as u32
    }
}
