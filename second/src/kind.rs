//! The kinds of tag, and folding: docs/RULES.md, 1.2 and 1.3.

/// How a tag is matched.
#[derive(Clone, Copy, Debug, PartialEq, Eq)]
pub enum Kind {
    /// Byte for byte.
    Exact,
    /// A to Z and a to z are taken as equal, all other bytes are exact.
    Folded,
}

/// What a set says of a kind.
pub struct Row {
    pub kind: Kind,
    /// The number that stands in an entry.
    pub number: u16,
    /// The shortest and the longest payload.
    pub shortest: usize,
    pub longest: usize,
}

impl Row {
    /// Whether a payload may be so long.
    pub fn allows(&self, length: usize) -> bool {
        self.shortest <= length && length <= self.longest
    }
}

/// The one table of kinds: a set is read and written by it.
pub const KINDS: [Row; 2] = [
    Row {
        kind: Kind::Exact,
        number: 1,
        shortest: 1,
        longest: 32,
    },
    Row {
        kind: Kind::Folded,
        number: 2,
        shortest: 1,
        longest: 32,
    },
];

impl Kind {
    /// The kind's row of the table; every kind has one.
    pub fn row(self) -> &'static Row {
        let mut rows = KINDS.iter();
        rows.find(|row| row.kind == self).expect("a row")
    }

    /// The number that stands in an entry of this kind.
    pub fn number(self) -> u16 {
        self.row().number
    }

    /// A byte as a tag of this kind takes it.
    pub fn reads(self, byte: u8) -> u8 {
        match self {
            Kind::Exact => byte,
            Kind::Folded => fold(byte),
        }
    }
}

/// Folding takes A to Z to a to z, and every other byte to itself.
pub fn fold(byte: u8) -> u8 {
    match byte {
        b'A'..=b'Z' => byte - b'A' + b'a',
        _ => byte,
    }
}
