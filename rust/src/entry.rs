//! Tags with their kinds.

use crate::text::escaped;
use std::fmt::{self, Display, Formatter};
use std::hash::{Hash, Hasher};

/// How a tag is matched.
#[derive(Clone, Copy, Debug, PartialEq, Eq, Hash)]
pub enum Kind {
    /// Byte for byte.
    Exact,
    /// In either letter case: each of A to Z finds its small letter and the other way round, and every
    /// other byte itself alone.
    Folded,
}

impl Kind {
    /// The number that stands for it in the bytes of a set: 1 or 2.
    pub fn number(self) -> u16 {
        match self {
            Kind::Exact => 1,
            Kind::Folded => 2,
        }
    }

    /// The kind of a number that stands in an accepted set.
    pub(crate) fn of(number: u16) -> Kind {
        match number {
            1 => Kind::Exact,
            2 => Kind::Folded,
            other => panic!("the archive isn't the one this crate is for: it took kind {other}"),
        }
    }
}

/// An entry of a set: a tag's bytes, and its kind.
///
/// This is what [`TagSet::tags`](crate::TagSet::tags) gives and [`TagSet::new`](crate::TagSet::new)
/// takes, so that a tag that goes from one set into another keeps its kind. Its bytes alone would be an
/// exact tag there.
///
/// Two are equal where they are the same tag, which may stand in a set only once: of one kind, with the
/// same bytes, and folded ones in any letter case.
///
/// It displays itself as a line of a set's [`text`](crate::text), with its kind: for people, and for such
/// a text. That line is no tag. As a string it would be an exact tag of these very bytes, sign and
/// escapes with them, and what was meant would not be withdrawn: hand on the entry itself, or have the
/// line read by [`text::read`](crate::text::read).
///
/// ```
/// use sleetbarley::{text, Entry, Kind, Refusal, Tag, TagSet};
///
/// assert_eq!(Entry::folded("Preview-17"), Entry::folded("PREVIEW-17"));
/// assert_ne!(Entry::exact("Preview-17"), Entry::exact("PREVIEW-17"));
/// assert_ne!(Entry::folded("preview-17"), Entry::exact("preview-17"));
/// assert_eq!(Entry::folded("preview-17").to_string(), r"\~preview-17");
///
/// // All tags of a list in either case.
/// let set = TagSet::new(["preview-17", "preview-23"].map(Entry::folded))?;
/// assert!(set.tags().all(|tag| tag.kind() == Kind::Folded));
///
/// // What is displayed: as a string another tag, an exact one; read as a text the same.
/// let line = Entry::folded("preview-17").to_string();
/// let other = TagSet::new([&line])?;
/// assert_eq!(other.tag(Tag(0)), Some(Entry::exact(r"\~preview-17")));
/// let same = text::read(line.as_bytes()).expect("a line of a set");
/// assert_eq!(same.tag(Tag(0)), Some(Entry::folded("preview-17")));
/// # Ok::<(), Refusal>(())
/// ```
#[derive(Clone, Copy, Debug)]
pub struct Entry<'b> {
    kind: Kind,
    bytes: &'b [u8],
}

impl<'b> Entry<'b> {
    /// A tag of this kind.
    pub fn new<B: AsRef<[u8]> + ?Sized>(kind: Kind, bytes: &'b B) -> Entry<'b> {
        let bytes = bytes.as_ref();
        Entry { kind, bytes }
    }

    /// A tag that is matched byte for byte.
    pub fn exact<B: AsRef<[u8]> + ?Sized>(bytes: &'b B) -> Entry<'b> {
        Entry::new(Kind::Exact, bytes)
    }

    /// A tag that is matched in either letter case, of A to Z alone.
    pub fn folded<B: AsRef<[u8]> + ?Sized>(bytes: &'b B) -> Entry<'b> {
        Entry::new(Kind::Folded, bytes)
    }

    /// How it is matched.
    pub fn kind(self) -> Kind {
        self.kind
    }

    /// Its bytes as the set has them. They are without the kind: put into another set by themselves they
    /// are an exact tag.
    pub fn bytes(self) -> &'b [u8] {
        self.bytes
    }

    /// Its bytes as its kind takes them. This is for telling tags apart to people; what a set may have,
    /// and what matches, only the archive decides.
    fn as_read(self) -> impl Iterator<Item = u8> + 'b {
        let kind = self.kind;
        self.bytes.iter().map(move |byte| match kind {
            Kind::Exact => *byte,
            Kind::Folded => byte.to_ascii_lowercase(),
        })
    }
}

impl PartialEq for Entry<'_> {
    fn eq(&self, other: &Entry) -> bool {
        self.kind == other.kind && self.as_read().eq(other.as_read())
    }
}

impl Eq for Entry<'_> {}

impl Hash for Entry<'_> {
    fn hash<H: Hasher>(&self, state: &mut H) {
        self.kind.hash(state);
        self.bytes.len().hash(state);
        self.as_read().for_each(|byte| byte.hash(state));
    }
}

/// As a line of a set's [`text`](crate::text): a folded tag behind `\~`. It is for people and for texts;
/// handed to [`TagSet::new`](crate::TagSet::new) as a string it is an exact tag of these very bytes.
impl Display for Entry<'_> {
    fn fmt(&self, f: &mut Formatter) -> fmt::Result {
        let sign = match self.kind {
            Kind::Exact => "",
            Kind::Folded => "\\~",
        };
        write!(f, "{sign}{}", escaped(self.bytes))
    }
}

/// What can be a tag of a set: an [`Entry`], which has its kind, and strings and bytes, which are exact
/// tags, byte for byte whatever stands in them: a `\~` in front of one folds nothing, and no escape is
/// read. (What an [`Entry`] displays is for [`text::read`](crate::text::read).) A
/// [`TagSet`](crate::TagSet) is none.
pub trait AsEntry {
    /// The tag, and its kind.
    fn as_entry(&self) -> Entry<'_>;
}

impl<B: AsRef<[u8]> + ?Sized> AsEntry for B {
    fn as_entry(&self) -> Entry<'_> {
        Entry::exact(self)
    }
}

impl AsEntry for Entry<'_> {
    fn as_entry(&self) -> Entry<'_> {
        *self
    }
}

impl AsEntry for &Entry<'_> {
    fn as_entry(&self) -> Entry<'_> {
        **self
    }
}
