//! Sets of tags, checked when they are made.

use crate::entry::{AsEntry, Entry, Kind};
use crate::numbers::Tag;
use crate::raw;
use crate::refusal::Refusal;

/// A lawful set: up to 16 tags of up to 32 bytes, none of them empty and no two of one kind equal. It is
/// the whole list: a tag that isn't in it is no longer withdrawn once it is in force.
///
/// A tag is exact, and matched byte for byte, or folded, and matched in either letter case, of A to Z
/// alone: fold what people type, and what phones rewrite in capitals. Strings are exact tags, and
/// [`TagSetBuilder::folded`] and [`Entry::folded`] make folded ones. Both kinds may stand in one set. An
/// exact tag and a folded one may have the same bytes; two folded ones may not, in whatever letter case.
///
/// A list without a tag is none, and is refused as [`Refusal::Empty`]: in its place put one tag in force
/// that no approval carries, such as 32 random bytes.
///
/// It is the archive's proved reading of sets that accepts it, the one that a replacement uses. The
/// program `sleet-set` makes the bytes of a set from a text, and lists them; [`text`](crate::text)
/// has the same for programs.
///
/// ```
/// use sleetbarley::{Entry, Refusal, Tag, TagSet};
///
/// let set = TagSet::new(["he", "she", "his", "hers"])?;
/// assert_eq!(set.tag(Tag(1)), Some(Entry::exact("she")));
/// assert_eq!(set.split_slots(), [10, 1]);
///
/// let mixed = TagSet::builder().folded("K-1041").tag("scan:aZ9").build()?;
/// assert_eq!(mixed.tag(Tag(0)), Some(Entry::folded("k-1041")));
///
/// let twice = TagSet::builder().tag("he").folded("she").folded("SHE").build();
/// assert_eq!(twice, Err(Refusal::Repeat { entry: 2 }));
///
/// let none: [&str; 0] = [];
/// let empty = TagSet::new(none);
/// assert_eq!(empty, Err(Refusal::Empty { entry: 0 }));
///
/// // Two lists in one: the tags of both with their kinds, and one that stands in both only once.
/// let monday = TagSet::builder().tag("he").folded("She").build()?;
/// let tuesday = TagSet::builder().folded("SHE").tag("his").build()?;
/// let new = tuesday.tags().filter(|tag| !monday.tags().any(|old| old == *tag));
/// let both = TagSet::new(monday.tags().chain(new))?;
/// let lines: Vec<String> = both.tags().map(|tag| tag.to_string()).collect();
/// assert_eq!(lines, ["he", r"\~She", "his"]);
/// # Ok::<(), Refusal>(())
/// ```
///
/// A set is no tag, so this doesn't compile; the tags that were meant would not be withdrawn:
///
/// ```compile_fail,E0277
/// # use sleetbarley::{Refusal, TagSet};
/// let (monday, tuesday) = (TagSet::new(["he"])?, TagSet::new(["she"])?);
/// let both = TagSet::new([&monday, &tuesday])?;
/// # Ok::<(), Refusal>(())
/// ```
#[derive(Clone, Debug, PartialEq, Eq, Hash)]
pub struct TagSet {
    bytes: Vec<u8>,
    split_slots: [usize; 2],
}

impl TagSet {
    /// The set of these tags, numbered from 0 in their order. Strings and bytes are exact tags, byte for
    /// byte, also a string that an [`Entry`] has displayed; an [`Entry`] itself has its kind.
    pub fn new<I>(tags: I) -> Result<TagSet, Refusal>
    where
        I: IntoIterator,
        I::Item: AsEntry,
    {
        let with = |builder: TagSetBuilder, tag: I::Item| builder.tag(tag);
        tags.into_iter().fold(TagSet::builder(), with).build()
    }

    /// A set to which tags are added one by one.
    pub fn builder() -> TagSetBuilder {
        TagSetBuilder { bytes: Vec::new() }
    }

    /// The set that stands in these bytes: for each tag its length and its kind, 1 for exact and 2 for
    /// folded, two bytes each with the lower first, then the tag itself.
    pub fn from_bytes(bytes: impl Into<Vec<u8>>) -> Result<TagSet, Refusal> {
        let bytes = bytes.into();
        let needed = Refusal::or(raw::slots_needed(&bytes))?;
        Ok(TagSet {
            bytes,
            split_slots: [needed.a as usize, needed.b as usize],
        })
    }

    /// The set of bytes that a replacement has accepted.
    pub(crate) fn accepted(bytes: &[u8]) -> TagSet {
        match TagSet::from_bytes(bytes) {
            Ok(set) => set,
            Err(refusal) => {
                panic!("the archive isn't the one this crate is for: a set in force is {refusal}")
            }
        }
    }

    /// The bytes of the set, as [`TagSet::from_bytes`] reads them.
    pub fn as_bytes(&self) -> &[u8] {
        &self.bytes
    }

    /// The tags in their order, each with its kind.
    pub fn tags(&self) -> impl Iterator<Item = Entry<'_>> {
        let mut rest = &self.bytes[..];
        std::iter::from_fn(move || {
            let length = usize::from(*rest.first()?);
            // The set was accepted, so a length is at most 32 and every entry is whole.
            let (entry, after) = rest.split_at(4 + length);
            rest = after;
            let kind = Kind::of(u16::from_le_bytes([entry[2], entry[3]]));
            Some(Entry::new(kind, &entry[4..]))
        })
    }

    /// The tag of this number.
    pub fn tag(&self, tag: Tag) -> Option<Entry<'_>> {
        self.tags().nth(usize::from(tag.0))
    }

    /// The slots that the two split tables of this set need: the first, for its exact tags, and the
    /// second, for its folded ones. A table without tags needs 1.
    pub fn split_slots(&self) -> [usize; 2] {
        self.split_slots
    }

    /// The slots that a whole-byte table of this set needs. Such a table has exact tags alone: where one
    /// is folded this is refused as [`Refusal::Kind`], with its entry.
    ///
    /// ```
    /// use sleetbarley::{Refusal, TagSet};
    ///
    /// let exact = TagSet::new(["he", "she", "his", "hers"])?;
    /// assert_eq!(exact.whole_slots(), Ok(10));
    /// let mixed = TagSet::builder().tag("he").folded("she").build()?;
    /// assert_eq!(mixed.whole_slots(), Err(Refusal::Kind { entry: 1 }));
    /// # Ok::<(), Refusal>(())
    /// ```
    pub fn whole_slots(&self) -> Result<usize, Refusal> {
        let needed = Refusal::or(raw::whole_slots_needed(&self.bytes))?;
        Ok(needed.a as usize)
    }

    /// The slots that a bitmap table of this set needs: as many as a whole-byte table does, for it has
    /// the same states, and refused as that is.
    pub fn bitmap_slots(&self) -> Result<usize, Refusal> {
        self.whole_slots()
    }
}

/// A set in the making; see [`TagSet`].
#[derive(Clone, Debug)]
#[must_use = "a tag is added to the builder that is given back, and only build makes a set"]
pub struct TagSetBuilder {
    bytes: Vec<u8>,
}

impl TagSetBuilder {
    /// Adds a tag behind those added before: of strings and bytes an exact one, and an [`Entry`] as the
    /// kind that it is.
    pub fn tag(mut self, tag: impl AsEntry) -> TagSetBuilder {
        let entry = tag.as_entry();
        // A length that two bytes can't say is written as the largest, and refused as LENGTH too.
        let length = u16::try_from(entry.bytes().len()).unwrap_or(u16::MAX);
        self.bytes.extend_from_slice(&length.to_le_bytes());
        self.bytes
            .extend_from_slice(&entry.kind().number().to_le_bytes());
        self.bytes.extend_from_slice(entry.bytes());
        self
    }

    /// Adds a folded tag, which is matched in either letter case, of A to Z alone.
    pub fn folded(self, tag: impl AsRef<[u8]>) -> TagSetBuilder {
        self.tag(Entry::folded(&tag))
    }

    /// The set, or why it isn't lawful.
    pub fn build(self) -> Result<TagSet, Refusal> {
        TagSet::from_bytes(self.bytes)
    }
}
