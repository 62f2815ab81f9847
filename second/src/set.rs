//! Reading a tag set: docs/RULES.md, 1.

use crate::kind::{Kind, KINDS};
use crate::refusal::Refusal;

/// A set has 1 to 16 tags.
pub const MOST_TAGS: usize = 16;

/// A tag: its kind, and its payload as the entry has it.
#[derive(Clone, Debug, PartialEq, Eq)]
pub struct Tag {
    pub kind: Kind,
    pub bytes: Vec<u8>,
}

impl Tag {
    pub fn exact(bytes: impl Into<Vec<u8>>) -> Tag {
        let (kind, bytes) = (Kind::Exact, bytes.into());
        Tag { kind, bytes }
    }

    pub fn folded(bytes: impl Into<Vec<u8>>) -> Tag {
        let (kind, bytes) = (Kind::Folded, bytes.into());
        Tag { kind, bytes }
    }

    /// Whether its bytes, read by its kind, are the last of the input's bytes,
    /// read so too.
    pub fn ends(&self, input: &[u8]) -> bool {
        let Some(before) = input.len().checked_sub(self.bytes.len()) else {
            return false;
        };
        self.reads_as(&input[before..])
    }

    /// Whether some bytes, read by its kind, are its own.
    fn reads_as(&self, bytes: &[u8]) -> bool {
        let mut pairs = self.bytes.iter().zip(bytes);
        let same = |(own, other): (&u8, &u8)| self.kind.reads(*own) == self.kind.reads(*other);
        self.bytes.len() == bytes.len() && pairs.all(same)
    }

    /// Whether the two may not stand in one set: they are of the same kind and
    /// equal, folded ones after folding.
    pub fn repeats(&self, earlier: &Tag) -> bool {
        self.kind == earlier.kind && self.reads_as(&earlier.bytes)
    }
}

/// A set that passed every check. Only `read_set` makes one, so its bounds (1
/// to 16 tags of lawful lengths, none repeating another) can be relied upon.
#[derive(Clone, Debug, PartialEq, Eq)]
pub struct TagSet {
    tags: Vec<Tag>,
}

impl TagSet {
    /// The tags, numbered from 0 in order, whatever their kinds.
    pub fn tags(&self) -> &[Tag] {
        &self.tags
    }
}

/// Reads a set, for a layout that takes tags of these kinds, from the left; the
/// first faulty entry decides.
pub fn read_set(bytes: &[u8], taken: &[Kind]) -> Result<TagSet, Refusal> {
    if bytes.is_empty() {
        return Err(Refusal::Empty { entry: 0 });
    }
    let mut tags: Vec<Tag> = Vec::new();
    let mut rest = bytes;
    while !rest.is_empty() {
        let (tag, after) = read_entry(tags.len(), rest, taken)?;
        tags.push(tag);
        rest = after;
    }
    // REPEAT is asked only now, after the last entry.
    for (entry, tag) in tags.iter().enumerate() {
        if tags[..entry].iter().any(|earlier| tag.repeats(earlier)) {
            return Err(Refusal::Repeat { entry });
        }
    }
    Ok(TagSet { tags })
}

/// Reads entry k from the front of `rest`: its tag and what follows it. The
/// checks stand in the rules' order.
fn read_entry<'a>(k: usize, rest: &'a [u8], taken: &[Kind]) -> Result<(Tag, &'a [u8]), Refusal> {
    let [length_low, length_high, kind_low, kind_high, after @ ..] = rest else {
        return Err(Refusal::Cut { entry: k });
    };
    if k == MOST_TAGS {
        return Err(Refusal::Many { entry: k });
    }
    let number = u16::from_le_bytes([*kind_low, *kind_high]);
    let mut taken_rows = KINDS.iter().filter(|row| taken.contains(&row.kind));
    let Some(row) = taken_rows.find(|row| row.number == number) else {
        return Err(Refusal::Kind { entry: k });
    };
    let length = usize::from(u16::from_le_bytes([*length_low, *length_high]));
    if !row.allows(length) {
        return Err(Refusal::Length { entry: k });
    }
    let Some((payload, next_entries)) = after.split_at_checked(length) else {
        return Err(Refusal::Cut { entry: k });
    };
    let (kind, bytes) = (row.kind, payload.to_vec());
    Ok((Tag { kind, bytes }, next_entries))
}

/// Writes one entry: length, kind, payload. A length above 65,535 can't be
/// written and is cut to its low two bytes; no script line is that long.
pub fn write_entry(kind: u16, payload: &[u8]) -> Vec<u8> {
    let mut entry = (payload.len() as u16).to_le_bytes().to_vec();
    entry.extend_from_slice(&kind.to_le_bytes());
    entry.extend_from_slice(payload);
    entry
}

/// Writes a set, one entry for each tag, faulty or not.
pub fn write_tags(tags: &[Tag]) -> Vec<u8> {
    let entry_of = |tag: &Tag| write_entry(tag.kind.number(), &tag.bytes);
    tags.iter().flat_map(entry_of).collect()
}

/// Writes a set of kind 1, one entry for each payload, faulty or not.
pub fn write_set<P: AsRef<[u8]>>(payloads: &[P]) -> Vec<u8> {
    let entry_of = |payload: &P| write_entry(Kind::Exact.number(), payload.as_ref());
    payloads.iter().flat_map(entry_of).collect()
}
