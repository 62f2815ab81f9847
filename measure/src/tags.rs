// Tags with their kinds, as every engine is made for them.

/// A tag that is matched byte for byte, or, folded, in either letter case of A to Z.
#[derive(Clone)]
pub struct Tag {
    pub bytes: Vec<u8>,
    pub folded: bool,
}

impl Tag {
    pub fn exact(bytes: Vec<u8>) -> Tag {
        let folded = false;
        Tag { bytes, folded }
    }

    /// Whether it ends what was read.
    pub fn ends(&self, read: &[u8]) -> bool {
        if !self.folded {
            return read.ends_with(&self.bytes);
        }
        let front = read.len().checked_sub(self.bytes.len());
        front.is_some_and(|front| read[front..].eq_ignore_ascii_case(&self.bytes))
    }
}

/// Exact tags of these bytes.
pub fn exact(tags: impl IntoIterator<Item = Vec<u8>>) -> Vec<Tag> {
    tags.into_iter().map(Tag::exact).collect()
}

/// The same tags, every second of them folded.
pub fn half_folded(tags: Vec<Tag>) -> Vec<Tag> {
    let fold = |(i, tag): (usize, Tag)| Tag {
        folded: i % 2 == 1,
        ..tag
    };
    tags.into_iter().enumerate().map(fold).collect()
}

pub fn any_folded(tags: &[Tag]) -> bool {
    tags.iter().any(|tag| tag.folded)
}

/// The tags of one kind, each with its number in the whole set.
pub fn of_kind(tags: &[Tag], folded: bool) -> impl Iterator<Item = (usize, &Tag)> {
    let numbered = tags.iter().enumerate();
    numbered.filter(move |(_, tag)| tag.folded == folded)
}
