// The direct comparison: after each byte, each tag is held against the bytes that end there, by its kind.
use crate::engine::{Engine, Out};
use crate::tags::Tag;

pub struct Direct {
    tags: Vec<Tag>,
}

impl Direct {
    pub fn new(tags: &[Tag]) -> Direct {
        Direct {
            tags: tags.to_vec(),
        }
    }
}

impl Engine for Direct {
    fn begin(&mut self) {}

    fn piece(&mut self, input: &[u8], from: usize, to: usize, out: &mut Out) {
        for end in from + 1..=to {
            compare(&self.tags, &input[..end], end, out);
        }
        out.empty();
    }
}

fn compare(tags: &[Tag], read: &[u8], end: usize, out: &mut Out) {
    for (number, tag) in tags.iter().enumerate() {
        if tag.ends(read) {
            out.push(end as u32, number as u32);
        }
    }
}

/// A wrong engine, on which the check of the records must stop: it misses a tag that is cut by the end of a piece.
pub struct Blind {
    tags: Vec<Tag>,
}

impl Blind {
    pub fn new(tags: &[Tag]) -> Blind {
        Blind {
            tags: tags.to_vec(),
        }
    }
}

impl Engine for Blind {
    fn begin(&mut self) {}

    fn piece(&mut self, input: &[u8], from: usize, to: usize, out: &mut Out) {
        for end in from + 1..=to {
            compare(&self.tags, &input[from..end], end, out);
        }
        out.empty();
    }
}
