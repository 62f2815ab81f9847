//! Which pieces carry tags in other letter cases, over tables as building left
//! them.

use crate::{see, Moment, Seen};
use second::kind::Kind;
use second::layout::Layout;
use second::script::Call;
use second::set::{read_set, Tag};

/// The tags that the tables are built for; none where other numbers stand there.
#[derive(Default)]
pub struct Force {
    tags: Vec<Tag>,
}

pub fn count(seen: &mut Seen, moment: &Moment, force: &mut Force) {
    match moment.built() {
        Some(Layout::Split) => {
            let set = read_set(moment.before.set(), Layout::Split.kinds());
            force.tags = set.expect("it was accepted").tags().to_vec();
        }
        Some(_) => force.tags.clear(),
        None => {}
    }
    if let Call::Poke { .. } | Call::Lend { .. } = moment.call {
        force.tags.clear();
    }
    let (name, piece) = match moment.call {
        Call::Feed(_, piece) => ("feed", piece),
        Call::Read {
            layout: Layout::Split,
            piece,
            ..
        } => ("read", piece),
        _ => return,
    };
    if moment.refused().is_none() {
        let taken = &piece[..moment.number("taken")];
        count_piece(seen, name, &force.tags, taken);
    }
}

fn count_piece(seen: &mut Seen, name: &str, tags: &[Tag], taken: &[u8]) {
    for tag in tags {
        for bytes in taken.windows(tag.bytes.len()) {
            if let Some(what) = likeness(tag, bytes) {
                see(seen, format!("{name}, {what}"));
            }
        }
    }
}

/// How like some bytes are to a tag that they don't equal byte for byte.
fn likeness(tag: &Tag, bytes: &[u8]) -> Option<&'static str> {
    if bytes == tag.bytes {
        return None;
    }
    let but_for = |bit: u8| {
        let mut pairs = bytes.iter().zip(&tag.bytes);
        pairs.all(|(a, b)| (a ^ b) & !bit == 0)
    };
    let in_other_cases = bytes.eq_ignore_ascii_case(&tag.bytes);
    match tag.kind {
        Kind::Folded if in_other_cases => Some("a folded tag in other letter cases"),
        Kind::Exact if in_other_cases => Some("an exact tag in other letter cases"),
        Kind::Folded if but_for(0x20) => Some("a folded tag but for the case bit of no letter"),
        Kind::Folded if but_for(0x80) => Some("a folded tag but for a highest bit"),
        _ => None,
    }
}

pub fn wanted() -> Vec<String> {
    let mut wanted = Vec::new();
    for name in ["feed", "read"] {
        wanted.push(format!("{name}, a folded tag in other letter cases"));
        wanted.push(format!("{name}, an exact tag in other letter cases"));
        wanted.push(format!(
            "{name}, a folded tag but for the case bit of no letter"
        ));
        wanted.push(format!("{name}, a folded tag but for a highest bit"));
    }
    wanted
}
