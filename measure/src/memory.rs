// What a table needs: the numbers that a caller lends for it in each layout, and their bytes.
use crate::inputs::{self, Kind};
use crate::ours::{set_of, slots_of, whole_slots_of, BITMAP_SLOT, SPLIT_SLOT, WHOLE_SLOT};
use crate::reading::TAG_COUNTS;

// Slots that are enough for every set, in each table of the split layout and in the other two (docs/FORMATS.md, Tables).
const MOST_SPLIT: [usize; 2] = [479; 2];
const MOST_WHOLE: usize = 513;
// Bytes of a number.
const NUMBER: usize = 2;

/// What is needed for some tags: 2 bytes each in our layouts, and a peer's bytes alone.
pub struct Need {
    pub what: &'static str,
    pub tags: String,
    pub numbers: Option<usize>,
    pub bytes: usize,
}

/// For the tags of the input of random bytes, which share next to no fronts, and for any set.
pub fn needs() -> Vec<Need> {
    let mut needs = Vec::new();
    for count in TAG_COUNTS {
        let tags = inputs::case(Kind::Random, count, 0).tags;
        let set = set_of(&tags);
        let title = format!("{count} tags");
        needs.extend(of_ours(&title, slots_of(&set), whole_slots_of(&set)));
        #[cfg(aho_corasick)]
        needs.push(Need {
            what: crate::engines::AHO_CORASICK,
            tags: title,
            numbers: None,
            bytes: crate::aho_corasick_peer::build(&tags)
                .iter()
                .map(|own| own.heap_bytes())
                .sum(),
        });
    }
    needs.extend(of_ours("any set", MOST_SPLIT, MOST_WHOLE));
    needs
}

/// The split layout's two tables are counted together.
fn of_ours(tags: &str, split: [usize; 2], whole: usize) -> [Need; 3] {
    let need = |what, numbers: usize| Need {
        what,
        tags: tags.to_string(),
        numbers: Some(numbers),
        bytes: numbers * NUMBER,
    };
    [
        need("split", split.iter().sum::<usize>() * SPLIT_SLOT),
        need("whole-byte", whole * WHOLE_SLOT),
        need("bitmap", whole * BITMAP_SLOT),
    ]
}
