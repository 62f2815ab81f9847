// Rust's aho-corasick, as Debian packages it. Its public calls find overlapping matches in one slice only, so a piece is lent
// with the bytes before it in which a match that ends in the piece may begin, and what ends in those is left out. An automaton
// folds all of its tags or none, so exact and folded tags have one each.
use crate::engine::{Engine, Out};
use crate::inputs::LONGEST;
use crate::tags::{of_kind, Tag};
use aho_corasick::{AhoCorasick, AhoCorasickBuilder};

/// An automaton of the tags of one kind, and their numbers in the whole set.
pub struct OfKind {
    automaton: AhoCorasick<u32>,
    numbers: Vec<u32>,
}

impl OfKind {
    pub fn heap_bytes(&self) -> usize {
        self.automaton.heap_bytes()
    }
}

pub struct Dfa {
    automata: Vec<OfKind>,
}

/// Its DFA, over classes of bytes as the builder makes it unless told otherwise. States of 32 bits make its table smallest.
fn of_one_kind(tags: &[Tag], folded: bool) -> Option<OfKind> {
    let own: Vec<(usize, &Tag)> = of_kind(tags, folded).collect();
    if own.is_empty() {
        return None;
    }
    let built = AhoCorasickBuilder::new()
        .dfa(true)
        .ascii_case_insensitive(folded)
        .build_with_size::<u32, _, _>(own.iter().map(|(_, tag)| &tag.bytes));
    Some(OfKind {
        automaton: built.expect("sixteen short tags make few states"),
        numbers: own.iter().map(|(number, _)| *number as u32).collect(),
    })
}

/// One for each kind of which there are tags.
pub fn build(tags: &[Tag]) -> Vec<OfKind> {
    let kinds = [false, true].into_iter();
    kinds
        .filter_map(|folded| of_one_kind(tags, folded))
        .collect()
}

impl Dfa {
    pub fn new(tags: &[Tag]) -> Dfa {
        Dfa {
            automata: build(tags),
        }
    }
}

impl Engine for Dfa {
    fn begin(&mut self) {}

    fn piece(&mut self, input: &[u8], from: usize, to: usize, out: &mut Out) {
        let start = from.saturating_sub(LONGEST - 1);
        for own in &self.automata {
            for found in own.automaton.find_overlapping_iter(&input[start..to]) {
                let end = start + found.end();
                if end > from {
                    out.push(end as u32, own.numbers[found.pattern()]);
                }
            }
        }
        out.empty();
    }
}
