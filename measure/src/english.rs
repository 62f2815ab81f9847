// English text: the plain files of the machine's own documentation, or sentences made up where there is none.
use crate::random::Random;
use std::fs;
use std::path::{Path, PathBuf};

const FOLDERS: [&str; 2] = ["/usr/share/common-licenses", "/usr/share/doc"];
// Less than this, repeated, would be a poor text.
const LEAST: usize = 64 * 1024;

const WORDS: [&str; 32] = [
    "the",
    "approval",
    "of",
    "a",
    "batch",
    "was",
    "withdrawn",
    "and",
    "every",
    "label",
    "that",
    "names",
    "it",
    "is",
    "read",
    "again",
    "by",
    "gateway",
    "before",
    "which",
    "laboratory",
    "may",
    "send",
    "record",
    "to",
    "others",
    "in",
    "order",
    "without",
    "delay",
    "or",
    "loss",
];

/// Whether the machine has documentation enough to read.
pub fn is_documented() -> bool {
    documentation(LEAST).len() >= LEAST
}

/// So many bytes of text. Documentation that is shorter is repeated.
pub fn text(size: usize) -> Vec<u8> {
    let text = if is_documented() {
        documentation(size)
    } else {
        sentences(LEAST)
    };
    text.iter().copied().cycle().take(size).collect()
}

fn documentation(size: usize) -> Vec<u8> {
    let mut text = Vec::new();
    for path in FOLDERS
        .iter()
        .flat_map(|folder| files_under(Path::new(folder)))
    {
        if text.len() >= size {
            break;
        }
        text.extend(plain_text(&path));
    }
    text
}

/// All files, by name, so that a machine gives the same text every time.
fn files_under(folder: &Path) -> Vec<PathBuf> {
    let Ok(entries) = fs::read_dir(folder) else {
        return Vec::new();
    };
    let mut paths: Vec<PathBuf> = entries
        .flatten()
        .map(|entry| entry.path())
        .filter(|path| !path.is_symlink())
        .collect();
    paths.sort();
    paths
        .into_iter()
        .flat_map(|path| {
            if path.is_dir() {
                files_under(&path)
            } else {
                vec![path]
            }
        })
        .collect()
}

/// A file's bytes if they are text in English letters, else none.
fn plain_text(path: &Path) -> Vec<u8> {
    let bytes = fs::read(path).unwrap_or_default();
    let plain = bytes
        .iter()
        .all(|c| c.is_ascii_graphic() || c.is_ascii_whitespace());
    let letters = bytes.iter().filter(|c| c.is_ascii_alphabetic()).count();
    if plain && letters * 2 > bytes.len() {
        bytes
    } else {
        Vec::new()
    }
}

fn sentences(size: usize) -> Vec<u8> {
    let mut random = Random::new(7);
    let mut text = Vec::new();
    while text.len() < size {
        text.extend_from_slice(WORDS[random.below(WORDS.len())].as_bytes());
        text.extend_from_slice(if random.below(12) == 0 { b".\n" } else { b" " });
    }
    text
}
