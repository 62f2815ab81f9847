//! Pieces for scripts: tags, near-tags and parts of tags, one after another.

use super::cases::{case_bit_changed, recased};
use super::sets::word;
use crate::kind::Kind;
use crate::rng::Rng;
use crate::set::Tag;

/// A piece in which the tags often occur, or nearly.
pub fn piece(rng: &mut Rng, tags: &[Tag]) -> Vec<u8> {
    let most = match rng.below(10) {
        0 => return vec![],
        1 => 1,
        2..=7 => 40,
        _ => 200,
    };
    let length = rng.between(1, most);
    of_length(rng, tags, length)
}

/// A piece of exactly this length.
pub fn of_length(rng: &mut Rng, tags: &[Tag], length: usize) -> Vec<u8> {
    let mut piece = Vec::new();
    while piece.len() < length {
        let tag = rng.pick(tags).unwrap_or(Tag::exact("a"));
        piece.extend(morsel(rng, &tag.bytes));
    }
    piece.truncate(length);
    piece
}

/// A tag, as it is or in other letter cases, a front of it, an end of it, a
/// near-tag, or bytes of no tag; never no byte at all.
fn morsel(rng: &mut Rng, tag: &[u8]) -> Vec<u8> {
    let cut = rng.below(tag.len());
    let mut bytes = match rng.below(12) {
        0..=3 => tag.to_vec(),
        4 | 5 => recased(rng, tag),
        6 => case_bit_changed(rng, tag),
        7 => tag[..cut].to_vec(),
        8 => tag[cut..].to_vec(),
        9 => changed(rng, tag),
        10 => {
            let length = rng.between(1, 3);
            word(rng, tag, length)
        }
        _ => vec![rng.byte()],
    };
    if bytes.is_empty() {
        bytes.push(rng.byte());
    }
    bytes
}

/// A tag with one bit or one byte changed: seven of eight machines may flag it.
fn changed(rng: &mut Rng, tag: &[u8]) -> Vec<u8> {
    let mut bytes = tag.to_vec();
    let at = rng.below(bytes.len());
    let change = match rng.once_in(3) {
        true => rng.byte(),
        false => 1 << rng.below(8),
    };
    if let Some(byte) = bytes.get_mut(at) {
        *byte ^= change;
    }
    bytes
}

/// The BYTES word of some bytes, in one of its forms.
pub fn bytes_word(rng: &mut Rng, bytes: &[u8]) -> Vec<u8> {
    if bytes.is_empty() {
        let forms = [b"-".to_vec(), b"x".to_vec(), b"\"\"".to_vec()];
        return rng.pick(&forms).unwrap_or_default();
    }
    if can_be_quoted(bytes) && rng.once_in(2) {
        quoted(bytes)
    } else {
        hexadecimal(bytes)
    }
}

/// Whether bytes can stand between quotation marks.
pub fn can_be_quoted(bytes: &[u8]) -> bool {
    !bytes.contains(&b'"') && !bytes.contains(&b'\n')
}

pub fn quoted(bytes: &[u8]) -> Vec<u8> {
    [b"\"", bytes, b"\""].concat()
}

/// The word of a tag in `set`.
pub fn tag_word(tag: &Tag) -> Vec<u8> {
    let mark: &[u8] = match tag.kind {
        Kind::Exact => b"",
        Kind::Folded => b"~",
    };
    [mark, &quoted(&tag.bytes)].concat()
}

pub fn hexadecimal(bytes: &[u8]) -> Vec<u8> {
    let digits = b"0123456789abcdef";
    let mut text = vec![b'x'];
    for byte in bytes {
        text.push(digits[usize::from(byte / 16)]);
        text.push(digits[usize::from(byte % 16)]);
    }
    text
}
