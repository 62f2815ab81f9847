//! Letters in either case, and the bytes beside them.

use crate::rng::Rng;

/// The bytes at the letters' edges, and the same with their highest bit set.
/// Of all these folding changes A and Z alone.
pub const EDGES: [u8; 16] = [
    b'@', b'A', b'Z', b'[', b'`', b'a', b'z', b'{', 0xc0, 0xc1, 0xda, 0xdb, 0xe0, 0xe1, 0xfa, 0xfb,
];

/// The bit in which a letter of one case differs from that of the other.
const CASE: u8 = 0x20;

/// The bytes with their letters in upper case, in lower case, all in the other
/// case, or each in either.
pub fn recased(rng: &mut Rng, bytes: &[u8]) -> Vec<u8> {
    let how = rng.below(4);
    let other = |byte: u8| match byte.is_ascii_alphabetic() {
        true => byte ^ CASE,
        false => byte,
    };
    let one = |byte: &u8| match how {
        0 => byte.to_ascii_uppercase(),
        1 => byte.to_ascii_lowercase(),
        2 => other(*byte),
        _ if rng.once_in(2) => other(*byte),
        _ => *byte,
    };
    bytes.iter().map(one).collect()
}

/// The bytes with the bit of the case changed in one, be it a letter or not:
/// where it is none, a tag of either kind isn't found.
pub fn case_bit_changed(rng: &mut Rng, bytes: &[u8]) -> Vec<u8> {
    let mut bytes = bytes.to_vec();
    let others: Vec<usize> = (0..bytes.len())
        .filter(|at| !bytes[*at].is_ascii_alphabetic())
        .collect();
    let any = rng.below(bytes.len());
    let at = rng.pick(&others).unwrap_or(any);
    if let Some(byte) = bytes.get_mut(at) {
        *byte ^= CASE;
    }
    bytes
}
