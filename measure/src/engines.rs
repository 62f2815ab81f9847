// All engines that there are here, in the order of the tables.
use crate::direct::{Blind, Direct};
use crate::engine::Engine;
use crate::ours::{AtTheDesk, Bitmap, OneBit, WholeByte};
use crate::peers;
use crate::plain_loop::{PlainOneBit, PlainWholeByte};
use crate::plan::Wrong;
use crate::same_shape::{BitmapInRust, OneBitInRust, WholeByteInRust};
use crate::tags::{any_folded, exact, Tag};

pub const ONE_BIT: &str = "one-bit";
pub const WHOLE_BYTE: &str = "whole-byte";
pub const BITMAP: &str = "bitmap";
pub const DESK: &str = "desk";
pub const ONE_BIT_CHECKED: &str = "one-bit in Rust, checked";
pub const ONE_BIT_UNCHECKED: &str = "one-bit in Rust, unchecked";
pub const WHOLE_BYTE_CHECKED: &str = "whole-byte in Rust, checked";
pub const WHOLE_BYTE_UNCHECKED: &str = "whole-byte in Rust, unchecked";
pub const BITMAP_CHECKED: &str = "bitmap in Rust, checked";
pub const BITMAP_UNCHECKED: &str = "bitmap in Rust, unchecked";
pub const ONE_BIT_PLAIN: &str = "one-bit, plain loop";
pub const WHOLE_BYTE_PLAIN: &str = "whole-byte, plain loop";
pub const AHO_CORASICK: &str = "aho-corasick DFA";
pub const HYPERSCAN: &str = "Hyperscan, streaming";
pub const DIRECT: &str = "direct comparison";
const BLIND: &str = "direct comparison that forgets the pieces before";
const UNFOLDED: &str = "direct comparison that takes every tag as exact";

/// The engines that the library gives, whose order of records is promised.
pub const OURS: [&str; 4] = [ONE_BIT, WHOLE_BYTE, BITMAP, DESK];

/// Those that take exact tags alone.
const EXACT_ALONE: [&str; 7] = [
    WHOLE_BYTE,
    BITMAP,
    WHOLE_BYTE_CHECKED,
    WHOLE_BYTE_UNCHECKED,
    BITMAP_CHECKED,
    BITMAP_UNCHECKED,
    WHOLE_BYTE_PLAIN,
];

/// An engine's name, and how it is made for some tags.
pub struct Maker {
    pub name: &'static str,
    pub make: fn(&[Tag]) -> Box<dyn Engine>,
}

/// Those that can be made for these tags.
pub fn all_for(tags: &[Tag]) -> Vec<Maker> {
    let mut makers = all();
    if any_folded(tags) {
        makers.retain(|maker| !EXACT_ALONE.contains(&maker.name));
    }
    makers
}

pub fn all() -> Vec<Maker> {
    let mut makers = vec![
        Maker {
            name: ONE_BIT,
            make: |tags| Box::new(OneBit::new(tags)),
        },
        Maker {
            name: WHOLE_BYTE,
            make: |tags| Box::new(WholeByte::new(tags)),
        },
        Maker {
            name: BITMAP,
            make: |tags| Box::new(Bitmap::new(tags)),
        },
        Maker {
            name: DESK,
            make: |tags| Box::new(AtTheDesk::new(tags)),
        },
    ];
    makers.extend(peers::aho_corasick());
    makers.extend(peers::hyperscan());
    makers.extend(in_rust());
    makers.extend([
        Maker {
            name: ONE_BIT_PLAIN,
            make: |tags| Box::new(PlainOneBit::new(tags)),
        },
        Maker {
            name: WHOLE_BYTE_PLAIN,
            make: |tags| Box::new(PlainWholeByte::new(tags)),
        },
        Maker {
            name: DIRECT,
            make: |tags| Box::new(Direct::new(tags)),
        },
    ]);
    makers
}

/// The shapes of our engines in Rust, over tables that ours are.
fn in_rust() -> [Maker; 6] {
    [
        Maker {
            name: ONE_BIT_UNCHECKED,
            make: |tags| Box::new(OneBitInRust::<false>::new(tags)),
        },
        Maker {
            name: ONE_BIT_CHECKED,
            make: |tags| Box::new(OneBitInRust::<true>::new(tags)),
        },
        Maker {
            name: WHOLE_BYTE_UNCHECKED,
            make: |tags| Box::new(WholeByteInRust::<false>::new(tags)),
        },
        Maker {
            name: WHOLE_BYTE_CHECKED,
            make: |tags| Box::new(WholeByteInRust::<true>::new(tags)),
        },
        Maker {
            name: BITMAP_UNCHECKED,
            make: |tags| Box::new(BitmapInRust::<false>::new(tags)),
        },
        Maker {
            name: BITMAP_CHECKED,
            make: |tags| Box::new(BitmapInRust::<true>::new(tags)),
        },
    ]
}

/// A wrong engine, which the check of the records must find out.
pub fn wrong(how: Wrong) -> Maker {
    match how {
        Wrong::Pieces => Maker {
            name: BLIND,
            make: |tags| Box::new(Blind::new(tags)),
        },
        Wrong::Kinds => Maker {
            name: UNFOLDED,
            make: |tags| {
                Box::new(Direct::new(&exact(
                    tags.iter().map(|tag| tag.bytes.clone()),
                )))
            },
        },
    }
}
