//! Bitmap tables: their failure moves, their size, and numbers that were changed.

use sleetbarley::{lent, BitmapTable, Refusal, Stop, TagSet, WholeTable};

const TEXT: &[u8] = b"she sells his hers, he said; ushers hear shells";

fn tags() -> TagSet {
    TagSet::new(["he", "she", "his", "hers"]).expect("a lawful set")
}

#[test]
fn failure_moves_are_told_piece_by_piece_and_are_no_more_than_bytes() {
    let bitmap = BitmapTable::build(&tags()).expect("slots enough");
    let text = TEXT.repeat(40);
    let whole = bitmap.read(0, 0, &text, &mut [0; 8192]).expect("read");
    assert_eq!(whole.reading.stop, Stop::All);
    assert!(whole.moves > 0 && whole.moves <= text.len() as u64);
    for length in [1, 2, 7, 1000] {
        let (mut place, mut moves, mut taken) = (lent::BITMAP_START, 0, 0);
        for piece in text.chunks(length) {
            let said = bitmap.read(place, taken, piece, &mut [0; 8192]);
            let said = said.expect("read");
            place = said.reading.place;
            moves += said.moves;
            taken += piece.len() as u32;
            assert!(moves <= u64::from(taken));
        }
        assert_eq!((place, moves), (whole.reading.place, whole.moves));
    }
}

#[test]
fn the_largest_set_has_513_slots_in_either_layout_of_one_machine() {
    let tags: Vec<[u8; 32]> = (0..16).map(|k| [k; 32]).collect();
    let set = TagSet::new(&tags).expect("lawful");
    assert_eq!((set.whole_slots(), set.bitmap_slots()), (Ok(513), Ok(513)));
    let bitmap = BitmapTable::build(&set).expect("slots enough");
    assert_eq!(bitmap.numbers().len(), lent::BITMAP_TABLE);
    let whole = WholeTable::build(&set).expect("slots enough");
    let text = tags.concat();
    let (by_bitmap, by_whole) = (bitmap.find_all(&text), whole.find_all(&text));
    assert_eq!(by_bitmap.as_ref().map(Vec::len), Ok(16));
    assert_eq!(by_bitmap, by_whole);
}

#[test]
fn a_bitmap_table_that_was_changed_is_walked_as_its_numbers_say() {
    let mut table = BitmapTable::build(&tags())
        .expect("slots enough")
        .numbers()
        .to_vec();
    let read = |table: &[u16], piece: &[u8]| {
        let said = lent::read_bitmap(table, 0, 0, piece, &mut [0; 8]);
        let said = said.expect("state 0 is one of the table");
        let reading = said.reading;
        (
            reading.taken,
            reading.stop,
            reading.records,
            reading.place,
            said.moves,
        )
    };
    // State 5, of sh, fails to itself; then to 4, of hi, which has 's' in its map.
    let failure = 5 * lent::BITMAP_SLOT + 17;
    table[failure] = 5;
    assert_eq!(read(&table, b"shs"), (2, Stop::Damaged, 0, 5, 0));
    assert_eq!(read(&table, b"she"), (3, Stop::All, 2, 8, 0));
    table[failure] = 4;
    assert_eq!(read(&table, b"shs"), (3, Stop::All, 1, 7, 1));
    // The first child of h is the last state, and the second would be none.
    table[lent::BITMAP_SLOT + 16] = 9;
    assert_eq!(read(&table, b"he"), (2, Stop::All, 1, 9, 0));
    assert_eq!(read(&table, b"hi"), (1, Stop::Damaged, 0, 1, 0));
    // Where there is no slot every place is refused.
    let outside = lent::read_bitmap(&table[..18], 0, 0, b"", &mut []);
    assert_eq!(outside, Err(Refusal::Place));
}
