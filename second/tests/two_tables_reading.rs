//! Readings over the two tables of the split layout: places, damage and room in
//! either, and tags that both flag.

mod helpers;

use helpers::check;
use helpers::split::*;

#[test]
fn readings_have_sixteen_states() {
    // A is 0x41: machines 2, 3, 4, 6 and 7 read of it what they have of b.
    let mut calls = built("\"b\" ~\"A\"", 2, [2, 3]);
    calls.push(call(
        &read(4, "\"A\""),
        "taken 1 stop ALL records 1 place 0 0 1 1 1 0 1 1 1 1 1 1 1 1 1 1|list 1 1 7 7",
    ));
    calls.push(call(
        &read(4, "\"ab\""),
        "taken 2 stop ALL records 2 place 1 1 1 1 1 1 1 1 0 0 1 1 1 1 1 1|list 1 1 2 0",
    ));
    check_calls(&calls);
}

#[test]
fn place_15_is_of_each_table_by_its_own_s() {
    let mut calls = built("\"b\" ~\"A\"", 2, [2, 3]);
    for machine in 0..16 {
        let s = if machine < 8 { 2 } else { 3 };
        for (state, refused) in [(s - 1, false), (s, true), (65_535, true)] {
            let mut place = [0; 16];
            place[machine] = state;
            let place = place.map(|state| format!(" {state}")).concat();
            let line = format!("read split 4294967295 0{place}");
            let taken = format!("taken 0 stop ALL records 0 place{place}|list");
            let (of_nothing, of_a_byte) = match refused {
                // PLACE before LONG.
                true => ("refused 15", "refused 15"),
                false => (taken.as_str(), "refused 14"),
            };
            calls.push(call(&format!("{line} -"), of_nothing));
            calls.push(call(&format!("{line} \"x\""), of_a_byte));
        }
    }
    // No slot in one of them: every place is PLACE.
    let nothing = read(0, "-");
    calls.push(call("lend 23 1", "lent 23"));
    calls.push(call(&nothing, "refused 15"));
    calls.push(call("lend 24 1", "lent 24"));
    calls.push(call(&nothing, &stopped("ALL", 0)));
    calls.push(call("lend 23", "lent 23"));
    calls.push(call(&nothing, "refused 15"));
    check_calls(&calls);
}

#[test]
fn a_next_number_not_below_its_own_tables_s_is_damage() {
    let damaged = stopped("DAMAGED", 2);
    let mut calls = built("\"b\" ~\"A\"", 2, [2, 3]);
    // Machine 8's next on 1, number 1, leads to s - 1 of its table, where no tag
    // is flagged; then to s and beyond.
    let unused = "taken 1 stop ALL records 0 place 0 0 1 1 1 0 1 1 2 1 1 1 1 1 1 1|list 7 7";
    for (value, answer) in [(2, unused), (3, &damaged), (65_535, &damaged)] {
        calls.push(call(&format!("poke 1 {value} 1"), "poked 1"));
        calls.push(call(&read(2, "\"A\""), answer));
    }
    // What isn't read does no harm: the lowest bit of b is 0.
    let found = "taken 1 stop ALL records 1 place 1 1 1 1 1 1 1 1 0 0 1 1 1 1 1 1|list 1 0";
    calls.push(call(&read(2, "\"b\""), found));
    // The same of machine 0: the first table's s is 2.
    calls.push(call("poke 1 1 1", "poked 1"));
    calls.push(call("poke 1 2", "poked 1"));
    calls.push(call(&read(2, "\"A\""), &damaged));
    check_calls(&calls);
}

#[test]
fn damage_in_either_table_or_both_comes_before_room() {
    // Each reads the letter a, which both tags match, without room.
    let full = call(&read(3, "\"a\""), &stopped("FULL", 3));
    let damaged = call(&read(3, "\"a\""), &stopped("DAMAGED", 3));
    let mut calls = built("\"a\" ~\"A\"", 2, [2, 2]);
    calls.push(full.clone());
    // Machine 0's, then machine 8's, next on 1.
    calls.push(call("poke 1 2", "poked 1"));
    calls.push(damaged.clone());
    calls.push(call("poke 1 2 1", "poked 1"));
    calls.push(damaged.clone());
    calls.push(call("poke 1 1", "poked 1"));
    calls.push(damaged);
    calls.push(call("poke 1 1 1", "poked 1"));
    calls.push(full);
    check_calls(&calls);
}

#[test]
fn the_first_damaged_byte_stops_whichever_table_it_is_of() {
    // Machine 8's state 1 leads out of the table on 1, so that the second a in
    // a row is damage; then machine 0 leads out on the first.
    let mut calls = built("\"a\" ~\"A\"", 2, [2, 2]);
    let place = " 1".repeat(16);
    let one = format!("taken 1 stop DAMAGED records 2 place{place}|list 1 0 1 1 7 7");
    calls.push(call("poke 4 2 1", "poked 4"));
    calls.push(call(&read(6, "\"aa\""), &one));
    calls.push(call("poke 1 2", "poked 1"));
    calls.push(call(&read(6, "\"aa\""), &stopped("DAMAGED", 6)));
    check_calls(&calls);
}

#[test]
fn matches_of_both_tables_need_room_together() {
    let mut calls = built("~\"A\" \"a\"", 2, [2, 2]);
    let both = " 1".repeat(16);
    let all = format!("taken 1 stop ALL records 2 place{both}|list 1 0 1 1");
    calls.push(call(&read(4, "\"a\""), &all));
    calls.push(call(&read(3, "\"a\""), &stopped("FULL", 3)));
    // A is of the folded tag alone.
    let upper = "taken 1 stop ALL records 1 place 1 1 1 1 1 0 1 1 1 1 1 1 1 1 1 1|list 1 0 7";
    calls.push(call(&read(3, "\"A\""), upper));
    check_calls(&calls);
}

/// Puts a vector into state 0 of the first so many machines of the second table
/// of two slots.
fn flagged(machines: usize, vector: u16) -> Vec<(String, String)> {
    let at = (0..machines).map(|machine| 6 * machine + 2);
    at.map(|at| call(&format!("poke {at} {vector} 1"), &format!("poked {at}")))
        .collect()
}

#[test]
fn a_tag_that_both_tables_flag_is_one_match() {
    // The second table has no tag and stays in state 0, which gets tag 0 too.
    let ended = format!("place{}{}", " 1".repeat(8), " 0".repeat(8));
    let once = format!("taken 1 stop ALL records 1 {ended}|list 1 0");
    let mut calls = built("\"a\"", 1, [2, 2]);
    calls.extend(flagged(7, 1));
    calls.push(call(&read(2, "\"a\""), &once));
    calls.extend(flagged(8, 1));
    calls.push(call(&read(2, "\"a\""), &once));
    calls.push(call(&read(1, "\"a\""), &stopped("FULL", 1)));
    // By the second alone: ` differs from a in its lowest bit.
    let other = "place 0 1 1 1 1 1 1 1 0 0 0 0 0 0 0 0";
    calls.push(call(
        &read(3, "\"`\""),
        &format!("taken 1 stop ALL records 1 {other}|list 1 0 7"),
    ));
    // Tags 0 and 15 by the second, 0 by the first: two matches.
    calls.extend(flagged(8, 32_769));
    calls.push(call(&read(3, "\"a\""), &stopped("FULL", 3)));
    calls.push(call(
        &read(4, "\"a\""),
        &format!("taken 1 stop ALL records 2 {ended}|list 1 0 1 15"),
    ));
    check_calls(&calls);
}

#[test]
fn seven_of_the_second_eight_flag_nothing() {
    let mut calls = built("\"b\"", 1, [2, 2]);
    let nothing = "taken 1 stop ALL records 0 place 0 0 1 1 1 1 1 1 0 0 0 0 0 0 0 0|list 7 7";
    calls.extend(flagged(7, 65_535));
    calls.push(call(&read(2, "\"a\""), nothing));
    // Nor does one of the first with seven of the second.
    calls.push(call("poke 2 65535", "poked 2"));
    calls.push(call(&read(2, "\"a\""), nothing));
    check_calls(&calls);
}

#[test]
fn the_desk_takes_a_tag_that_both_flag_once() {
    let mut calls = built("\"a\"", 1, [2, 2]);
    calls.push(call("replace", "edition 1 tags 1"));
    calls.push(call("open", "serial 1"));
    calls.extend(flagged(8, 1));
    let piece = "ab".repeat(128);
    calls.push(call(&format!("feed 1 \"{piece}\""), "taken 256 stop ALL"));
    calls.push(call("feed 1 \"a\"", "taken 0 stop FULL"));
    calls.push(call("take", "record 1 1 1 0"));
    calls.push(call("take", "record 1 1 2 0"));
    calls.push(call("feed 1 \"aaa\"", "taken 2 stop FULL"));
    check_calls(&calls);
}

#[test]
fn tags_are_found_by_their_kinds_across_cuts() {
    check(&[
        ("set ~\"tAg\" \"tAg\" ~\"g[\" \"G{\"", "set 26"),
        ("replace", "edition 1 tags 4"),
        ("open", "serial 1"),
        ("feed 1 \"xT\"", "taken 2 stop ALL"),
        ("feed 1 \"a\"", "taken 1 stop ALL"),
        ("feed 1 \"G[tAg{TAG{\"", "taken 10 stop ALL"),
        ("take", "record 1 1 4 0"),
        ("take", "record 1 1 5 2"),
        ("take", "record 1 1 8 0"),
        ("take", "record 1 1 8 1"),
        ("take", "record 1 1 12 0"),
        ("take", "record 1 1 13 3"),
        ("take", "refused 16"),
    ]);
}
