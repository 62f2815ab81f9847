//! The desk that owns its tables, against the second program: generated scripts without the calls
//! that change or lend a table, each with the answers of both.

use library_replay::{fed, record, refused, shown, stated};
use second::differ::answers;
use second::generate::script;
use second::script::{parse, Call};
use second::tally::Tally;
use sleetbarley::{Desk, Refusal, Serial};

/// The lines of a script that are calls on a desk.
fn desk_calls(script: &[u8]) -> Vec<(Vec<u8>, Call)> {
    let lines = script.split(|byte| *byte == b'\n');
    let short = lines.filter(|line| line.len() <= second::replay::LONGEST_LINE);
    let calls = short.filter_map(|line| Some((line.to_vec(), parse(line)?)));
    calls.filter(|(_, call)| is_of_a_desk(call)).collect()
}

fn is_of_a_desk(call: &Call) -> bool {
    !matches!(
        call,
        Call::Lend { .. }
            | Call::Build(_)
            | Call::Read { .. }
            | Call::Poke { .. }
            | Call::Peek { .. }
    )
}

fn answer(desk: &mut Desk, set: &mut Vec<u8>, call: Call) -> Result<Vec<String>, Refusal> {
    Ok(vec![match call {
        Call::Set(bytes) => {
            *set = bytes;
            format!("set {}", set.len())
        }
        Call::Replace => {
            let now = desk.replace_bytes(set)?;
            format!("edition {} tags {}", now.edition, now.tags)
        }
        Call::Open => format!("serial {}", desk.open()?),
        Call::Feed(serial, piece) => fed(desk.feed(Serial(serial), &piece)?),
        Call::Close(serial) => {
            desk.close(Serial(serial))?;
            format!("closed {serial}")
        }
        Call::State(serial) => stated(serial, desk.state(Serial(serial))),
        Call::Take => record(desk.take()?),
        _ => {
            let (edition, serial) = (desk.edition().0, desk.last_serial().0);
            return Ok(shown(edition, serial, desk.held(), &desk.tickets()));
        }
    }])
}

#[test]
fn the_desk_answers_as_the_second_program_does() {
    let mut tally = Tally::default();
    for seed in 1..=100 {
        let (mut desk, mut set, mut said) = (Desk::new(), Vec::new(), Vec::new());
        let calls = desk_calls(&script(seed, 400));
        let lines: Vec<&[u8]> = calls.iter().map(|(line, _)| &line[..]).collect();
        let second = answers(&lines.join(&b'\n'));
        for (_, call) in calls {
            said.extend(answer(&mut desk, &mut set, call).unwrap_or_else(refused));
        }
        for (at, (said, second)) in said.iter().zip(&second).enumerate() {
            assert_eq!(said, &second.text, "seed {seed}, answer {at}");
            tally.count(said);
        }
        assert_eq!(said.len(), second.len(), "seed {seed}");
    }
    println!("{tally}");
    for number in [1, 2, 3, 4, 5, 6, 9, 11, 12, 13, 16] {
        assert!(tally.refused(number) >= 20, "{tally}");
    }
    use second::reading::Stop;
    assert!(
        tally.stopped(Stop::All) >= 1000 && tally.stopped(Stop::Full) >= 100,
        "{tally}"
    );
    assert_eq!(tally.stopped(Stop::Damaged), 0, "{tally}");
}
