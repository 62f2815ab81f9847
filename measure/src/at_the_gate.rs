// What the gate's calls cost beside the desk's that they are made of, each pair timed in turn in one run.
use crate::exports::{GateImage, Image};
use crate::inputs::{self, Kind};
use crate::ours::{set_of, SplitTables};
use crate::timing::best_of;

const RECORDS: usize = 256;
const ROUNDS: usize = 5;
const SIZES: [usize; 4] = [0, 16, 256, 4096];

/// A gate and a desk under the same set of 16 tags, each with its own tables.
struct Both {
    gate: GateImage,
    of_the_gate: SplitTables,
    desk: Image,
    of_the_desk: SplitTables,
    list: Vec<u32>,
    loud: Vec<u8>,
}

impl Both {
    fn new() -> Both {
        let case = inputs::case(Kind::Many, 16, 1 << 16);
        let set = set_of(&case.tags);
        let (mut of_the_gate, mut of_the_desk) =
            (SplitTables::room_for(&set), SplitTables::room_for(&set));
        let (mut gate, mut desk) = (GateImage::new(), Image::new());
        let said = [
            gate.replace(&set, &mut of_the_gate.first, &mut of_the_gate.second),
            desk.replace(&set, &mut of_the_desk.first, &mut of_the_desk.second),
        ];
        let refusals = said.map(|answer| answer.refusal);
        assert_eq!(
            refusals,
            [0, 0],
            "the tables have the slots that the set needs"
        );
        Both {
            gate,
            of_the_gate,
            desk,
            of_the_desk,
            list: vec![0; 4 * RECORDS],
            loud: case.input,
        }
    }

    fn approval(&mut self, pieces: &[&[u8]]) {
        let serial = self.gate.begin().a as u32;
        let (first, second) = (&self.of_the_gate.first, &self.of_the_gate.second);
        for piece in pieces {
            let said = self.gate.piece(serial, first, second, piece);
            assert_eq!((said.refusal, said.a), (0, 1), "the piece is read whole");
        }
        assert_eq!(self.gate.decide(serial).refusal, 0, "it is decided");
    }

    /// The same by a careful caller of the desk: feed on, take all, ask for the state, close.
    fn ticket(&mut self, pieces: &[&[u8]]) {
        let serial = self.desk.open().a as u32;
        let (first, second) = (&self.of_the_desk.first, &self.of_the_desk.second);
        for piece in pieces {
            let mut at = 0;
            loop {
                let fed = self.desk.feed(serial, first, second, &piece[at..]);
                assert_eq!(fed.refusal, 0, "a live ticket's feed is not refused");
                at += fed.a as usize;
                if fed.c > 0 {
                    self.desk.take_many(&mut self.list);
                }
                if at == piece.len() {
                    break;
                }
            }
        }
        assert_eq!(self.desk.state(serial).a, 3, "it is open");
        assert_eq!(self.desk.close(serial).refusal, 0, "it is closed");
    }
}

/// A row for each approval that is measured: nanoseconds at the gate, at the desk, and their ratio.
pub fn table() -> Result<String, String> {
    let mut both = Both::new();
    let quiet = vec![b'.'; 4096];
    let loud = both.loud[..4096].to_vec();
    let mut page =
        String::from("| an approval of | gate, ns | desk, ns | times |\n|---|---:|---:|---:|\n");
    for size in SIZES {
        page += &row(
            &mut both,
            &format!("one piece of {size} bytes"),
            &[&quiet[..size]],
        );
    }
    let pieces: Vec<&[u8]> = quiet.chunks(256).collect();
    page += &row(&mut both, "16 pieces of 256 bytes", &pieces);
    page += &row(
        &mut both,
        "one piece of 4,096 bytes with many matches",
        &[&loud],
    );
    print!("{page}");
    Ok(page)
}

fn row(both: &mut Both, what: &str, pieces: &[&[u8]]) -> String {
    let (mut gate, mut desk) = (f64::INFINITY, f64::INFINITY);
    for _ in 0..ROUNDS {
        gate = gate.min(best_of(|| both.approval(pieces)));
        desk = desk.min(best_of(|| both.ticket(pieces)));
    }
    format!("| {what} | {gate:.0} | {desk:.0} | {:.2} |\n", gate / desk)
}
