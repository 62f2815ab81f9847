// The bitmap engine's shape: a state's map says whether it has a byte, and the ones below the byte's bit say which child it is.
// Most bytes are read near state 0, so a row of where bytes lead from there is made once for a long piece.
use crate::same_shape::{at, put_all, set, Stop, Went};

/// A piece of so many bytes is long enough for a row of state 0.
const LONG: usize = 256;

/// Where a byte leads, and the failure moves on the way.
#[derive(Clone, Copy)]
struct Reached {
    state: usize,
    moves: usize,
}

/// A state, and the table in which it has a slot.
#[derive(Clone, Copy)]
struct Slot<'a, const CHECKED: bool> {
    table: &'a [u16],
    state: usize,
}

/// Most words are 0, and counting takes a dozen instructions.
fn ones_of(word: u16) -> usize {
    if word == 0 {
        return 0;
    }
    word.count_ones() as usize
}

/// The lowest k bits of a word.
fn low(word: u16, k: usize) -> u16 {
    word & ((1 << k) - 1)
}

/// Number j behind the begin of state q's slot.
fn number<const CHECKED: bool>(table: &[u16], q: usize, j: usize) -> u16 {
    at::<CHECKED, u16>(table, q * 19 + j)
}

impl<const CHECKED: bool> Slot<'_, CHECKED> {
    fn number(&self, j: usize) -> u16 {
        number::<CHECKED>(self.table, self.state, j)
    }

    fn own_bit(&self, c: u8) -> u16 {
        let word = self.number(usize::from(c / 16));
        (word >> (c % 16)) % 2
    }

    fn has(&self, c: u8) -> bool {
        self.own_bit(c) == 1
    }

    fn ones_below(&self, c: u8) -> usize {
        let x = usize::from(c);
        let whole = x / 16;
        let mut sum = 0;
        for j in 0..whole {
            sum += ones_of(self.number(j));
        }
        sum + ones_of(low(self.number(whole), x % 16))
    }

    fn child(&self, c: u8) -> usize {
        usize::from(self.number(16)) + self.ones_below(c)
    }

    fn fail(&self) -> usize {
        usize::from(self.number(17))
    }

    fn vector(&self) -> u16 {
        self.number(18)
    }
}

fn next_state<const CHECKED: bool>(table: &[u16], s: usize, q: usize, c: u8) -> Option<Reached> {
    let mut state = q;
    let mut moves = 0;
    loop {
        let slot = Slot::<CHECKED> { table, state };
        if slot.has(c) {
            let n = slot.child(c);
            if s <= n {
                return None;
            }
            return Some(Reached { state: n, moves });
        }
        if state == 0 {
            return Some(Reached { state: 0, moves });
        }
        let f = slot.fail();
        if state <= f {
            return None;
        }
        state = f;
        moves += 1;
    }
}

/// A bitmap table as it is read.
#[derive(Clone, Copy)]
pub struct MapTable<'a, const CHECKED: bool> {
    pub numbers: &'a [u16],
    pub states: usize,
}

impl<const CHECKED: bool> MapTable<'_, CHECKED> {
    fn next(&self, q: usize, c: u8) -> Option<Reached> {
        next_state::<CHECKED>(self.numbers, self.states, q, c)
    }

    fn vector(&self, q: usize) -> u16 {
        let slot = Slot::<CHECKED> {
            table: self.numbers,
            state: q,
        };
        slot.vector()
    }
}

/// The state that each byte leads to from state 0; none, where a number on its way is wrong.
type Leading = [Option<u16>; 256];

/// Where a walk stands: the byte, the state then, and the failure moves up to it.
#[derive(Clone, Copy)]
struct Came {
    at: usize,
    state: usize,
    moves: usize,
}

/// Where a byte leads from state 0.
fn leads<const CHECKED: bool>(table: &MapTable<CHECKED>, c: u8) -> Option<u16> {
    let to = table.next(0, c)?;
    Some(to.state as u16)
}

/// A word of state 0's map, which is for 16 bytes: the row says where its bytes lead.
fn lead_word<const CHECKED: bool>(table: &MapTable<CHECKED>, row: &mut Leading, j: usize) {
    let root = Slot::<CHECKED> {
        table: table.numbers,
        state: 0,
    };
    for k in 0..16 {
        let c = 16 * j + k;
        if root.has(c as u8) {
            set::<CHECKED, Option<u16>>(row, c, leads(table, c as u8));
        }
    }
}

/// The row of state 0. Most bytes are not in its map, and stay there: the row begins so.
fn row_for<const CHECKED: bool>(table: &MapTable<CHECKED>) -> Leading {
    let root = Slot::<CHECKED> {
        table: table.numbers,
        state: 0,
    };
    let mut row = [Some(0); 256];
    for j in 0..16 {
        if root.number(j) != 0 {
            lead_word(table, &mut row, j);
        }
    }
    row
}

fn times(q: usize, marks: u16) -> usize {
    q * usize::from(marks)
}

/// Whether the row can't tell: the state is not 0, and has the byte or fails to another state than 0. It is a product, since the
/// tests one by one would be branches, and text can't be guessed by them.
fn is_deep<const CHECKED: bool>(table: &MapTable<CHECKED>, q: usize, c: u8) -> bool {
    let slot = Slot::<CHECKED> {
        table: table.numbers,
        state: q,
    };
    times(q, slot.own_bit(c) | slot.number(17)) != 0
}

/// Leaving a state is a move, staying in state 0 is none.
fn moves_from(q: usize) -> usize {
    usize::from(q != 0)
}

fn quick<const CHECKED: bool>(
    table: &MapTable<CHECKED>,
    row: &Leading,
    q: usize,
    c: u8,
) -> Option<Reached> {
    if is_deep(table, q, c) {
        return table.next(q, c);
    }
    let n = at::<CHECKED, Option<u16>>(row, usize::from(c))?;
    Some(Reached {
        state: usize::from(n),
        moves: moves_from(q),
    })
}

fn pass<const CHECKED: bool>(
    table: &MapTable<CHECKED>,
    row: &Leading,
    from: Came,
    piece: &[u8],
) -> Came {
    let mut came = from;
    for i in from.at..piece.len() {
        let Some(to) = quick(table, row, came.state, at::<CHECKED, u8>(piece, i)) else {
            break;
        };
        if table.vector(to.state) != 0 {
            break;
        }
        came = Came {
            at: i + 1,
            state: to.state,
            moves: came.moves + to.moves,
        };
    }
    came
}

/// Where a reading stands: its state, and the failure moves of the bytes taken since it began.
#[derive(Clone, Copy)]
pub struct Standing {
    pub state: u16,
    pub moves: usize,
}

fn standing(q: usize, moves: usize) -> Standing {
    Standing {
        state: q as u16,
        moves,
    }
}

#[inline(always)]
fn walk<const CHECKED: bool>(
    table: &MapTable<CHECKED>,
    row: Option<&Leading>,
    start: usize,
    count: u32,
    piece: &[u8],
    list: &mut [u32],
) -> Went<Standing> {
    let mut q = start;
    let mut w = 0;
    let mut i = 0;
    let mut moves = 0;
    while i < piece.len() {
        let Some(to) = table.next(q, at::<CHECKED, u8>(piece, i)) else {
            return Went::stopped(i, standing(q, moves), w, Stop::Damaged);
        };
        let hits = table.vector(to.state);
        let Some(x) = put_all::<CHECKED>(list, w, count + (i as u32) + 1, hits) else {
            return Went::stopped(i, standing(q, moves), w, Stop::Full);
        };
        q = to.state;
        w = x;
        i += 1;
        moves += to.moves;
        if hits == 0 {
            if let Some(row) = row {
                let here = Came {
                    at: i,
                    state: q,
                    moves,
                };
                let p = pass(table, row, here, piece);
                q = p.state;
                i = p.at;
                moves = p.moves;
            }
        }
    }
    Went::stopped(i, standing(q, moves), w, Stop::All)
}

pub fn on_bitmap<const CHECKED: bool>(
    table: &MapTable<CHECKED>,
    start: usize,
    count: u32,
    piece: &[u8],
    list: &mut [u32],
) -> Went<Standing> {
    if piece.len() < LONG {
        return walk(table, None, start, count, piece, list);
    }
    let row = row_for(table);
    walk(table, Some(&row), start, count, piece, list)
}
