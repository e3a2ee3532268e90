//! MOVEC: both ways, of CACR, VBR and numbers that are no control register here, with every register and in both modes; and runs in
//! which CACR and VBR are written between the changes of mode that they rule.

use crate::cases::{memory, put, state, Answer, Call, Case, LENGTH};
use crate::random::Random;
use host::{Reply, State};

const CACR: u16 = 0x002;
const VBR: u16 = 0x801;

/// The numbers that are tried for themselves: CACR and VBR, then neighbours of these, the access control registers, the other stack
/// pointer, the module base address and the ends.
const NUMBERS: [u16; 13] = [CACR, VBR, 0x000, 0x001, 0x003, 0x004, 0x005, 0x006, 0x007, 0x800, 0x802, 0xC0F, 0xFFF];

/// What is moved: edges, all ones, bit 5 alone set and alone clear, and around VBR's lowest bit, 20.
pub const VALUES: [u32; 14] = [
    0,
    1,
    0x20,
    0xDF,
    0x100,
    0xF_FFDF,
    0xF_FFFF,
    0x10_0000,
    0x1F_FFFF,
    0x1234_5678,
    0x7FFF_FFFF,
    0xFFF0_0000,
    0xFFFF_FFDF,
    0xFFFF_FFFF,
];

// -- steps ----------------------------------------------------------------------

/// The second word: its register, and the place of its number in NUMBERS; the place behind them is that of every other number.
#[derive(Clone, Copy, PartialEq, Eq, PartialOrd, Ord)]
struct Second {
    register: u16,
    place: usize,
}

impl Second {
    fn of(word: u16) -> Second {
        let place = NUMBERS.iter().position(|&n| n == word & 0xFFF).unwrap_or(NUMBERS.len());
        Second { register: word >> 12, place }
    }
}

/// A MOVEC to a control register or from it, in a mode. It has no second word where that is not inside.
#[derive(Clone, Copy, PartialEq, Eq, PartialOrd, Ord)]
pub struct Kind {
    writes: bool,
    supervisor: bool,
    second: Option<Second>,
}

const MODES: [(bool, bool); 4] = [(false, false), (false, true), (true, false), (true, true)];

impl Kind {
    pub fn all() -> impl Iterator<Item = Kind> {
        let places = || (0..=NUMBERS.len()).flat_map(|place| (0..16).map(move |register| Some(Second { register, place })));
        let of = |(writes, supervisor), second| Kind { writes, supervisor, second };
        MODES.into_iter().flat_map(move |mode| places().chain([None]).map(move |second| of(mode, second)))
    }

    /// What moves something, with half of the registers, now these and now those; for a supervisor every number, for a user CACR, VBR
    /// and one more, each with one register; and those without a second word.
    pub fn some() -> impl Iterator<Item = Kind> {
        Kind::all().filter(|&k| {
            let Some(s) = k.second else { return true };
            let turn = s.place as u16 + 5 * k.writes as u16 + 11 * k.supervisor as u16;
            let one = k.supervisor || s.place < 2 || s.place == NUMBERS.len();
            if k.moves() { (s.register + turn) % 2 == 0 } else { one && s.register == turn % 16 }
        })
    }

    /// Whether it moves something; otherwise it enters a vector or is refused.
    pub fn moves(self) -> bool {
        self.supervisor && self.second.is_some_and(|s| s.place < 2)
    }

    pub fn is_inside(self) -> bool {
        self.second.is_some()
    }

    /// The kind at PC, if a MOVEC is there.
    fn at_pc(s: &State, mem: &[u8]) -> Option<Kind> {
        let word = |at: u32| mem.get(at as usize..at as usize + 2).map(|b| u16::from_be_bytes([b[0], b[1]]));
        let op = word(s.pc).filter(|op| op & 0xFFFE == 0x4E7A)?;
        let second = word(s.pc.wrapping_add(2)).map(Second::of);
        Some(Kind { writes: op & 1 == 1, supervisor: s.sr & 0x2000 != 0, second })
    }
}

fn set_register(s: &mut State, register: u16, value: u32) {
    let n = register as usize;
    if n < 8 { s.d[n] = value } else { s.a[n - 8] = value }
}

/// Makes a state ready for a kind, and gives its words, of which the second may be one too many. `value` is what is moved; where a
/// vector is entered it is not A7's.
pub fn ready(r: &mut Random, s: &mut State, k: Kind, value: u32) -> [u16; 2] {
    s.sr = s.sr & !0x2000 | (k.supervisor as u16) << 13;
    let Second { register, place } = k.second.unwrap_or(Second { register: r.below(16) as u16, place: r.below(2) as usize });
    let number = match NUMBERS.get(place) {
        Some(&n) => n,
        None => loop {
            let n = r.word() & 0xFFF;
            if !NUMBERS.contains(&n) {
                break n;
            }
        },
    };
    match number {
        CACR if k.moves() && !k.writes => s.cacr = value,
        VBR if k.moves() && !k.writes => s.vbr = value,
        _ if k.moves() || register != 15 => set_register(s, register, value),
        _ => {}
    }
    [0x4E7A | k.writes as u16, register << 12 | number]
}

/// A kind with everything else inside.
fn inside(r: &mut Random, k: Kind, value: u32) -> (State, Vec<u8>) {
    let mut s = state(r, k.supervisor);
    s.vbr = r.below(0xC00);
    s.a[7] = 0x100 + r.below(0xE00);
    s.other = 0x100 + r.below(0xE00);
    // With one byte of its second word inside, or none.
    s.pc = if k.is_inside() { 0x100 + r.below(0xE00) } else { LENGTH - 2 - r.below(2) };
    let words = ready(r, &mut s, k, value);
    let mut mem = memory(r, &s, LENGTH);
    for (i, w) in words.iter().enumerate() {
        put(&mut mem, s.pc + 2 * i as u32, &w.to_be_bytes());
    }
    (s, mem)
}

/// Hands every kind to `check`: with every value where something is moved, and else with one, and then with a frame, a table or code
/// that may lie anywhere. Then every number, in one of the two ways, for a supervisor.
pub fn each(r: &mut Random, mut check: impl FnMut(State, Vec<u8>)) {
    for k in Kind::all() {
        let one = [r.pick(&VALUES)];
        for &value in if k.moves() { &VALUES[..] } else { &one[..] } {
            let (s, mem) = inside(r, k, value);
            check(s, mem);
        }
        let value = r.long();
        let (mut s, mut mem) = inside(r, k, value);
        let edge = r.pick(&[0, 7, 8, LENGTH - 1, LENGTH, LENGTH + 9, 0x8000_0000, 0xFFFF_FFFC]);
        match r.below(4) {
            0 => s.a[7] = edge,
            1 => s.other = edge,
            2 => s.vbr = edge.wrapping_sub(4 * r.pick(&[4, 8])),
            _ => mem.truncate((s.pc + r.below(8)) as usize),
        }
        check(s, mem);
    }
    for number in 0..0x1000 {
        let (word, value) = ((r.below(16) as u16) << 12 | number, r.long());
        let k = Kind { writes: r.of_100(50), supervisor: true, second: Some(Second::of(word)) };
        let (s, mut mem) = inside(r, k, value);
        put(&mut mem, s.pc + 2, &word.to_be_bytes());
        check(s, mem);
    }
}

/// The kind of a MOVEC that a step has completed; or has refused, where its second word is not inside.
pub fn answered(case: &Case, answer: &Answer) -> Option<Kind> {
    case.word().filter(|op| case.call == Call::Step && op & 0xFFFE == 0x4E7A)?;
    let k = Kind::at_pc(&State::from_block(&case.block).ok()?, &case.mem)?;
    let due = if k.is_inside() { Reply::Done } else { Reply::Outside };
    (answer.reply == due).then_some(k)
}

// -- runs -----------------------------------------------------------------------

/// How a run goes to user mode.
#[derive(Clone, Copy, PartialEq, Eq, PartialOrd, Ord)]
enum Down {
    Immediate,
    Register,
    Return,
    Stldsr,
}

/// How it comes back.
#[derive(Clone, Copy, PartialEq, Eq, PartialOrd, Ord)]
enum Up {
    Trap,
    Movec,
    Illegal,
}

/// Where its table of vectors is: where the block has it, or where the run puts it by writing VBR: at 0, or at 1 MiB or more.
#[derive(Clone, Copy, PartialEq, Eq, PartialOrd, Ord)]
enum Table {
    Given,
    Zero,
    Far,
}

/// A run to user mode and back, with CACR's bit 5 in the block, as the supervisor writes it, and as the handler writes it.
#[derive(Clone, Copy, PartialEq, Eq, PartialOrd, Ord)]
pub struct Trip {
    down: Down,
    up: Up,
    table: Table,
    bits: [bool; 3],
}

const DOWN: [Down; 4] = [Down::Immediate, Down::Register, Down::Return, Down::Stldsr];
const UP: [Up; 3] = [Up::Trap, Up::Movec, Up::Illegal];

impl Trip {
    /// Every one, but of those with a far table, whose memories are long, one for each way back.
    pub fn all() -> impl Iterator<Item = Trip> {
        let bits = |n: u32| [0, 1, 2].map(|i| n >> i & 1 == 1);
        let near = DOWN.into_iter().flat_map(move |down| {
            let trip = move |n: u32, up, table| Trip { down, up, table, bits: bits(n) };
            UP.into_iter().flat_map(move |up| (0..16).map(move |n| trip(n, up, if n < 8 { Table::Given } else { Table::Zero })))
        });
        let far = UP.into_iter().map(move |up| Trip { down: DOWN[up as usize], up, table: Table::Far, bits: bits(6) });
        near.chain(far)
    }
}

/// Where a trip has its code, and where its handler and its end note stack pointers.
const SUPERVISOR: u32 = 0x200;
const USER: u32 = 0x300;
const HANDLER: u32 = 0x380;
const END: u32 = 0x400;
const NOTES: u16 = 0x500;

/// A program that is written word by word.
struct Code {
    mem: Vec<u8>,
    at: u32,
}

impl Code {
    fn words(&mut self, words: &[u16]) {
        for w in words {
            put(&mut self.mem, self.at, &w.to_be_bytes());
            self.at += 2;
        }
    }

    /// MOVE.L #value, to where the word says.
    fn long(&mut self, op: u16, value: u32) {
        self.words(&[op, (value >> 16) as u16, value as u16]);
    }

    /// A value goes to a control register, by any register but A7.
    fn control(&mut self, r: &mut Random, number: u16, value: u32) {
        let n = r.below(15) as u16;
        self.long(if n < 8 { 0x203C | n << 9 } else { 0x207C | (n & 7) << 9 }, value);
        self.words(&[0x4E7B, n << 12 | number]);
    }

    fn cacr(&mut self, r: &mut Random, bit_5: bool) {
        let any = r.long();
        let value = r.pick(&[0, 0xFFFF_FFFF, any, any]) & !0x20 | (bit_5 as u32) << 5;
        self.control(r, CACR, value);
    }

    fn down(&mut self, r: &mut Random, way: Down) {
        let (sr, dn) = (r.word() & 0x171F, r.below(8) as u16);
        match way {
            Down::Immediate => self.words(&[0x46FC, sr]),
            Down::Register => {
                self.long(0x203C | dn << 9, sr as u32);
                self.words(&[0x46C0 | dn]);
            }
            Down::Return => {
                self.long(0x2F3C, USER);
                self.long(0x2F3C, (4 + r.below(4)) << 28 | sr as u32);
                self.words(&[0x4E73]);
            }
            Down::Stldsr => self.words(&[0x40E7, 0x46FC, sr]),
        }
        self.words(&[0x4EF8, USER as u16]);
    }

    /// Gives by how much the handler must move the PC in the frame.
    fn up(&mut self, r: &mut Random, way: Up, trap: u16) -> u16 {
        match way {
            Up::Trap => self.words(&[0x4E40 | trap]),
            Up::Movec => self.words(&[0x4E7A | r.word() & 1, r.word()]),
            Up::Illegal => self.words(&[0x4AFC]),
        }
        [0, 4, 2][way as usize]
    }
}

/// The state and the memory of a trip, which ends with HALT.
pub fn trip(r: &mut Random, t: Trip) -> (State, Vec<u8>) {
    let mut s = state(r, true);
    s.pc = SUPERVISOR;
    s.a[7] = 0x780 + r.below(0x100);
    s.other = 0x880 + r.below(0x100);
    s.cacr = r.long() & !0x20 | (t.bits[0] as u32) << 5;
    s.vbr = 4 * r.below(16);
    let table = match t.table {
        Table::Given => s.vbr,
        Table::Zero => 0,
        Table::Far => r.pick(&[1, 1, 1, 1, 2, 15]) << 20,
    };
    let mut mem = memory(r, &s, LENGTH);
    mem.resize((table + LENGTH) as usize, 0);
    let trap = r.below(15);
    for (vector, handler) in [(4, HANDLER), (8, HANDLER), (32 + trap, HANDLER), (47, END)] {
        put(&mut mem, table + 4 * vector, &handler.to_be_bytes());
    }

    let mut c = Code { mem, at: SUPERVISOR };
    if t.table != Table::Given {
        let low = r.long() & 0xF_FFFF;
        c.control(r, VBR, table | low);
    }
    c.cacr(r, t.bits[1]);
    let an = r.below(7) as u16;
    if r.of_100(75) {
        c.long(0x207C | an << 9, 0x980 + r.below(0x100));
        c.words(&[0x4E60 | an]);
    }
    c.down(r, t.down);

    // A push, the word that enters the handler, A7 to D7, and TRAP #15.
    c.at = USER;
    c.words(&[0x2F00 | r.below(16) as u16]);
    let passed = c.up(r, t.up, trap as u16);
    c.words(&[0x2E0F, 0x4E4F]);

    c.at = HANDLER;
    c.words(&[0x21CF, NOTES]);
    c.cacr(r, t.bits[2]);
    if r.of_100(75) {
        c.words(&[0x4E68 | an, 0x21C8 | an, NOTES + 4]);
    }
    c.words(&[0x4E7A, (r.below(15) as u16) << 12 | r.pick(&[CACR, VBR])]);
    if passed > 0 {
        c.words(&[0x50AF | passed << 9, 4]);
    }
    c.words(&[0x4E73]);

    c.at = END;
    c.words(&[0x21CF, NOTES + 8, 0x4AC8]);
    (s, c.mem)
}
