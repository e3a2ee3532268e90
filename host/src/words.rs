//! MAC and MSAC of words: every mode, pair of halves, scale and sign, with and without a load, with OMC and RT off and on.

use crate::cases::{accumulator, memory, put, state, Answer, Case, LENGTH};
use crate::random::Random;
use host::State;

/// MACSR's bits 7 to 4 (OMC, SU, FI, RT), above them bits 10 to 6 of the second word (the scale, MSAC, the upper half of Rx, of
/// Ry), and above these whether a register is loaded.
#[derive(Clone, Copy, PartialEq, Eq, PartialOrd, Ord)]
pub struct Kind(u16);

pub const KINDS: u16 = 1 << 10;

impl Kind {
    pub fn all() -> impl Iterator<Item = Kind> {
        (0..KINDS).map(Kind)
    }

    /// One in eight: every mode, halves, sign, OMC and load; for each of these RT and the scale are chosen, differently.
    pub fn some() -> impl Iterator<Item = Kind> {
        Kind::all().filter(|&k| {
            let bit = |n: u16| k.0 >> n & 1;
            let (halves, scale) = (k.0 >> 4 & 3, k.0 >> 7 & 3);
            scale == halves ^ (bit(6) << 1 | bit(3)) && bit(0) == bit(4) ^ bit(9)
        })
    }

    fn macsr(self) -> u32 {
        (self.0 as u32 & 15) << 4
    }

    fn second(self) -> u16 {
        (self.0 >> 4 & 31) << 6
    }

    fn subtracts(self) -> bool {
        self.0 >> 6 & 1 == 1
    }

    fn loads(self) -> bool {
        self.0 >> 9 == 1
    }
}

/// Where the accumulator stands before the sum: at the top or the bottom of its 48 bits, where its extension begins to count, or
/// anywhere.
#[derive(Clone, Copy, PartialEq)]
pub enum Start {
    Top,
    Bottom,
    Extension,
    Any,
}

pub const STARTS: [Start; 4] = [Start::Top, Start::Bottom, Start::Extension, Start::Any];

/// The first two words of a product.
#[derive(Clone, Copy)]
struct Product {
    op: u16,
    second: u16,
}

impl Product {
    /// With any registers, at times the same one twice. The form is the load's mode less 2; without a load its bits say whether
    /// Ry and Rx are address registers, and the fields that have no meaning then hold anything.
    fn any(r: &mut Random, k: Kind, form: u16) -> Product {
        let mut op = 0xA000 | r.word() & 0x0EC7;
        let mut second = k.second() | r.word() & 0xF03F;
        let alike = r.below(8);
        if k.loads() {
            op |= (2 + form) << 3;
            if alike == 0 {
                second = second & !15 | second >> 12;
            }
            let loaded = match alike {
                1 => second >> 12,
                2 => second & 15,
                3 => 8 | op & 7,
                _ => r.below(16) as u16,
            };
            op = op & !0x0E40 | (loaded & 7) << 9 | (loaded & 8) << 3;
        } else {
            op = op & !0x40 | (form & 1) << 3 | (form & 2) << 5;
            if alike == 0 {
                op = op & !7 | op >> 9 & 7;
            }
        }
        Product { op, second }
    }

    /// The product at PC, if one of words is there.
    fn at_pc(s: &State, mem: &[u8]) -> Option<Product> {
        let at = s.pc as usize;
        let word = |at: usize| mem.get(at..at + 2).map(|b| u16::from_be_bytes([b[0], b[1]]));
        let p = Product { op: word(at)?, second: word(at + 2)? };
        (p.op & 0xF100 == 0xA000 && p.op & 0x30 != 0x30 && p.second & 0x0800 == 0).then_some(p)
    }

    fn loads(self) -> bool {
        self.op & 0x30 != 0
    }

    fn kind(self, macsr: u32) -> Kind {
        Kind((macsr >> 4) as u16 & 15 | (self.second >> 6 & 31) << 4 | (self.loads() as u16) << 9)
    }

    /// Rx and Ry: 0 to 7 are the data registers, 8 to 15 the address registers.
    fn factors(self) -> [u16; 2] {
        if self.loads() { [self.second >> 12, self.second & 15] } else { [self.op >> 9 & 7 | self.op >> 3 & 8, self.op & 15] }
    }

    fn accumulator(self) -> usize {
        (self.op >> 7 & 1 ^ self.loads() as u16 | self.second >> 3 & 2) as usize
    }
}

fn word(r: &mut Random) -> u16 {
    if r.of_100(60) { r.pick(&[0, 1, 0x7FFF, 0x8000, 0x8001, 0xFFFF]) } else { r.word() }
}

/// Two words. At the top and at the bottom their product, where it has a sign, leads out.
fn pair(r: &mut Random, k: Kind, start: Start) -> [u16; 2] {
    loop {
        let [x, y] = [word(r), word(r)];
        let (up, negative) = (start == Start::Top, (x ^ y) >> 15 == 1);
        let out = x != 0 && y != 0 && negative == (up == k.subtracts());
        if out || matches!(start, Start::Extension | Start::Any) {
            return [x, y];
        }
    }
}

/// Makes a register hold a word in one of its halves. The other half is another word, mostly.
fn hold(r: &mut Random, s: &mut State, register: u16, half: u16, upper: bool) {
    let (half, rest) = (half as u32, word(r) as u32);
    let value = if upper { half << 16 | rest } else { rest << 16 | half };
    let n = register as usize;
    if n < 8 { s.d[n] = value } else { s.a[n - 8] = value }
}

/// An accumulator. A product of words is below 2^33, and of fractions below 2^40.
fn started(r: &mut Random, macsr: u32, start: Start) -> i64 {
    let (fraction, unsigned) = (macsr & 0x20 != 0, macsr & 0x60 == 0x40);
    let near = ((r.long() >> r.below(32)) as i64) << if fraction { 8 } else { 0 };
    let (bottom, top) = if unsigned { (0, (1 << 48) - 1) } else { (-1 << 47, (1 << 47) - 1) };
    match start {
        Start::Top => top - near,
        Start::Bottom => bottom + near,
        Start::Extension => {
            let end = 1 << if fraction { 39 } else if unsigned { 32 } else { 31 };
            let v = if r.of_100(50) { end - near } else { end + near };
            if unsigned || r.of_100(50) { v } else { !v }
        }
        Start::Any => accumulator(r, macsr),
    }
}

/// Makes the operand of a load lie at an address, and gives the word of the displacement, if there is one.
fn pointed(r: &mut Random, s: &mut State, op: u16, at: u32) -> Option<u16> {
    let (n, displacement) = ((op & 7) as usize, r.word());
    match op >> 3 & 7 {
        2 | 3 => s.a[n] = at,
        4 => s.a[n] = at.wrapping_add(4),
        5 => s.a[n] = at.wrapping_sub(displacement as i16 as u32),
        _ => {}
    }
    (op >> 3 & 7 == 5).then_some(displacement)
}

/// Makes a state ready for a product, whose load has its operand at `at`, and gives the product's words.
pub fn ready(r: &mut Random, s: &mut State, k: Kind, form: u16, start: Start, at: u32) -> Vec<u16> {
    let p = Product::any(r, k, form);
    let i = p.accumulator();
    // With OMC an accumulator that has overflowed stays as it is.
    let pav = if start == Start::Any && r.of_100(40) { 0x100 << i } else { 0 };
    s.macsr = k.macsr() | r.word() as u32 & 0xF0F & !(0x100 << i) | pav;
    s.acc = std::array::from_fn(|_| accumulator(r, s.macsr));
    s.acc[i] = started(r, s.macsr, start);
    let ([rx, ry], [x, y]) = (p.factors(), pair(r, k, start));
    hold(r, s, rx, x, p.second & 0x80 != 0);
    hold(r, s, ry, y, p.second & 0x40 != 0);
    let mut code = vec![p.op, p.second];
    code.extend(pointed(r, s, p.op, at));
    code
}

/// A product, of which all is inside; from any start at times the code or the operand is not.
fn product(r: &mut Random, k: Kind, form: u16, start: Start) -> (State, Vec<u8>) {
    let supervisor = r.of_100(50);
    let mut s = state(r, supervisor);
    let (mut pc, mut at) = (0x100 + 2 * r.below(64), 0x800 + r.below(0x400));
    match r.below(10) {
        0 if start == Start::Any => pc = LENGTH - 2 * (1 + r.below(3)),
        1 if start == Start::Any => at = r.pick(&[LENGTH - 3, LENGTH - 1, LENGTH, 0x8000_0000, 0xFFFF_FFFD]),
        _ => {}
    }
    s.pc = pc;
    let code = ready(r, &mut s, k, form, start, at);
    let mut mem = memory(r, &s, LENGTH);
    put(&mut mem, at, &r.long().to_be_bytes());
    for (i, w) in code.iter().enumerate() {
        put(&mut mem, pc + 2 * i as u32, &w.to_be_bytes());
    }
    (s, mem)
}

/// Hands products of every kind to `check`, each in its four forms and from the four starts.
pub fn each(r: &mut Random, mut check: impl FnMut(State, Vec<u8>)) {
    for k in Kind::all() {
        let turn = r.below(4);
        for form in 0..4 {
            let (s, mem) = product(r, k, form, STARTS[(form as usize + turn as usize) % 4]);
            check(s, mem);
        }
    }
}

/// The kind of a product of words that a step has summed, and 0, or where the sum has overflowed 1 upwards and 2 downwards.
pub fn summed(case: &Case, answer: &Answer) -> Option<(Kind, usize)> {
    case.word().filter(|op| op & 0xF100 == 0xA000)?;
    let (before, after) = (State::from_block(&case.block).ok()?, State::from_block(&answer.block).ok()?);
    let p = Product::at_pc(&before, &case.mem)?;
    let (i, macsr) = (p.accumulator(), before.macsr);
    let (old, new) = (macsr >> 8 >> i & 1, after.macsr >> 8 >> i & 1);
    if old == 1 && macsr & 0x80 != 0 {
        return None;
    }
    let middle = if macsr & 0x60 == 0x40 { 1 << 47 } else { 0 };
    let overflow = if old == new { 0 } else if before.acc[i] >= middle { 1 } else { 2 };
    Some((p.kind(macsr), overflow))
}
