//! Divides at their edges: of words and of longs, where the quotient just fits, just does not, and by zero, with every source.

use crate::cases::{memory, put, state, LENGTH};
use crate::random::Random;
use host::State;
use std::collections::BTreeSet;

/// DIVU.W and DIVS.W, or of longs DIVU.L, DIVS.L and, with a remainder alone, REMU.L and REMS.L.
#[derive(Clone, Copy)]
struct Kind {
    long: bool,
    signed: bool,
    remainder: bool,
}

const fn kind(long: bool, signed: bool, remainder: bool) -> Kind {
    Kind { long, signed, remainder }
}

const WORDS: [Kind; 2] = [kind(false, false, false), kind(false, true, false)];
const KINDS: [Kind; 6] = [WORDS[0], WORDS[1], kind(true, false, false), kind(true, true, false), kind(true, false, true), kind(true, true, true)];

const EDGES: [u32; 18] = [
    0,
    1,
    2,
    3,
    0x7FFF,
    0x8000,
    0x8001,
    0xFFFF,
    0x1_0000,
    0x1_0001,
    0x7FFF_FFFF,
    0x8000_0000,
    0x8000_0001,
    0xFFFF_7FFF,
    0xFFFF_8000,
    0xFFFF_8001,
    0xFFFF_FFFE,
    0xFFFF_FFFF,
];

/// Where the divisor is: modes 0 to 6 with a register; from 7 on the forms of mode 7, absolute, relative to the PC and immediate.
#[derive(Clone, Copy)]
struct Source {
    mode: u16,
    register: u16,
}

impl Source {
    fn any(r: &mut Random) -> Source {
        Source { mode: r.below(12) as u16, register: r.below(8) as u16 }
    }

    /// A data register that is not the source's.
    fn index(self) -> u16 {
        (self.register + 7) % 8
    }

    /// Another one.
    fn destination(self, r: &mut Random) -> u16 {
        (self.register + 1 + r.below(6) as u16) % 8
    }

    fn bits(self) -> u16 {
        if self.mode < 7 { self.mode << 3 | self.register } else { 0x38 | self.mode - 7 }
    }
}

/// A divisor of 2 or 4 bytes, and where it lies in memory.
struct Divisor {
    value: u32,
    bytes: u32,
    at: u32,
}

/// Makes a source hold a divisor, and gives its extension words, the first of which stands at `code`.
fn placed(r: &mut Random, s: &mut State, from: Source, d: &Divisor, code: u32) -> Vec<u16> {
    let (n, index, near) = (from.register as usize, from.index(), r.below(256) as u16);
    let displacement = near as u8 as i8 as u32;
    let base = d.at.wrapping_sub(displacement);
    let indexed = index << 12 | 0x0800 | near;
    match from.mode {
        0 => s.d[n] = d.value,
        1 => s.a[n] = d.value,
        2 | 3 => s.a[n] = d.at,
        4 => s.a[n] = d.at + d.bytes,
        5 => s.a[n] = base,
        6 => s.a[n] = base.wrapping_sub(s.d[index as usize]),
        10 => s.d[index as usize] = base.wrapping_sub(code),
        _ => {}
    }
    match from.mode {
        0..=4 => vec![],
        5 => vec![displacement as u16],
        6 | 10 => vec![indexed],
        7 => vec![d.at as u16],
        8 => vec![0, d.at as u16],
        9 => vec![d.at.wrapping_sub(code) as u16],
        _ if d.bytes == 4 => vec![(d.value >> 16) as u16, d.value as u16],
        _ => vec![d.value as u16],
    }
}

/// A divide of Dn, which is the register `dn`, or where there is none another one than the source's. A word's divisor in a register
/// has the upper half of `value` above it.
fn divide(r: &mut Random, k: Kind, dividend: u32, value: u32, from: Source, dn: Option<u16>) -> (State, Vec<u8>) {
    let supervisor = r.of_100(50);
    let mut s = state(r, supervisor);
    s.pc = 0x100 + 2 * r.below(64);
    let mut mem = memory(r, &s, LENGTH);
    let dn = dn.unwrap_or(from.destination(r));
    let d = Divisor { value, bytes: if k.long { 4 } else { 2 }, at: 0x800 + r.below(0x400) };
    put(&mut mem, d.at, &value.to_be_bytes()[4 - d.bytes as usize..]);
    s.d[dn as usize] = dividend;
    let signed = k.signed as u16;
    let mut words = if k.long {
        let other = if k.remainder { 1 + r.below(7) as u16 } else { 0 };
        vec![0x4C40 | from.bits(), dn << 12 | signed << 11 | (dn + other) % 8]
    } else {
        vec![0x80C0 | dn << 9 | signed << 8 | from.bits()]
    };
    let code = s.pc + 2 * words.len() as u32;
    words.extend(placed(r, &mut s, from, &d, code));
    for (i, w) in words.iter().enumerate() {
        put(&mut mem, s.pc + 2 * i as u32, &w.to_be_bytes());
    }
    (s, mem)
}

/// Dividends q * d + rest with q around the ends of a word's quotient, and their divisors d.
fn at_the_limits() -> BTreeSet<(u32, u32)> {
    let mut found = BTreeSet::new();
    for d in [1i64, 2, 3, 0x7FFF, 0x8000, 0x8001, 0xFFFF, -1, -2, -3, -0x7FFF, -0x8000] {
        for limit in [0, 0x8000, 0x1_0000, -0x8000, -0x1_0000] {
            for q in limit - 1..=limit + 1 {
                for rest in [0, 1, d.abs() - 1, -1, 1 - d.abs()] {
                    let dividend = q * d + rest;
                    if dividend >= i32::MIN as i64 && dividend <= u32::MAX as i64 {
                        found.insert((dividend as u32, d as u32));
                    }
                }
            }
        }
    }
    found
}

/// Hands every divide to `check`.
pub fn each(r: &mut Random, mut check: impl FnMut(State, Vec<u8>)) {
    let mut ask = |r: &mut Random, k: Kind, dividend: u32, divisor: u32, from: Source, dn: Option<u16>, flags: Option<u16>| {
        let (mut s, mem) = divide(r, k, dividend, divisor, from, dn);
        s.sr = flags.map_or(s.sr, |f| s.sr & !0x1F | f);
        check(s, mem);
    };
    for k in KINDS {
        for dividend in EDGES {
            for divisor in EDGES {
                let from = Source::any(r);
                ask(r, k, dividend, divisor, from, None, None);
            }
            // One register is both.
            let register = r.below(8) as u16;
            ask(r, k, dividend, dividend, Source { mode: 0, register }, Some(register), None);
        }
        // All condition codes before a quotient, a negative one, 0, an overflow of either sign and a divide by zero.
        for flags in 0..32 {
            for (dividend, divisor) in [(7, 2), (0xFFFF_FFF9, 2), (0xFFFF, 1), (1, 2), (0x1_0000, 1), (0x8000_0000, 0xFFFF_FFFF), (7, 0)] {
                let from = Source::any(r);
                ask(r, k, dividend, divisor, from, None, Some(flags));
            }
        }
        // By zero with a register that has moved, A7 too.
        for register in 0..8 {
            for mode in [3, 3, 4, 4] {
                let dividend = r.long();
                ask(r, k, dividend, 0, Source { mode, register }, None, None);
            }
        }
    }
    for (dividend, divisor) in at_the_limits() {
        for k in WORDS {
            let (from, upper) = (Source::any(r), (r.word() as u32) << 16);
            ask(r, k, dividend, divisor & 0xFFFF | upper, from, None, None);
        }
    }
}
