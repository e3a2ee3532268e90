//! Programs that stay in a run's loop: a loop of instructions of the quick path and of the plain engine, in turn and with near
//! and far operands. A turn begins with the address registers where they were, so that most turns end inside memory.

use crate::cases::{accumulator, data, put};
use crate::random::Random;
use host::State;

const START: u32 = 0x100;
const STACK: u32 = 0xA00;
const DATA: u32 = 0xB00;
const RETURN: u32 = 0xF0;
const LENGTH: usize = 4096;

/// The operand bits of an instruction and its extension words; the registers are D0 to D6 and A0 to A4.
struct Operand {
    bits: u16,
    words: Vec<u16>,
}

fn operand(r: &mut Random, mode: u32, bytes: u32) -> Operand {
    let (register, displacement) = (r.below(5) as u16, (r.below(64) as u16).wrapping_sub(32));
    let index = (r.below(6) as u16) << 12 | 0x800 | r.below(16) as u16;
    let address = DATA + r.below(0x400);
    let (bits, words) = match mode {
        0 => (r.below(7) as u16, vec![]),
        1..=4 => ((mode as u16) << 3 | register, vec![]),
        5 => (5 << 3 | register, vec![displacement]),
        6 => (6 << 3 | register, vec![index]),
        7 => (0x38, vec![address as u16]),
        8 => (0x39, vec![0, address as u16]),
        9 => (0x3A, vec![r.below(256) as u16]),
        10 => (0x3B, vec![index]),
        _ if bytes == 4 => (0x3C, vec![r.word(), r.word()]),
        _ => (0x3C, vec![r.word()]),
    };
    Operand { bits, words }
}

/// A source: of the near modes in three of four cases.
fn source(r: &mut Random, bytes: u32) -> Operand {
    let mode = if r.of_100(75) { r.pick(&[0, 1, 2, 3, 4, 5]) } else { r.pick(&[6, 7, 8, 9, 10, 11]) };
    operand(r, mode, bytes)
}

/// A place in memory or Dn.
fn place(r: &mut Random) -> Operand {
    let mode = if r.of_100(75) { r.pick(&[0, 2, 3, 4, 5]) } else { r.pick(&[6, 7, 8]) };
    operand(r, mode, 4)
}

fn with(op: u16, o: Operand) -> Vec<u16> {
    let mut words = vec![op | o.bits];
    words.extend(o.words);
    words
}

/// What ends a run: HALT, STOP, or a read that is not inside.
pub fn ending(r: &mut Random) -> Vec<u16> {
    r.pick(&[&[0x4AC8u16][..], &[0x4E72, 0x2700], &[0x4A38, 0x8000]]).to_vec()
}

/// MOVEC: CACR or VBR to D0 to D6 or A5, a data register to CACR, or an address register that is in use to VBR, which is then 0; now
/// and then a data register.
fn movec(r: &mut Random) -> Vec<u16> {
    let (dn, an) = ((r.below(7) as u16) << 12, (8 + r.below(5) as u16) << 12);
    match r.below(16) {
        0..=6 => vec![0x4E7A, r.pick(&[dn, dn, 0xD000]) | r.pick(&[0x002, 0x801])],
        7..=10 => vec![0x4E7B, dn | 0x002],
        11..=14 => vec![0x4E7B, an | 0x801],
        _ => vec![0x4E7B, dn | 0x801],
    }
}

/// One instruction. What it sets is D0 to D6 or A5, memory, or a control register.
fn instruction(r: &mut Random) -> Vec<u16> {
    let dn = r.below(7) as u16;
    let quick = (r.below(8) as u16) << 9;
    match r.below(42) {
        0..=3 => {
            let (line, bytes) = r.pick(&[(0x1000u16, 1u32), (0x2000, 4), (0x2000, 4), (0x3000, 2)]);
            let (from, to) = (source(r, bytes), place(r));
            let target = (to.bits & 7) << 9 | (to.bits >> 3) << 6;
            let mut words = with(line | target, from);
            words.extend(to.words);
            words
        }
        4 => with(r.pick(&[0x2A40u16, 0x3A40]), source(r, 4)),
        5..=8 => with(r.pick(&[0xD080u16, 0x9080, 0xB080, 0xC080, 0x8080]) | dn << 9, source(r, 4)),
        9 => with(r.pick(&[0xDBC0u16, 0x9BC0, 0xBBC0]), source(r, 4)),
        10 => with(r.pick(&[0xB180u16, 0x8180]) | dn << 9, place(r)),
        11 => with(r.pick(&[0xD180u16, 0x9180, 0xC180]) | dn << 9, operand(r, 2, 4)),
        12..=14 => with(r.pick(&[0x5080u16, 0x5180]) | quick, place(r)),
        15 => vec![r.pick(&[0x508Du16, 0x518D]) | quick],
        16 => vec![0x7000 | dn << 9 | r.below(256) as u16],
        17 => with(r.pick(&[0x7100u16, 0x7140, 0x7180, 0x71C0]) | dn << 9, source(r, 2)),
        18 => with(r.pick(&[0x4A00u16, 0x4A40, 0x4A80]), source(r, 2)),
        19 => with(r.pick(&[0x4200u16, 0x4240, 0x4280]), place(r)),
        20 => {
            let mode = r.pick(&[2, 5, 5, 6, 7, 8, 9]);
            with(0x4BC0, operand(r, mode, 4))
        }
        21 => vec![0xE080 | r.word() & 0x0128 | quick | dn],
        22 => with(r.pick(&[0xC0C0u16, 0xC1C0]) | dn << 9, source(r, 2)),
        23 => {
            let mut words = with(0x4C00, source(r, 4));
            words.insert(1, dn << 12 | r.word() & 0x0800);
            words
        }
        24 => vec![0x4C40 | dn, (r.below(7) as u16) << 12 | r.word() & 0x0800 | r.below(7) as u16],
        25 => vec![r.pick(&[0x0280u16, 0x0480, 0x0680, 0x0A80, 0x0C80]) | dn, r.word(), r.word()],
        26 => vec![0x0800 | r.word() & 0xC0 | dn, r.word() & 0xFF],
        27 => vec![0x0100 | r.word() & 0xC0 | quick | dn],
        28 => vec![r.pick(&[0x48D4u16, 0x4CD4]), r.word() & 0x7F],
        29 => vec![r.pick(&[0x48ECu16, 0x4CEC]), r.word() & 0x7F, r.below(32) as u16],
        30 => vec![r.pick(&[0x49C0u16, 0x4840, 0x4880, 0x48C0, 0x4480, 0x4680, 0x00C0, 0x02C0, 0x04C0, 0x4080, 0x42C0]) | dn],
        31 => vec![0x50C0 | r.word() & 0x0F00 | dn],
        // A branch over a word that is not reached where it is taken.
        32 | 33 => vec![0x6202 + ((r.below(14) as u16) << 8), 0x4E71],
        34 => vec![0x4E55, 0xFFF0, 0x4E5D],
        35 => vec![0x486C, r.below(32) as u16],
        36 => vec![0xA000 | dn << 9 | r.word() & 0x80 | r.below(5) as u16 | r.pick(&[0x10, 0x18, 0x20]), r.word() & 0x7FF7],
        37 => vec![0xA000 | dn << 9 | r.word() & 0x80 | r.below(7) as u16, r.word() & 0x0FD0],
        38 => vec![r.pick(&[0xA1C0u16, 0xA180, 0xA900]) | dn],
        39 => with(r.pick(&[0x80C0u16, 0x81C0]) | dn << 9, source(r, 2)),
        40 => movec(r),
        _ => vec![r.pick(&[0x4E71u16, 0x4E40, 0x51FC, 0x4AC0])],
    }
}

/// A state and a memory: 300 turns of a loop, each an entry to a subroutine and some instructions, and then what ends the run.
pub fn mixed(r: &mut Random) -> (State, Vec<u8>) {
    let mut s = State::fresh();
    s.sr = 0x2700;
    s.pc = START;
    s.d = std::array::from_fn(|_| data(r));
    s.d[7] = 300;
    s.macsr = r.pick(&[0, 0x20, 0x20, 0x30, 0x40, 0x60, 0x80, 0xA0, 0xB0, 0xC0]);
    s.mask = 0xFFFF_0FFF;
    s.acc = std::array::from_fn(|_| accumulator(r, s.macsr));
    let mut mem: Vec<u8> = (0..LENGTH).map(|_| r.word() as u8).collect();
    // Every vector leads to RTE.
    for vector in 0..48 {
        put(&mut mem, 4 * vector, &RETURN.to_be_bytes());
    }
    put(&mut mem, RETURN, &0x4E73u16.to_be_bytes());
    let mut words = vec![0x4FF8, STACK as u16];
    for n in 0..5u16 {
        words.extend([0x41F8 | n << 9, (DATA + 0x60 + r.below(0x300)) as u16]);
    }
    let call = words.len() as u16;
    words.extend([0x6100, 0]);
    for _ in 0..4 + r.below(24) {
        words.extend(instruction(r));
    }
    words.push(0x5387);
    let turn = words.len() as u16;
    words.extend([0x6600, 0u16.wrapping_sub(2 * turn + 2)]);
    words.extend(ending(r));
    words[call as usize + 1] = 2 * (words.len() as u16 - call) - 2;
    for _ in 0..r.below(4) {
        words.extend(instruction(r));
    }
    words.push(0x4E75);
    for (i, w) in words.iter().enumerate() {
        put(&mut mem, START + 2 * i as u32, &w.to_be_bytes());
    }
    (s, mem)
}
