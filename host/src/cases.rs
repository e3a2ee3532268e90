//! Cases for the comparison: a call, a block and a memory; what the original and the archive answer;
//! states and memories that are aimed so that most steps complete.

use crate::oracle::Oracle;
pub use crate::random::Random;
use host::{Reply, State};

// -- cases ----------------------------------------------------------------------

#[derive(Clone, Copy, Debug, PartialEq)]
pub enum Call {
    Step,
    Run(u32),
    Exception(u8, u32),
    ExceptionAt(u8, u32, u8),
    Interrupt(u8, u8),
    Rte,
}

#[derive(Clone)]
pub struct Case {
    pub call: Call,
    pub block: Vec<u8>,
    pub mem: Vec<u8>,
}

pub struct Answer {
    pub reply: Reply,
    pub value: u64,
    pub block: Vec<u8>,
    pub mem: Vec<u8>,
}

impl Case {
    pub fn of(call: Call, state: &State, mem: Vec<u8>) -> Case {
        Case { call, block: state.to_block().to_vec(), mem }
    }

    pub fn expected(&self, o: &mut Oracle) -> Answer {
        let (mut block, mut mem) = (self.block.clone(), self.mem.clone());
        let (b, m) = (&mut block[..], &mut mem[..]);
        let (reply, value) = match self.call {
            Call::Step => o.step(b, m),
            Call::Run(n) => o.run(b, m, n),
            Call::Exception(v, pc) => o.exception(b, m, v, pc),
            Call::ExceptionAt(v, pc, l) => o.exception_at(b, m, v, pc, l),
            Call::Interrupt(v, l) => o.interrupt(b, m, v, l),
            Call::Rte => o.rte(b, m),
        };
        Answer { reply, value, block, mem }
    }

    pub fn got(&self) -> Answer {
        let (mut block, mut mem) = (self.block.clone(), self.mem.clone());
        let (b, m) = (&mut block[..], &mut mem[..]);
        let (reply, value) = match self.call {
            Call::Step => {
                let (r, v) = host::step(b, m);
                (r, v as u64)
            }
            Call::Run(n) => {
                let (r, c) = host::run(b, m, n);
                (r, c as u64)
            }
            Call::Exception(v, pc) => (host::exception(b, m, v, pc), 0),
            Call::ExceptionAt(v, pc, l) => (host::exception_at(b, m, v, pc, l), 0),
            Call::Interrupt(v, l) => (host::interrupt(b, m, v, l), 0),
            Call::Rte => (host::rte(b, m), 0),
        };
        Answer { reply, value, block, mem }
    }

    /// The opcode word, where the block can be read and PC is inside.
    pub fn word(&self) -> Option<u16> {
        if self.block.len() < 73 {
            return None;
        }
        let pc = u32::from_be_bytes(self.block[69..73].try_into().unwrap()) as usize;
        self.mem.get(pc..pc + 2).map(|b| u16::from_be_bytes([b[0], b[1]]))
    }
}

pub fn same(a: &Answer, b: &Answer) -> bool {
    a.reply == b.reply && a.value == b.value && a.block == b.block && a.mem == b.mem
}

// -- aimed states ---------------------------------------------------------------

pub const LENGTH: u32 = 4096;
pub const EDGES: [u32; 12] = [
    0,
    1,
    2,
    0x7F,
    0x80,
    0x7FFF,
    0x8000,
    0xFFFF,
    0x7FFF_FFFF,
    0x8000_0000,
    0x8000_0001,
    0xFFFF_FFFF,
];

pub fn edge(r: &mut Random) -> u32 {
    r.pick(&EDGES)
}

/// A data register: small (as an index it stays inside), an edge or anything.
pub fn data(r: &mut Random) -> u32 {
    match r.below(8) {
        0..=2 => r.below(128),
        3 => (r.below(96) as i32 - 48) as u32,
        4 | 5 => edge(r),
        6 => {
            let shift = r.below(32);
            r.long() >> shift
        }
        _ => r.long(),
    }
}

/// An address register: mostly well inside.
pub fn pointer(r: &mut Random) -> u32 {
    match r.below(32) {
        0 => edge(r),
        1 => r.long(),
        2 => LENGTH - r.below(12),
        3 => r.below(12),
        4 => 0u32.wrapping_sub(r.below(12)),
        5..=8 => 0x200 + r.below(0xC00),
        _ => (0x200 + r.below(0xC00)) & !3,
    }
}

/// An accumulator in the range of the mode.
pub fn accumulator(r: &mut Random, macsr: u32) -> i64 {
    let raw = match r.below(8) {
        0 => r.pick(&[0u64, 1, (1 << 47) - 1, 1 << 47, (1 << 48) - 1, 0x7FFF_FFFF, 0x8000_0000, 0xFFFF_FFFF]),
        1 => r.pick(&[0x1_0000_0000u64, 0x7F_FFFF_FF00, 0x80_0000_0000, 0xFF80_0000_0000, 0xFFFF_8000_0000, 0xFFFF_7FFF_FFFF]),
        2 => r.long() as u64,
        3 => (r.long() as i32 as i64) as u64,
        4 => {
            let low = r.pick(&[0x80u64, 0x180, 0x80_0000, 0x180_0000, 0x7F, 0x81, 0x7F_FFFF]);
            (r.next() << r.pick(&[8, 24, 32])) | low
        }
        5 => ((r.next() as i64) >> r.below(64)) as u64,
        6 => {
            let base = r.pick(&[0x7FFF_FFFFu64, 0x7FFF_FFFF_FFFF, 0xFFFF_FFFF_FFFF, 0x7F_FFFF_FFFF, 0x8000_0000_0000]);
            base.wrapping_add(r.below(16) as u64).wrapping_sub(8)
        }
        _ => r.next(),
    };
    let raw = raw & ((1 << 48) - 1);
    if macsr & 0x60 == 0x40 {
        raw as i64
    } else {
        ((raw << 16) as i64) >> 16
    }
}

pub fn state(r: &mut Random, supervisor: bool) -> State {
    let macsr = if r.of_100(20) { 0 } else { r.below(0x1000) };
    let mut s = State {
        d: std::array::from_fn(|_| data(r)),
        a: std::array::from_fn(|_| pointer(r)),
        pc: (0x100 + r.below(0xE00)) & !1,
        sr: r.word() & 0xB71F & !0x2000,
        other: pointer(r),
        vbr: match r.below(16) {
            0 => r.long(),
            1 => r.below(LENGTH),
            2 => edge(r),
            _ => r.below(0xC00) & !3,
        },
        cacr: r.pick(&[0, 0x20, 0xFFFF_FFFF, 0xFFFF_FFDF]),
        macsr,
        mask: match r.below(4) {
            0 => 0xFFFF_0000 | r.word() as u32,
            1 => r.long() | 0xFFF,
            _ => 0xFFFF_FFFF,
        },
        acc: std::array::from_fn(|_| accumulator(r, macsr)),
        stopped: false,
    };
    if r.of_100(90) {
        s.a[7] = 0x100 + r.below(0xE00);
        if r.of_100(70) {
            s.a[7] &= !3;
        }
        s.other = 0x100 + r.below(0xE00);
    }
    if supervisor {
        s.sr |= 0x2000;
    }
    s
}

pub fn put(mem: &mut [u8], at: u32, bytes: &[u8]) {
    for (i, b) in bytes.iter().enumerate() {
        if let Some(m) = mem.get_mut(at.wrapping_add(i as u32) as usize) {
            *m = *b;
        }
    }
}

/// Random bytes, and vectors that lie inside.
pub fn memory(r: &mut Random, s: &State, len: u32) -> Vec<u8> {
    let mut mem = Vec::with_capacity(len as usize + 8);
    let kind = r.below(4);
    while mem.len() < len as usize {
        let v = match kind {
            0 => 0,
            1 => (data(r) as u64) << 32 | data(r) as u64,
            _ => r.next(),
        };
        mem.extend_from_slice(&v.to_be_bytes());
    }
    mem.truncate(len as usize);
    if r.of_100(85) {
        for v in 0..48 {
            let handler = (r.below(LENGTH - 8)) & !1;
            put(&mut mem, s.vbr.wrapping_add(4 * v), &handler.to_be_bytes());
        }
    }
    mem
}

/// The second word of MOVEC: any register, and mostly CACR or VBR.
pub fn control(r: &mut Random) -> u16 {
    let number = match r.below(5) {
        0 | 1 => 0x002,
        2 | 3 => 0x801,
        _ => r.word() & 0xFFF,
    };
    (r.below(16) as u16) << 12 | number
}

/// The word at PC and extension words that mostly lead inside.
pub fn write_code(r: &mut Random, mem: &mut [u8], pc: u32, op: u16) {
    put(mem, pc, &op.to_be_bytes());
    let small = |r: &mut Random| r.below(LENGTH - 16) as u16;
    let near = |r: &mut Random| (r.below(256) as i32 - 128) as u16;
    let index = |r: &mut Random| (r.below(8) << 12 | r.below(8) << 9 | r.below(256)) as u16;
    let mut words = [0u16; 6];
    match r.below(11) {
        // An absolute long in either place.
        0 | 1 => words = [0, small(r), 0, small(r), 0, small(r)],
        2 => words = [r.word(), 0, small(r), 0, small(r), 0],
        3 => words = std::array::from_fn(|_| small(r)),
        4 => words = std::array::from_fn(|_| near(r)),
        5 => words = [r.word(), small(r), near(r), near(r), small(r), 0],
        // A displacement or an index before or after an absolute long.
        7 => words = [near(r), 0, small(r), near(r), 0, small(r)],
        8 => words = [index(r), 0, small(r), index(r), 0, small(r)],
        9 => words = [0, small(r), index(r), index(r), near(r), near(r)],
        6 => {
            for w in &mut words {
                *w = edge(r) as u16
            }
        }
        _ => words = std::array::from_fn(|_| r.word()),
    }
    if op & 0xF100 == 0xA000 {
        words[0] = r.word();
        if r.of_100(80) {
            words[1] = near(r);
        }
    }
    if op == 0x40E7 && r.of_100(80) {
        words[0] = 0x46FC;
    }
    if op & 0xFFFE == 0x4E7A {
        words[0] = control(r);
    }
    for (i, w) in words.iter().enumerate() {
        put(mem, pc.wrapping_add(2 + 2 * i as u32), &w.to_be_bytes());
    }
}

pub fn aimed(r: &mut Random, op: u16, supervisor: bool) -> (State, Vec<u8>) {
    let s = state(r, supervisor);
    let mut mem = memory(r, &s, LENGTH);
    write_code(r, &mut mem, s.pc, op);
    (s, mem)
}

/// A word that belongs to a row more often than not.
pub fn likely(r: &mut Random) -> u16 {
    const COMMON: [u16; 46] = [
        0x2000, 0x2018, 0x20C0, 0x2080, 0x1018, 0x3028, 0x7000, 0x7180, 0xD080, 0x9080, 0xB080, 0xC080, 0xE088, 0xE1A8,
        0x5280, 0x5388, 0x6602, 0x6700, 0x60FE, 0x6104, 0x4E71, 0x4E75, 0x4E73, 0x4E40, 0x4A80, 0x4280, 0x4480, 0x4080,
        0x41E8, 0x4840, 0x48D0, 0x4CD0, 0x4C00, 0x4C40, 0xA000, 0xA098, 0xA100, 0xA180, 0xA900, 0x4E90,
        0x8080, 0x8190, 0x80C1, 0x81C1, 0x4E7A, 0x4E7B,
    ];
    let base = r.pick(&COMMON);
    match r.below(8) {
        0 => r.word(),
        1 | 2 => base,
        3 | 4 => base ^ (r.below(8) as u16),
        5 => base ^ (r.below(8) as u16) << 9,
        _ => base ^ (r.below(64) as u16) ^ (r.below(8) as u16) << 9,
    }
}

/// A word without extension words whose operand is a register or lies where A0 to A6 point.
pub fn tame(r: &mut Random) -> u16 {
    const COMMON: [u16; 34] = [
        0x2000, 0x1000, 0x3000, 0x2080, 0x20C0, 0x2100, 0x10C0, 0x3080, 0x7100, 0x7180, 0x7140, 0xD080, 0x9080, 0xB080,
        0xC080, 0xD180, 0xB180, 0x5080, 0x5180, 0x4A80, 0x4A00, 0x4280, 0x4240, 0xC0C0, 0xC1C0, 0xD1C0, 0xA140, 0xA100,
        0x0100, 0x01C0, 0x8080, 0x8180, 0x80C0, 0x81C0,
    ];
    let number = (r.below(8) as u16) << 9;
    let ea = if r.of_100(50) { r.below(8) as u16 } else { (2 + r.below(3) as u16) << 3 | r.below(7) as u16 };
    match r.below(10) {
        0 => 0x7000 | number | r.below(256) as u16,
        1 => 0xE080 | r.word() & 0x0F2F,
        2 => 0x6000 | (2 + r.below(14) as u16) << 8 | 2 * (1 + r.below(6) as u16),
        3 => r.pick(&[0x4E71, 0x4480, 0x4080, 0x4680, 0x4840, 0x49C0, 0x48C0, 0x4C80, 0x50C0, 0x57C0, 0xA180, 0xA980]) | ea & 7,
        4 => r.pick(&[0x4E73, 0x4E75, 0x4E40, 0x4E41, 0x4AFC, 0x6104, 0x4ACC, 0xF000, 0x4E68, 0x40C0]),
        _ => match r.pick(&COMMON) {
            // The destination is the word's, not ours: An or (An).
            op @ 0xA100 => op | number & 0x0600 | ea,
            op @ (0x4A80 | 0x4A00 | 0x4280 | 0x4240) => op | ea,
            op => op | number | ea,
        },
    }
}

/// A memory of tame or likely words from `from` on, MOVEC among them.
pub fn program(r: &mut Random, mem: &mut [u8], from: u32) {
    let mut at = from;
    let share = r.pick(&[0, 90, 98]);
    while (at as usize) < mem.len() {
        let op = if r.of_100(2) {
            r.pick(&[0x4E7A, 0x4E7B])
        } else if r.of_100(share) {
            tame(r)
        } else {
            likely(r)
        };
        let words: &[u16] = match op {
            0x4E7A | 0x4E7B => &[op, control(r)],
            _ if op & 0xF100 == 0xA000 => &[op, r.word()],
            _ => &[op],
        };
        for w in words {
            put(mem, at, &w.to_be_bytes());
            at = at.wrapping_add(2);
        }
        if at == 0 || at - from > 200 {
            break;
        }
    }
}
