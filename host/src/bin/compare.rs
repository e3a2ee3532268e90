//! `compare ROUNDS SEED`: every call of the archive against the original, on directed and random
//! cases. Reply, vector or count, the whole block and the whole memory must be equal. Repeatable:
//! the same rounds and seed make the same cases. Exit 1 on a difference, or where a kind was missed.

#![no_main]

#[cfg(not(original))]
compile_error!("the original's cpu.rs was not found: give its folder in ORIGINAL");

#[path = "../oracle/bus.rs"]
#[allow(dead_code)]
mod bus;
#[path = "../oracle/fast.rs"]
#[allow(dead_code)]
mod fast;
#[path = "../oracle/jit.rs"]
#[allow(dead_code)]
mod jit;
#[path = "../oracle/oracle.rs"]
mod oracle;
#[path = "../divides.rs"]
mod divides;
#[path = "../loops.rs"]
mod loops;
#[path = "../movec.rs"]
#[allow(dead_code)]
mod movec;
#[path = "../programs.rs"]
mod programs;
#[path = "../random.rs"]
mod random;
#[path = "../cases.rs"]
mod cases;
#[path = "../witnesses.rs"]
mod witnesses;
#[path = "../words.rs"]
#[allow(dead_code)]
mod words;
include!(concat!(env!("OUT_DIR"), "/original.rs"));

use cases::*;
use host::{Reply, State, BLOCK, MEMORY_LIMIT};
use oracle::Oracle;
use std::collections::{BTreeMap, BTreeSet};
use std::time::Instant;

// -- the comparison ---------------------------------------------------------------

struct Compare {
    oracle: Oracle,
    cases: u64,
    differ: u64,
    shown: Vec<(&'static str, Case)>,
    groups: BTreeMap<String, (u64, Case)>,
    replies: BTreeMap<(&'static str, u8), u64>,
    vectors: BTreeMap<u64, u64>,
    steps_in_runs: u64,
    /// Which words a step has completed, as user and as supervisor.
    completed: [Vec<bool>; 2],
    /// Words of DIVU.W and DIVS.W that a step has completed with a quotient, with an overflow and by zero.
    divided: [BTreeSet<u16>; 3],
    /// Kinds of word products that a step has summed without an overflow, with one upwards and with one downwards.
    summed: [BTreeSet<words::Kind>; 3],
    /// Kinds of MOVEC that a step has answered, and trips that came to their end.
    moved: BTreeSet<movec::Kind>,
    gone: BTreeSet<movec::Trip>,
    /// Steps of MOVEC whose expected answer is the paper's and not the original's.
    by_paper: u64,
    start: Instant,
    said: u64,
}

impl Compare {
    /// Compares the two sides on a case; gives the reply that was expected.
    fn check(&mut self, family: &'static str, case: Case) -> Reply {
        let want = case.expected(&mut self.oracle);
        let got = case.got();
        self.cases += 1;
        *self.replies.entry((family, want.reply.number())).or_insert(0) += 1;
        if let (Call::Step, Reply::Done, Some(op)) = (case.call, want.reply, case.word()) {
            self.completed[(case.block[73] >> 5 & 1) as usize][op as usize] = true;
            if op & 0xF0C0 == 0x80C0 {
                let overflow = want.block[74] >> 1 & 1;
                self.divided[if want.value == 5 { 2 } else { overflow as usize }].insert(op);
            }
            if let Some((kind, overflow)) = words::summed(&case, &want) {
                self.summed[overflow].insert(kind);
            }
        }
        if let Some(kind) = movec::answered(&case, &want) {
            self.moved.insert(kind);
            self.by_paper += State::from_block(&case.block).is_ok_and(|s| oracle::difference_60(&s, &case.mem)) as u64;
        }
        match case.call {
            Call::Step if want.value != 0 => *self.vectors.entry(want.value).or_insert(0) += 1,
            Call::Run(_) => self.steps_in_runs += want.value,
            _ => {}
        }
        if !same(&want, &got) {
            self.differ += 1;
            let kind = match case.call {
                Call::Step => "step",
                Call::Run(_) => "run",
                Call::Exception(..) => "exception",
                Call::ExceptionAt(..) => "exception_at",
                Call::Interrupt(..) => "interrupt",
                Call::Rte => "rte",
            };
            let op = match (case.call, case.word()) {
                (Call::Step, Some(w)) => format!("{:04X}/F1C0", w & 0xF1C0),
                _ => String::from("-"),
            };
            let key = format!("{kind} {op} replies {} {}", want.reply.number(), got.reply.number());
            self.groups.entry(key).or_insert((0, case.clone())).0 += 1;
            if self.shown.len() < 5 {
                self.shown.push((family, case));
            }
        }
        if self.cases % 1024 == 0 && self.start.elapsed().as_secs() / 10 > self.said {
            self.said = self.start.elapsed().as_secs() / 10;
            println!("{} s: {} cases, {} differ", self.start.elapsed().as_secs(), self.cases, self.differ);
        }
        want.reply
    }

    /// Whether `t` differs as `case` does: the same word and the same two replies.
    fn differs_alike(&mut self, case: &Case, t: &Case) -> bool {
        if t.call == Call::Step && t.word() != case.word() {
            return false;
        }
        let (want, got) = (t.expected(&mut self.oracle), t.got());
        let (first, second) = (case.expected(&mut self.oracle), case.got());
        !same(&want, &got) && (want.reply, got.reply) == (first.reply, second.reply)
    }

    /// A smaller case that still differs in the same way: fields and bytes made 0.
    fn shrink(&mut self, case: &Case) -> Case {
        let mut c = case.clone();
        if let Call::Run(n) = c.call {
            for m in 0..n {
                let t = Case { call: Call::Run(m), ..c.clone() };
                if self.differs_alike(case, &t) {
                    c = t;
                    break;
                }
            }
        }
        if c.block.len() == BLOCK {
            let mut fields: Vec<(usize, usize)> = (0..17).map(|i| (5 + 4 * i, 4)).collect();
            fields.push((73, 2));
            fields.extend((0..5).map(|i| (75 + 4 * i, 4)));
            fields.extend((0..4).map(|i| (95 + 8 * i, 8)));
            for (at, n) in fields {
                let mut t = c.clone();
                t.block[at..at + n].fill(0);
                if t.block != c.block && self.differs_alike(case, &t) {
                    c = t;
                    continue;
                }
                for i in at..at + n {
                    let mut t = c.clone();
                    t.block[i] = 0;
                    if t.block != c.block && self.differs_alike(case, &t) {
                        c = t;
                    }
                }
            }
        }
        if c.mem.len() <= 1 << 16 {
            let mut chunk = c.mem.len().next_power_of_two();
            while chunk > 0 {
                let mut at = 0;
                while at < c.mem.len() {
                    let end = (at + chunk).min(c.mem.len());
                    if c.mem[at..end].iter().any(|&b| b != 0) {
                        let mut t = c.clone();
                        t.mem[at..end].fill(0);
                        if self.differs_alike(case, &t) {
                            c = t;
                        }
                    }
                    at = end;
                }
                chunk /= 2;
            }
        }
        c
    }

    fn show(&mut self, case: &Case) {
        let want = case.expected(&mut self.oracle);
        let got = case.got();
        println!("  call {:X?}, memory of {} bytes", case.call, case.mem.len());
        match State::from_block(&case.block) {
            Ok(s) => {
                let at = |i: u32| {
                    let a = s.pc.wrapping_add(i) as usize;
                    case.mem.get(a..a + 2).map_or("----".into(), |b| format!("{:02X}{:02X}", b[0], b[1]))
                };
                println!("  words {} {} {} {} {}", at(0), at(2), at(4), at(6), at(8));
                println!("  before   {}", brief(&s));
            }
            Err(r) => println!("  block refused with {}: {:02X?}", r.number(), case.block),
        }
        let bytes: Vec<String> = case
            .mem
            .iter()
            .enumerate()
            .filter(|(_, &b)| b != 0)
            .take(128)
            .map(|(i, b)| format!("{i:X}:{b:02X}"))
            .collect();
        println!("  memory   {} (others 0{})", bytes.join(" "), if bytes.len() == 128 { ", or cut here" } else { "" });
        for (name, x) in [("expected", &want), ("got     ", &got)] {
            let body = State::from_block(&x.block).map_or_else(|_| format!("{:02X?}", x.block), |s| brief(&s));
            println!("  {name} reply {} value {} {}", x.reply.number(), x.value, body);
        }
        if let (Ok(w), Ok(g)) = (State::from_block(&want.block), State::from_block(&got.block)) {
            let (w, g) = (text(&w), text(&g));
            let parts: Vec<String> = w
                .split(' ')
                .zip(g.split(' '))
                .filter(|(a, b)| a != b)
                .map(|(a, b)| format!("{a} and {b}"))
                .collect();
            println!("  registers that differ: {}", if parts.is_empty() { "none".into() } else { parts.join(", ") });
        }
        let parts: Vec<String> = (0..want.mem.len())
            .filter(|&i| want.mem[i] != got.mem[i])
            .take(32)
            .map(|i| format!("{i:X}: {:02X} and {:02X}", want.mem[i], got.mem[i]))
            .collect();
        println!("  memory that differs: {}", if parts.is_empty() { "none".into() } else { parts.join(", ") });
    }
}

/// The registers that are not 0.
fn brief(s: &State) -> String {
    let all = text(s);
    let kept: Vec<&str> = all
        .split(' ')
        .filter(|p| {
            let (name, value) = p.split_once('=').unwrap_or((p, ""));
            name == "pc" || name == "sr" || value.bytes().any(|b| b != b'0')
        })
        .collect();
    kept.join(" ") + " (others 0)"
}

fn text(s: &State) -> String {
    let mut out = String::new();
    for (i, v) in s.d.iter().enumerate() {
        out += &format!("d{i}={v:08X} ");
    }
    for (i, v) in s.a.iter().enumerate() {
        out += &format!("a{i}={v:08X} ");
    }
    out += &format!("pc={:08X} sr={:04X} other={:08X} vbr={:08X} ", s.pc, s.sr, s.other, s.vbr);
    out += &format!("cacr={:08X} macsr={:03X} mask={:08X} ", s.cacr, s.macsr, s.mask);
    for (i, v) in s.acc.iter().enumerate() {
        out += &format!("acc{i}={v:016X} ");
    }
    out + &format!("stopped={}", s.stopped as u8)
}

// -- families -----------------------------------------------------------------------

/// A step finds its row by the search, and a run by the table in front of it.
fn words(c: &mut Compare, r: &mut Random) {
    for op in 0..=0xFFFFu16 {
        for supervisor in [false, true] {
            let (s, mem) = aimed(r, op, supervisor);
            if supervisor {
                c.check("every word, run", Case::of(Call::Run(1), &s, mem.clone()));
            }
            c.check("every word", Case::of(Call::Step, &s, mem));
        }
    }
}

fn lengths(c: &mut Compare, r: &mut Random) {
    for i in 0..16384u32 {
        let op = if i % 4 == 0 { r.word() } else { likely(r) };
        let supervisor = r.of_100(50);
        let (mut s, mut mem) = aimed(r, op, supervisor);
        let around = match r.below(8) {
            0..=2 => s.pc.wrapping_add(r.below(12)),
            3 => s.a[7].wrapping_add(8).wrapping_sub(r.below(20)),
            4 => s.a[(op & 7) as usize].wrapping_add(8).wrapping_sub(r.below(16)),
            5 => s.vbr.wrapping_add(4 * r.pick(&[4, 8, 10, 11, 32])).wrapping_add(r.below(6)),
            6 => {
                s.pc = r.below(16);
                r.below(24)
            }
            _ => r.below(LENGTH),
        };
        let len = around.min(LENGTH) as usize;
        write_code(r, &mut mem, s.pc, op);
        mem.truncate(len);
        c.check("lengths", Case::of(Call::Step, &s, mem));
    }
    // Every length from 0 to 40 with the code at 0, the stack and the table close by.
    for len in 0..=40usize {
        for _ in 0..16 {
            let mut s = state(r, true);
            s.pc = r.below(4);
            s.a[7] = r.below(44);
            s.vbr = 0u32.wrapping_sub(4 * r.pick(&[4, 5, 8, 10, 11, 32])).wrapping_add(r.below(40));
            let op = likely(r);
            let mut mem = memory(r, &s, 40);
            write_code(r, &mut mem, s.pc, op);
            mem.truncate(len);
            c.check("lengths", Case::of(Call::Step, &s, mem.clone()));
            c.check("lengths", Case::of(Call::Exception(r.below(64) as u8, r.long()), &s, mem.clone()));
            c.check("lengths", Case::of(Call::Rte, &s, mem.clone()));
            let call = any_call(r);
            c.check("lengths", Case::of(call, &s, mem));
        }
    }
}

fn counters(c: &mut Compare, r: &mut Random) {
    for i in 0..8192u32 {
        let op = if i % 2 == 0 { r.word() } else { likely(r) };
        let supervisor = r.of_100(50);
        let mut s = state(r, supervisor);
        s.pc = match r.below(6) {
            0 => 0u32.wrapping_sub(r.below(8)),
            1 => LENGTH - r.below(12),
            2 => edge(r),
            _ => r.below(LENGTH) | 1,
        };
        let mut mem = memory(r, &s, LENGTH);
        write_code(r, &mut mem, s.pc, op);
        c.check("odd and wrapping counters", Case::of(Call::Step, &s, mem));
    }
}

/// The frame lies on the vector that is read, on the code, or both.
fn overlaps(c: &mut Compare, r: &mut Random) {
    for _ in 0..4096 {
        let (op, vector): (u16, u32) = r.pick(&[
            (0x4AFC, 4),
            (0x4E40, 32),
            (0x4E4F, 47),
            (0xA1C0, 10),
            (0xF000, 11),
            (0x4E73, 8),
            (0x4C40, 5),
            (0x80C0, 5),
            (0x81C0, 5),
            (0x4E68, 8),
            (0x4E7B, 8),
        ]);
        let (supervisor, near) = (r.of_100(30), r.below(14));
        let mut s = state(r, supervisor);
        let target = s.vbr.wrapping_add(4 * vector).wrapping_add(near);
        s.a[7] = target;
        s.other = target.wrapping_add(r.below(3));
        s.d[0] = 0;
        let mut mem = memory(r, &s, LENGTH);
        write_code(r, &mut mem, s.pc, op);
        c.check("frames on the table", Case::of(Call::Step, &s, mem.clone()));
        s.stopped = r.of_100(50);
        c.check("frames on the table", Case::of(Call::Exception(vector as u8, r.long()), &s, mem));
    }
}

fn emac(c: &mut Compare, r: &mut Random) {
    for macsr in 0..0x1000u32 {
        for i in 0..8 {
            let op = 0xA000 | if i < 5 { r.word() & 0x0EFF } else { r.word() & 0x0FFF };
            let op = if i == 4 { op & !0x30 } else { op };
            let supervisor = r.of_100(50);
            let (mut s, mem) = aimed(r, op, supervisor);
            s.macsr = macsr;
            s.acc = std::array::from_fn(|_| accumulator(r, macsr));
            if r.of_100(60) {
                s.d = std::array::from_fn(|_| if r.of_100(50) { edge(r) } else { r.long() });
            } else if r.of_100(50) {
                // Products that lie halfway between two fractions.
                for v in s.d.iter_mut().chain(&mut s.a[..2]) {
                    *v = (r.long() | 1) << r.pick(&[0, 0, 22, 11]);
                }
            }
            c.check("emac", Case::of(Call::Step, &s, mem));
        }
    }
}

/// Operands in registers, with edges there.
fn edges(c: &mut Compare, r: &mut Random) {
    for _ in 0..16384 {
        let line = r.pick(&[0u16, 2, 4, 5, 7, 8, 9, 0xB, 0xC, 0xD, 0xE, 0xE]);
        let mut op = (r.word() & 0x0FFF & !0x38) | line << 12;
        match line {
            4 => op = r.pick(&[0x4C00, 0x4C40, 0x4C40, 0x4080, 0x4480, 0x4680, 0x4C80, 0x49C0, 0x4880, 0x48C0, 0x4840]) | op & 7,
            0xE => op = (op & !0xC0) | 0x80 | r.pick(&[0, 8, 0x20, 0x28]),
            _ => {}
        }
        let supervisor = r.of_100(50);
        let (mut s, mut mem) = aimed(r, op, supervisor);
        s.d = std::array::from_fn(|_| match r.below(8) {
            0 => r.below(70),
            1 | 2 => r.pick(&[30, 31, 32, 33, 34, 63, 64, 65, 95, 96]),
            _ => edge(r),
        });
        s.a = std::array::from_fn(|i| if i == 7 { s.a[7] } else { edge(r) });
        put(&mut mem, s.pc.wrapping_add(2), &[(r.word() & 0x7F) as u8 & 0x78, (r.word() & 7) as u8]);
        if r.of_100(40) {
            put(&mut mem, s.pc.wrapping_add(2), &edge(r).to_be_bytes());
        }
        c.check("edges", Case::of(Call::Step, &s, mem));
    }
}

/// The rows that combine Dn and an operand, with edges in Dn and in memory at (An), (An)+ and -(An); each as a step and as a run.
fn memory_edges(c: &mut Compare, r: &mut Random) {
    for _ in 0..2048 {
        let (line, mode) = (r.pick(&[8u16, 9, 0xB, 0xC, 0xD]), r.pick(&[2u16, 3, 4]));
        let op = line << 12 | r.word() & 0x0FC7 | mode << 3;
        let supervisor = r.of_100(50);
        let (mut s, mut mem) = aimed(r, op, supervisor);
        s.d = std::array::from_fn(|_| edge(r));
        let place = 0x200 + 4 * r.below(0x300);
        s.a[(op & 7) as usize] = place;
        put(&mut mem, place.wrapping_sub(4), &edge(r).to_be_bytes());
        put(&mut mem, place, &edge(r).to_be_bytes());
        write_code(r, &mut mem, s.pc, op);
        c.check("memory at the edges", Case::of(Call::Run(1), &s, mem.clone()));
        c.check("memory at the edges", Case::of(Call::Step, &s, mem));
    }
}

/// Every divide at its edges, as a step and as a run.
fn divides(c: &mut Compare, r: &mut Random) {
    divides::each(r, |s, mem| {
        c.check("divides, run", Case::of(Call::Run(1), &s, mem.clone()));
        c.check("divides", Case::of(Call::Step, &s, mem));
    });
}

/// Every kind of word product, as a step and as a run.
fn word_products(c: &mut Compare, r: &mut Random) {
    words::each(r, |s, mem| {
        c.check("word products, run", Case::of(Call::Run(1), &s, mem.clone()));
        c.check("word products", Case::of(Call::Step, &s, mem));
    });
}

/// Every kind of MOVEC, as a step and as a run, and every trip.
fn control_registers(c: &mut Compare, r: &mut Random) {
    movec::each(r, |s, mem| {
        c.check("control registers, run", Case::of(Call::Run(1), &s, mem.clone()));
        c.check("control registers", Case::of(Call::Step, &s, mem));
    });
    for trip in movec::Trip::all() {
        let (s, mem) = movec::trip(r, trip);
        if c.check("trips to user mode", Case::of(Call::Run(64), &s, mem)) == Reply::Stopped {
            c.gone.insert(trip);
        }
    }
}

fn runs(c: &mut Compare, r: &mut Random) {
    for i in 0..8192u32 {
        let supervisor = r.of_100(70);
        let mut s = state(r, supervisor);
        if r.of_100(80) {
            s.a = std::array::from_fn(|_| 0x600 + r.below(0x400));
            s.d = std::array::from_fn(|_| if r.of_100(60) { r.below(64) } else { data(r) });
            s.other = 0x700;
            s.vbr = 0x40;
        }
        let mut mem = memory(r, &s, LENGTH);
        for _ in 0..8 {
            let from = (0x100 + r.below(0xE00)) & !1;
            program(r, &mut mem, from);
        }
        program(r, &mut mem, s.pc);
        if i % 16 == 0 {
            s.stopped = true;
        }
        if i % 64 == 1 {
            s.sr |= r.pick(&[0x20, 0x40, 0x80, 0x800, 0x4000]);
        }
        if i % 64 == 2 {
            mem.truncate(r.below(LENGTH) as usize);
        }
        c.check("runs", Case::of(Call::Run(i % 21), &s, mem));
    }
}

/// Runs of thousands of steps, by programs that loop and by ones that end, and the largest budget.
fn long_runs(c: &mut Compare, r: &mut Random) {
    for program in programs::kept().iter().filter(|p| p.answer.is_none()) {
        let (s, mut mem, _) = programs::load(program);
        mem.truncate(0x5000);
        c.check("long runs", Case::of(Call::Run(1000 + r.below(3000)), &s, mem));
    }
    for i in 0..64u32 {
        let mut s = state(r, true);
        s.a = std::array::from_fn(|_| 0x600 + r.below(0x400));
        s.d = std::array::from_fn(|_| data(r));
        s.d[7] = 1 + r.below(60);
        s.other = 0x700;
        s.vbr = 0x40;
        let mut mem = memory(r, &s, LENGTH);
        // A divide by zero comes back.
        put(&mut mem, s.vbr + 4 * 5, &0x20u32.to_be_bytes());
        put(&mut mem, 0x20, &0x4E73u16.to_be_bytes());
        // Words on registers, then SUBQ.L #1,D7, BNE to the first, and what ends the run.
        let n = 1 + r.below(12);
        for k in 0..n {
            let op = r.pick(&[
                0xD080u16, 0x9080, 0xC080, 0xB180, 0xE188, 0xE0A0, 0x5080, 0x7100, 0x7180, 0xC0C0, 0x4480, 0x4840, 0x2000, 0x8080, 0x8180, 0x80C0,
                0x81C0,
            ]);
            let op = if op >> 8 & 0x0E == 0 { op | (r.below(7) as u16) << 9 } else { op };
            put(&mut mem, s.pc + 2 * k, &(op | r.below(7) as u16).to_be_bytes());
        }
        let end = s.pc + 2 * n;
        put(&mut mem, end, &0x5387u16.to_be_bytes());
        put(&mut mem, end + 2, &(0x6600 | (0u32.wrapping_sub(2 * n + 4) & 0xFF) as u16).to_be_bytes());
        for (k, w) in loops::ending(r).iter().enumerate() {
            put(&mut mem, end + 4 + 2 * k as u32, &w.to_be_bytes());
        }
        // A core that has stopped takes the largest budget: any other could run on where the two differ.
        s.stopped = i % 16 == 0;
        let budget = if s.stopped { u32::MAX } else if i % 2 == 0 { 20_000 } else { r.below(800) };
        c.check("long runs", Case::of(Call::Run(budget), &s, mem));
    }
}

/// Thousands of steps in one run, of the quick path and of the plain engine in turn.
fn mixed_loops(c: &mut Compare, r: &mut Random) {
    for i in 0..512u32 {
        let (s, mem) = loops::mixed(r);
        let budget = if i % 4 == 0 { r.below(4000) } else { 20_000 };
        c.check("mixed loops", Case::of(Call::Run(budget), &s, mem));
    }
}

fn calls(c: &mut Compare, r: &mut Random) {
    for i in 0..8192u32 {
        let supervisor = r.of_100(60);
        let mut s = state(r, supervisor);
        s.stopped = r.of_100(20);
        let mut mem = memory(r, &s, LENGTH);
        let vector = if r.of_100(80) { r.below(64) as u8 } else { r.word() as u8 };
        let level = (i / 4 % 10) as u8;
        let pc = if r.of_100(50) { r.long() } else { s.pc };
        let level = if r.of_100(3) { r.word() as u8 } else { level };
        let call = match i % 4 {
            0 => Call::Exception(vector, pc),
            1 => Call::ExceptionAt(vector, pc, level),
            2 => Call::Interrupt(vector, level),
            _ => {
                let w = (r.below(16) << 28) | (r.long() & 0x0FFF_0000) | r.word() as u32;
                put(&mut mem, s.a[7], &w.to_be_bytes());
                Call::Rte
            }
        };
        if r.of_100(5) {
            mem.truncate(s.a[7].wrapping_add(8).wrapping_sub(r.below(12)).min(LENGTH) as usize);
        }
        c.check("entries and returns", Case::of(call, &s, mem));
    }
    // Every mask and level.
    for mask in 0..8u16 {
        for level in 0..=9u8 {
            let mut s = state(r, true);
            s.sr = s.sr & !0x700 | mask << 8;
            s.a[7] = 0x800;
            s.other = 0x700;
            s.vbr = 0x40;
            let mem = memory(r, &s, LENGTH);
            c.check("entries and returns", Case::of(Call::Interrupt(r.below(256) as u8, level), &s, mem.clone()));
            c.check("entries and returns", Case::of(Call::ExceptionAt(r.below(256) as u8, 6, level), &s, mem));
        }
    }
}

fn any_call(r: &mut Random) -> Call {
    match r.below(7) {
        0 | 1 => Call::Step,
        2 => Call::Run(r.below(4)),
        3 => Call::Exception(r.below(64) as u8, r.long()),
        4 => Call::ExceptionAt(r.below(64) as u8, r.long(), r.below(10) as u8),
        5 => Call::Interrupt(r.below(64) as u8, r.below(10) as u8),
        _ => Call::Rte,
    }
}

fn refused(c: &mut Compare, r: &mut Random) {
    for i in 0..4096u32 {
        let op = likely(r);
        let (mut s, mut mem) = aimed(r, op, i % 2 == 0);
        if i % 8 == 7 {
            s.stopped = true;
        }
        let call = any_call(r);
        let mut block = s.to_block().to_vec();
        match i % 6 {
            0 => s.sr ^= 1 << r.below(16),
            1 => s.macsr |= 1 << (12 + r.below(20)),
            2 => {
                let k = r.below(4) as usize;
                s.acc[k] = match r.below(6) {
                    0 => 1 << 47,
                    1 => 1 << 48,
                    2 => -1,
                    3 => -(1 << 47) - 1,
                    4 => -(1 << 47),
                    _ => r.next() as i64,
                };
            }
            3 => {
                // The stopped byte alone.
                block[127] = r.pick(&[0, 1, 2, 3, 0x80, 0xFF]);
                c.check("states not admitted", Case { call, block, mem });
                continue;
            }
            4 => {
                let k = r.below(4) as usize;
                s.acc[k] = s.acc[k] ^ 1 << (47 + r.below(17));
            }
            _ => {
                // The mode changes under the accumulators.
                s.macsr ^= 1 << r.pick(&[5, 6, 5, 6, 11, 12]);
                if r.of_100(30) {
                    mem.truncate(r.below(16) as usize);
                }
            }
        }
        c.check("states not admitted", Case::of(call, &s, mem));
    }
    for i in 0..2048u32 {
        let op = likely(r);
        let (mut s, mem) = aimed(r, op, i % 2 == 0);
        if r.of_100(10) {
            s.sr |= 0x40;
        }
        let call = any_call(r);
        let mut block = s.to_block().to_vec();
        match i % 8 {
            0 => block.truncate(r.below(129) as usize),
            1 => block.truncate(r.below(7) as usize),
            2 => block[0] = r.word() as u8,
            3 => block[1 + r.below(4) as usize] ^= 1 << r.below(8),
            4 => block.extend((0..1 + r.below(5)).map(|_| 0)),
            5 => {
                block[0] = r.below(3) as u8;
                block.truncate(r.below(129) as usize);
            }
            6 => {
                block[4] = r.pick(&[122, 123, 124, 128]);
                block.truncate(r.pick(&[127, 128]));
            }
            _ => {
                let n = 5 + r.below(200) as usize;
                block.resize(n, 0);
                block[1..5].copy_from_slice(&(n as u32 - 5).to_be_bytes());
            }
        }
        c.check("broken blocks", Case { call, block, mem });
    }
    for _ in 0..2048 {
        let (op, supervisor) = (likely(r), r.of_100(50));
        let (mut s, mut mem) = aimed(r, op, supervisor);
        s.stopped = true;
        if r.of_100(20) {
            s.pc = r.long();
        }
        if r.of_100(10) {
            mem.truncate(r.below(8) as usize);
        }
        let call = any_call(r);
        c.check("stopped", Case::of(call, &s, mem));
    }
}

/// Memories of 16 MiB, one byte less and one and some more.
fn large(c: &mut Compare, r: &mut Random, round: u64) {
    let extra: &[usize] = if round == 0 { &[0, 1, 5, MEMORY_LIMIT] } else { &[0, 1] };
    let mut lengths = vec![MEMORY_LIMIT - 1];
    lengths.extend(extra.iter().map(|n| MEMORY_LIMIT + n));
    for len in lengths {
        for k in 0..4u32 {
            let mut s = state(r, true);
            let top = MEMORY_LIMIT as u32;
            s.pc = top - 2 * k.min(3) - 2 * (k / 2);
            s.a[0] = top - r.below(5);
            s.a[7] = top - r.below(3);
            s.vbr = top - 4 * 36 + r.below(3);
            let mut mem = vec![0u8; len];
            let op = r.pick(&[0x2010, 0x1010, 0x2080, 0x4E40, 0x4E71]);
            put(&mut mem, s.pc, &(op as u16).to_be_bytes());
            let mut bad = s.clone();
            bad.sr |= 0x20;
            c.check("large memories", Case::of(Call::Step, &s, mem.clone()));
            if k == 0 {
                c.check("large memories", Case::of(Call::Run(0), &s, mem.clone()));
                c.check("large memories", Case::of(Call::Interrupt(32, 8), &s, mem.clone()));
                c.check("large memories", Case::of(Call::Exception(32, 0), &bad, mem));
            } else if k == 1 {
                c.check("large memories", Case::of(Call::Rte, &s, mem.clone()));
                c.check("large memories", Case::of(Call::Run(2), &bad, mem));
            } else if k == 2 {
                let mut block = s.to_block().to_vec();
                block[0] = 0;
                c.check("large memories", Case { call: Call::Step, block, mem });
            }
        }
    }
}

/// The paper's examples that are not proved from the definition: both sides, and the paper's numbers.
fn by_hand(c: &mut Compare) {
    let mut wrong = 0;
    let mut hold = |c: &mut Compare, name: &str, case: Case, reply: u8, seen: &dyn Fn(&State) -> bool| {
        let want = case.expected(&mut c.oracle);
        let ok = want.reply.number() == reply && State::from_block(&want.block).is_ok_and(|s| seen(&s));
        if !ok {
            wrong += 1;
            println!("by hand: {name}: the original gives {} {}", want.reply.number(), State::from_block(&want.block).map_or("".into(), |s| text(&s)));
        }
        c.check("by hand", case);
    };
    let base = || {
        let mut s = State::fresh();
        s.sr = 0x2700;
        s.a[7] = 0x100;
        s
    };
    // MOVE.L (A0),D0 in a memory of 16 bytes.
    for (at, reply) in [(12u32, 0u8), (13, 4)] {
        let mut s = base();
        s.a[0] = at;
        let mut mem = vec![0u8; 16];
        mem[..2].copy_from_slice(&[0x20, 0x10]);
        mem[12..].copy_from_slice(&[1, 2, 3, 4]);
        let d0 = if reply == 0 { 0x0102_0304 } else { 0 };
        hold(c, "a long at the end", Case::of(Call::Step, &s, mem), reply, &|s| s.d[0] == d0);
    }
    for (mask, level, reply) in [(3u16, 3u8, 7u8), (3, 4, 0), (7, 7, 0), (7, 8, 6)] {
        let mut s = base();
        s.sr = 0x2000 | mask << 8;
        let mem = vec![0u8; 0x200];
        let after = if reply == 0 { 0x2000 | (level as u16) << 8 } else { s.sr };
        hold(c, "levels and masks", Case::of(Call::Interrupt(64, level), &s, mem), reply, &|s| s.sr == after);
    }
    // The sample program.
    let mut mem = vec![0u8; 0xC000];
    mem[..8].copy_from_slice(&[0x70, 0x05, 0x72, 0xFB, 0xD0, 0x81, 0x4A, 0xC8]);
    hold(c, "the sample", Case::of(Call::Run(100), &base(), mem), 3, &|s| s.pc == 8 && s.sr == 0x2715 && s.d[1] == 0xFFFF_FFFB);
    // A7 0x103, SR 0x2700, vector 32.
    let mut s = base();
    s.a[7] = 0x103;
    hold(c, "the frame", Case::of(Call::Exception(32, 0), &s, vec![0u8; 0x200]), 0, &|s| s.a[7] == 0xF8);
    if wrong > 0 {
        println!("{wrong} of the paper's examples are not what the original gives");
        c.differ += wrong;
    }
}

/// The differences from the manual: both sides leave what the table of witnesses says.
fn differences(c: &mut Compare) {
    for w in witnesses::all() {
        let (original, core) = (w.case.expected(&mut c.oracle), w.case.got());
        if !same(&original, &w.leaves) || !same(&core, &w.leaves) {
            println!("difference {}, {:X?}: the table says {}", w.name, w.case.call, witnesses::text(&w.case, &w.leaves));
            println!("  the original {}", witnesses::text(&w.case, &original));
            println!("  this core    {}", witnesses::text(&w.case, &core));
            // Where the two sides differ from each other, check counts it.
            c.differ += same(&original, &core) as u64;
        }
        c.check("differences from the manual", w.case);
    }
}

/// The programs that end, run to their end: both sides alike, and with the known answer. Apart from `check`, for a run of millions
/// of steps cannot be made smaller.
fn whole_programs(c: &mut Compare) {
    for program in programs::kept() {
        let Some(answer) = program.answer else { continue };
        let (s, mem, budget) = programs::load(&program);
        let case = Case::of(Call::Run(budget), &s, mem);
        let (want, got) = (case.expected(&mut c.oracle), case.got());
        c.cases += 1;
        *c.replies.entry(("programs to their end", want.reply.number())).or_insert(0) += 1;
        c.steps_in_runs += want.value;
        let known = want.reply == Reply::Stopped && State::from_block(&want.block).is_ok_and(|s| s.d[..2] == answer);
        if same(&want, &got) && known {
            continue;
        }
        c.differ += 1;
        println!("{}: the known answer is reply 3 with {answer:08X?}", program.name);
        for (side, x) in [("the original", &want), ("this core", &got)] {
            let state = State::from_block(&x.block).map_or_else(|r| format!("a block refused with {}", r.number()), |s| brief(&s));
            println!("  {side}: reply {} after {} steps, {state}", x.reply.number(), x.value);
        }
        if want.mem != got.mem {
            println!("  the memories differ");
        }
    }
}

#[no_mangle]
pub extern "C" fn main() -> i32 {
    let args: Vec<u64> = std::env::args().skip(1).map_while(|a| a.parse().ok()).collect();
    let [rounds, seed] = args[..] else {
        eprintln!("use: compare ROUNDS SEED");
        return 2;
    };
    let mut c = Compare {
        oracle: Oracle::new(),
        cases: 0,
        differ: 0,
        shown: Vec::new(),
        groups: BTreeMap::new(),
        replies: BTreeMap::new(),
        vectors: BTreeMap::new(),
        steps_in_runs: 0,
        completed: [vec![false; 0x10000], vec![false; 0x10000]],
        divided: Default::default(),
        summed: Default::default(),
        moved: BTreeSet::new(),
        gone: BTreeSet::new(),
        by_paper: 0,
        start: Instant::now(),
        said: 0,
    };
    by_hand(&mut c);
    differences(&mut c);
    whole_programs(&mut c);
    for round in 0..rounds {
        let mut r = Random::new(seed.wrapping_add(round.wrapping_mul(1_000_003)));
        words(&mut c, &mut r);
        lengths(&mut c, &mut r);
        counters(&mut c, &mut r);
        overlaps(&mut c, &mut r);
        emac(&mut c, &mut r);
        edges(&mut c, &mut r);
        memory_edges(&mut c, &mut r);
        divides(&mut c, &mut r);
        word_products(&mut c, &mut r);
        control_registers(&mut c, &mut r);
        runs(&mut c, &mut r);
        long_runs(&mut c, &mut r);
        mixed_loops(&mut c, &mut r);
        calls(&mut c, &mut r);
        refused(&mut c, &mut r);
        large(&mut c, &mut r, round);
    }
    let mut families: BTreeMap<&str, Vec<String>> = BTreeMap::new();
    for ((family, reply), n) in &c.replies {
        families.entry(family).or_default().push(format!("{reply}: {n}"));
    }
    for (family, counts) in families {
        println!("{family}: replies {}", counts.join(", "));
    }
    let vectors: Vec<String> = c.vectors.iter().map(|(v, n)| format!("{v}: {n}")).collect();
    println!("vectors entered by steps: {}; steps done in runs: {}", vectors.join(", "), c.steps_in_runs);
    let [user, supervisor] = [0, 1].map(|i| c.completed[i].iter().filter(|&&b| b).count());
    println!("words completed at least once: {user} as user, {supervisor} as supervisor, of 65536");
    let [quotient, overflow, zero] = [0, 1, 2].map(|i| c.divided[i].len());
    println!("words of DIVU.W and DIVS.W completed with a quotient: {quotient}, with an overflow: {overflow}, by zero: {zero}, of 1024");
    let [plain, up, down] = [0, 1, 2].map(|i| c.summed[i].len());
    let kinds = words::KINDS as usize;
    println!(
        "word products summed without an overflow: {plain} of {kinds} kinds (mode, halves, load, scale, sign, OMC, RT), \
         with one upwards: {up}, downwards: {down}, of 896"
    );
    if plain < kinds {
        println!("{} kinds of word products were never summed", kinds - plain);
    }
    let (moved, trips) = (movec::Kind::all().count(), movec::Trip::all().count());
    println!(
        "MOVEC answered: {} of {moved} kinds (way, number, register, mode; second word not inside), {} steps by difference 60 and not by \
         the original; trips to user mode and back that came to their end: {} of {trips}",
        c.moved.len(),
        c.by_paper,
        c.gone.len()
    );
    let missed = moved - c.moved.len() + trips - c.gone.len();
    if missed > 0 {
        println!("{missed} kinds of MOVEC, or trips, were never done");
    }
    if c.differ > 0 {
        println!("differing, by call, word and the two replies:");
        for (key, (n, _)) in c.groups.iter().take(60) {
            println!("  {n} {key}");
        }
        for (family, case) in std::mem::take(&mut c.shown) {
            println!("differs ({family}):");
            c.show(&case);
            println!("  made smaller:");
            let small = c.shrink(&case);
            c.show(&small);
        }
        if std::env::var_os("WITNESSES").is_some() {
            println!("one of each group, made smaller:");
            for (key, (_, case)) in std::mem::take(&mut c.groups) {
                println!("group {key}:");
                let small = c.shrink(&case);
                c.show(&small);
            }
        }
    }
    println!("{} cases, {} differ", c.cases, c.differ);
    (c.differ > 0 || plain < kinds || missed > 0) as i32
}
