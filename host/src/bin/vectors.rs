//! `vectors SEED ROWS`: a sample of the original's answers on standard output, for the program replay;
//! crates/replay/VECTORS.md has the format. ROWS is the definition's table of rows: every row has its
//! share of steps. After the sample come the witnesses of the differences from the manual; where the
//! original leaves something else than their table says, nothing is written. The same seed makes the
//! same bytes. What the sample holds, and what replay must print of it, goes to standard error.

#![no_main]

#[cfg(not(original))]
compile_error!("the original's cpu.rs was not found: give its folder in ORIGINAL");

#[path = "../oracle/bus.rs"]
#[allow(dead_code)]
mod bus;
#[path = "../cases.rs"]
#[allow(dead_code)]
mod cases;
#[path = "../oracle/fast.rs"]
#[allow(dead_code)]
mod fast;
#[path = "../oracle/jit.rs"]
#[allow(dead_code)]
mod jit;
#[path = "../movec.rs"]
#[allow(dead_code)]
mod movec;
#[path = "../oracle/oracle.rs"]
mod oracle;
#[path = "../random.rs"]
mod random;
#[path = "../witnesses.rs"]
mod witnesses;
#[path = "../words.rs"]
#[allow(dead_code)]
mod words;
include!(concat!(env!("OUT_DIR"), "/original.rs"));

use cases::{accumulator, control, data, edge, put, same, tame, Call, Case, Random};
use host::{Reply, State};
use oracle::Oracle;
use std::collections::BTreeMap;
use std::io::Write;

const HEAD: usize = 16;
const BLOCK: usize = 160;
const MEMORY: usize = 1024;

/// What the program has before it: the call and its expected answer, the block and the memory, each in
/// an array that stays from one record to the next.
#[derive(Clone)]
struct Sheet {
    head: [u8; HEAD],
    block: [u8; BLOCK],
    mem: [u8; MEMORY],
}

/// The runs of bytes in which `to` differs from `from`: how many there are, and for each the bytes
/// passed over, its length and its bytes. Two runs with at most two bytes between them are one.
fn patch(from: &[u8], to: &[u8], out: &mut Vec<u8>) {
    let mut runs: Vec<(usize, usize)> = Vec::new();
    for i in (0..to.len()).filter(|&i| from[i] != to[i]) {
        match runs.last_mut() {
            Some((start, end)) if i <= *end + 2 && i - *start < 255 => *end = i + 1,
            _ => runs.push((i, i + 1)),
        }
    }
    let count_at = out.len();
    out.push(0);
    let (mut at, mut count) = (0, 0);
    for (start, end) in runs {
        while start - at > 255 {
            out.extend_from_slice(&[255, 0]);
            at += 255;
            count += 1;
        }
        out.extend_from_slice(&[(start - at) as u8, (end - start) as u8]);
        out.extend_from_slice(&to[start..end]);
        at = end;
        count += 1;
    }
    out[count_at] = u8::try_from(count).expect("at most 255 runs");
}

struct Vectors {
    oracle: Oracle,
    r: Random,
    rows: Vec<(u16, u16)>,
    sheet: Sheet,
    state: State,
    out: Vec<u8>,
    records: u32,
    seen: BTreeMap<(&'static str, u8), u32>,
    completed: Vec<u32>,
}

fn name_of(call: Call) -> &'static str {
    match call {
        Call::Step => "step",
        Call::Run(_) => "run",
        Call::Exception(..) => "exception",
        Call::ExceptionAt(..) => "exception_at",
        Call::Interrupt(..) => "interrupt",
        Call::Rte => "rte",
    }
}

impl Vectors {
    /// The row of a word: the one that fits with the most fixed bits.
    fn row_of(&self, op: u16) -> usize {
        let fits = |&i: &usize| op & self.rows[i].1 == self.rows[i].0;
        (0..self.rows.len()).filter(fits).max_by_key(|&i| self.rows[i].1.count_ones()).expect("every word has a row")
    }

    /// A question: the call, the block and the memory.
    fn case(&self, call: Call, s: &State, mem: &[u8]) -> Case {
        Case::of(call, s, mem.to_vec())
    }

    /// Adds a record, and goes on from its answer.
    fn add(&mut self, case: &Case) {
        let answer = case.expected(&mut self.oracle);
        let mut question = self.sheet.clone();
        let (kind, vector, level, number) = match case.call {
            Call::Step => (0, 0, 0, 0),
            Call::Run(n) => (1, 0, 0, n),
            Call::Exception(v, pc) => (2, v, 0, pc),
            Call::ExceptionAt(v, pc, l) => (3, v, l, pc),
            Call::Interrupt(v, l) => (4, v, l, 0),
            Call::Rte => (5, 0, 0, 0),
        };
        question.head[..4].copy_from_slice(&[kind, vector, level, case.block.len() as u8]);
        question.head[4..6].copy_from_slice(&(case.mem.len() as u16).to_be_bytes());
        question.head[6..10].copy_from_slice(&number.to_be_bytes());
        question.head[10..14].copy_from_slice(&(answer.value as u32).to_be_bytes());
        question.head[14] = answer.reply.number();
        question.block[..case.block.len()].copy_from_slice(&case.block);
        question.mem[..case.mem.len()].copy_from_slice(&case.mem);
        let mut after = question.clone();
        after.block[..answer.block.len()].copy_from_slice(&answer.block);
        after.mem[..answer.mem.len()].copy_from_slice(&answer.mem);
        patch(&self.sheet.head, &question.head, &mut self.out);
        patch(&self.sheet.block, &question.block, &mut self.out);
        patch(&self.sheet.mem, &question.mem, &mut self.out);
        patch(&question.block, &after.block, &mut self.out);
        patch(&question.mem, &after.mem, &mut self.out);
        self.sheet = after;
        if let Ok(s) = State::from_block(&answer.block) {
            self.state = s;
        }
        self.records += 1;
        *self.seen.entry((name_of(case.call), answer.reply.number())).or_insert(0) += 1;
        if let (Call::Step, Reply::Done, Some(op)) = (case.call, answer.reply, case.word()) {
            let row = self.row_of(op);
            self.completed[row] += 1;
        }
    }

    /// A place inside, mostly at an even address.
    fn place(&mut self) -> u32 {
        let at = 0x80 + self.r.below(0x300);
        if self.r.of_100(80) { at & !3 } else { at }
    }

    /// The state left by the last record, its pointers inside again, and what `op` reads drawn anew.
    fn aim(&mut self, op: u16) -> State {
        let mut s = self.state.clone();
        s.stopped = false;
        for i in 0..8 {
            if !(0x40..0x3C0).contains(&s.a[i]) {
                s.a[i] = self.place();
            }
        }
        if !(0x40..0x3C0).contains(&s.other) {
            s.other = self.place();
        }
        if s.vbr > 0x300 || self.r.of_100(2) {
            s.vbr = self.r.below(0x300);
        }
        for i in [op & 7, op >> 9 & 7] {
            s.d[i as usize] = data(&mut self.r);
        }
        if self.r.of_100(25) {
            let i = (op & 7) as usize;
            s.a[i] = if self.r.of_100(15) { edge(&mut self.r) } else { self.place() };
        }
        // An index register mostly stays small.
        let i = self.r.below(8) as usize;
        s.d[i] = self.r.below(64);
        s.sr ^= self.r.word() & 0x1F;
        if self.r.of_100(10) {
            s.sr = self.r.word() & 0xB71F;
        }
        if self.r.of_100(30) {
            s.sr ^= 0x2000;
        }
        // Whether there are two stack pointers.
        if self.r.of_100(10) {
            s.cacr ^= 0x20;
        }
        if op >> 12 == 0xA && self.r.of_100(60) {
            let macsr = self.r.below(0x1000);
            if macsr & 0x60 != s.macsr & 0x60 {
                s.acc = std::array::from_fn(|_| accumulator(&mut self.r, macsr));
            } else {
                let k = self.r.below(4) as usize;
                s.acc[k] = accumulator(&mut self.r, macsr);
            }
            s.macsr = macsr;
            s.mask = if self.r.of_100(70) { 0xFFFF_FFFF } else { 0xFFFF_0000 | self.r.word() as u32 };
        }
        s.pc = (0x40 + self.r.below(0x380)) & !1;
        if self.r.of_100(3) {
            s.pc |= 1;
        }
        s
    }

    /// The memory left by the last record, with `op` and extension words that mostly lead inside.
    fn code(&mut self, pc: u32, op: u16) -> Vec<u8> {
        let mut mem = self.sheet.mem.to_vec();
        let r = &mut self.r;
        let near = |r: &mut Random| (r.below(128) as i32 - 64) as u16;
        let inside = |r: &mut Random| r.below(MEMORY as u32 - 16) as u16;
        let index = |r: &mut Random| (r.below(8) << 12 | r.below(8) << 9 | r.below(64)) as u16;
        let words: Vec<u16> = match r.below(8) {
            0 => vec![0, inside(r), 0, inside(r)],
            1 => vec![r.word(), 0, inside(r)],
            2 => vec![near(r), near(r), near(r)],
            3 => vec![index(r), index(r), near(r)],
            4 => vec![inside(r), 0, inside(r)],
            5 => vec![edge(r) as u16, edge(r) as u16],
            _ => vec![r.word(), near(r), inside(r)],
        };
        let mut words = words;
        if op & 0xF100 == 0xA000 && r.of_100(90) {
            words[0] = r.word();
        }
        if op == 0x40E7 && r.of_100(80) {
            words[0] = 0x46FC;
        }
        if op & 0xFFFE == 0x4E7A {
            words[0] = control(r);
        }
        put(&mut mem, pc, &op.to_be_bytes());
        for (i, w) in words.iter().enumerate() {
            put(&mut mem, pc + 2 + 2 * i as u32, &w.to_be_bytes());
        }
        mem
    }

    fn step_of(&mut self, op: u16) -> Case {
        let s = self.aim(op);
        let mem = self.code(s.pc, op);
        self.case(Call::Step, &s, &mem)
    }

    /// Steps of every row, of which at most one in six is refused where the row can complete.
    fn rows(&mut self, each: u32) {
        for row in 0..self.rows.len() {
            let (value, mask) = self.rows[row];
            let (mut kept, mut refused) = (0, 0);
            let mut tries = 0;
            while kept < each && tries < 4000 {
                tries += 1;
                let op = self.r.word() & !mask | value;
                if self.row_of(op) != row {
                    continue;
                }
                let case = self.step_of(op);
                let done = case.expected(&mut self.oracle).reply == Reply::Done;
                if !done && refused >= each / 6 && tries < 2000 {
                    continue;
                }
                refused += u32::from(!done);
                kept += 1;
                self.add(&case);
            }
        }
    }

    /// Steps in memories of every length around the code and the stack.
    fn lengths(&mut self, n: u32) {
        for _ in 0..n {
            let row = self.r.below(self.rows.len() as u32) as usize;
            let (value, mask) = self.rows[row];
            let op = self.r.word() & !mask | value;
            let mut case = self.step_of(op);
            let s = State::from_block(&case.block).expect("an aimed state");
            let around = match self.r.below(3) {
                0 => s.pc + self.r.below(10),
                1 => s.a[7].wrapping_add(self.r.below(12)).wrapping_sub(6),
                _ => self.r.below(MEMORY as u32),
            };
            case.mem.truncate(around as usize);
            self.add(&case);
        }
    }

    fn entries(&mut self, n: u32) {
        for i in 0..n {
            let registers = self.r.word() & 0x0FFF;
            let mut s = self.aim(registers);
            s.stopped = self.r.of_100(20);
            s.sr = s.sr & !0x0700 | (self.r.below(8) as u16) << 8;
            if self.r.of_100(20) {
                s.a[7] = self.r.pick(&[0, 4, 7, 8, 0x3FC, 0x3FF, 0x400, 0x404, 0x8000_0000]);
            }
            let mut mem = self.sheet.mem.to_vec();
            let vector = if self.r.of_100(80) { self.r.below(64) as u8 } else { self.r.word() as u8 };
            let pc = self.r.long();
            let level = (i / 4 % 9) as u8;
            let call = match i % 4 {
                0 => Call::Exception(vector, pc),
                1 => Call::ExceptionAt(vector, pc, level),
                2 => Call::Interrupt(vector, level),
                _ => {
                    let w = (self.r.below(16) << 28) | (self.r.long() & 0x0FFF_0000) | self.r.word() as u32;
                    put(&mut mem, s.a[7], &w.to_be_bytes());
                    Call::Rte
                }
            };
            let case = self.case(call, &s, &mem);
            self.add(&case);
        }
    }

    fn runs(&mut self, n: u32) {
        for i in 0..n {
            let mut s = self.aim(0);
            s.sr |= 0x2000;
            s.vbr = s.vbr.min(0x100);
            let mut mem = self.sheet.mem.to_vec();
            let mut words = vec![0; 10];
            for w in &mut words {
                *w = tame(&mut self.r);
            }
            if i % 5 == 0 {
                let (k, op) = ((i / 5 % 7) as usize, self.r.pick(&[0x4AC8, 0x4E72, 0x4E7B, 0x4E40]));
                words[k] = op;
                if op == 0x4E7B {
                    words[k + 1] = control(&mut self.r);
                }
            }
            for (k, w) in words.iter().enumerate() {
                put(&mut mem, s.pc + 2 * k as u32, &w.to_be_bytes());
            }
            let case = self.case(Call::Run(i % 14), &s, &mem);
            self.add(&case);
        }
    }

    /// Steps of MAC and MSAC of words, all of which complete.
    fn words(&mut self) {
        for (i, kind) in words::Kind::some().enumerate() {
            let mut s = self.aim(0xA000);
            let (form, at) = (self.r.below(4) as u16, self.place());
            let code = words::ready(&mut self.r, &mut s, kind, form, words::STARTS[i % 3], at);
            let mut mem = self.code(s.pc, code[0]);
            for (k, w) in code.iter().enumerate() {
                put(&mut mem, s.pc + 2 * k as u32, &w.to_be_bytes());
            }
            let case = self.case(Call::Step, &s, &mem);
            let answer = case.expected(&mut self.oracle);
            assert!(answer.reply == Reply::Done && answer.value == 0, "a product of words that does not complete");
            self.add(&case);
        }
    }

    /// Steps of MOVEC, which complete but for those whose second word is not inside.
    fn movec(&mut self) {
        for (i, kind) in movec::Kind::some().enumerate() {
            let mut s = self.aim(0x4E7A);
            let value = movec::VALUES[i % movec::VALUES.len()];
            let code = movec::ready(&mut self.r, &mut s, kind, value);
            if !kind.is_inside() {
                s.pc = MEMORY as u32 - 2 - self.r.below(2);
            }
            let mut mem = self.code(s.pc, code[0]);
            put(&mut mem, s.pc + 2, &code[1].to_be_bytes());
            let case = self.case(Call::Step, &s, &mem);
            let answer = case.expected(&mut self.oracle);
            assert!(movec::answered(&case, &answer) == Some(kind), "a MOVEC that does not complete");
            self.add(&case);
        }
    }

    fn any_call(&mut self, i: u32) -> Call {
        match i % 6 {
            0 => Call::Step,
            1 => Call::Run(self.r.below(4)),
            2 => Call::Exception(self.r.below(64) as u8, self.r.long()),
            3 => Call::ExceptionAt(self.r.below(64) as u8, self.r.long(), self.r.below(10) as u8),
            4 => Call::Interrupt(self.r.below(64) as u8, self.r.below(10) as u8),
            _ => Call::Rte,
        }
    }

    /// Blocks that every call refuses: a stopped core, a state that no core can have, a wrong version
    /// and wrong lengths.
    fn refused(&mut self, n: u32) {
        for i in 0..n {
            let call = self.any_call(i);
            let mut s = self.aim(0x4E71);
            let mem = self.code(s.pc, 0x4E71);
            let kind = i / 6 % 6;
            match kind {
                0 => s.stopped = true,
                1 => s.sr |= self.r.pick(&[0x20, 0x40, 0x80, 0x800, 0x4000]),
                2 => s.macsr |= 1 << (12 + self.r.below(20)),
                3 => s.acc[self.r.below(4) as usize] = self.r.pick(&[1 << 48, -(1 << 47) - 1, i64::MIN, i64::MAX]),
                _ => {}
            }
            let mut case = self.case(call, &s, &mem);
            match kind {
                4 => match self.r.below(4) {
                    0 => case.block.truncate(self.r.below(128) as usize),
                    1 => case.block[1 + self.r.below(4) as usize] ^= 1 << self.r.below(8),
                    2 => case.block.resize(129 + self.r.below(31) as usize, 0),
                    _ => case.block[127] = 2 + self.r.below(254) as u8,
                },
                5 => {
                    case.block[0] = self.r.pick(&[0, 2, 0xFF]);
                    if self.r.of_100(30) {
                        case.block.truncate(self.r.below(8) as usize);
                    }
                }
                _ => {}
            }
            self.add(&case);
        }
    }

    /// The witnesses of the differences; answers how many are not what the table says.
    fn witnesses(&mut self) -> u32 {
        let mut wrong = 0;
        for w in witnesses::all() {
            let answer = w.case.expected(&mut self.oracle);
            if !same(&answer, &w.leaves) {
                wrong += 1;
                eprintln!("difference {}: the table says {}", w.name, witnesses::text(&w.case, &w.leaves));
                eprintln!("  the original {}", witnesses::text(&w.case, &answer));
            }
            self.add(&w.case);
        }
        wrong
    }
}

/// The rows of the definition's table: 'row VALUE MASK'.
fn read_rows(text: &str) -> Vec<(u16, u16)> {
    let number = |w: &str| u16::from_str_radix(w.strip_prefix("0x")?, 16).ok();
    text.lines()
        .filter_map(|line| {
            let mut words = line.trim_start_matches([' ', '(']).split(' ');
            (words.next()? == "row").then_some(())?;
            Some((number(words.next()?)?, number(words.next()?)?))
        })
        .collect()
}

#[no_mangle]
pub extern "C" fn main() -> i32 {
    let args: Vec<String> = std::env::args().skip(1).collect();
    let [seed, rows] = &args[..] else {
        eprintln!("use: vectors SEED ROWS");
        return 2;
    };
    let seed = seed.parse().expect("SEED is a number");
    let rows = read_rows(&std::fs::read_to_string(rows).expect("the table of rows"));
    let mut v = Vectors {
        oracle: Oracle::new(),
        r: Random::new(seed),
        completed: vec![0; rows.len()],
        rows,
        sheet: Sheet { head: [0; HEAD], block: [0; BLOCK], mem: [0; MEMORY] },
        state: State::fresh(),
        out: vec![0; 4],
        records: 0,
        seen: BTreeMap::new(),
    };
    // The first record fills the memory.
    let mut mem = vec![0; MEMORY];
    for at in (0..MEMORY).step_by(4) {
        let value = if v.r.of_100(50) { data(&mut v.r) } else { v.r.long() };
        put(&mut mem, at as u32, &value.to_be_bytes());
    }
    let first = v.case(Call::Run(0), &State::fresh(), &mem);
    v.add(&first);
    v.rows(36);
    v.lengths(160);
    v.entries(288);
    v.runs(140);
    v.words();
    v.movec();
    v.refused(216);
    let sampled = v.records;
    if v.witnesses() > 0 {
        eprintln!("nothing is written");
        return 1;
    }
    let count = v.records.to_be_bytes();
    v.out[..4].copy_from_slice(&count);
    std::io::stdout().write_all(&v.out).expect("standard output");
    std::io::stdout().flush().expect("standard output");
    eprintln!("{} records, of which {} are the witnesses', {} bytes", v.records, v.records - sampled, v.out.len());
    for ((name, reply), n) in &v.seen {
        eprintln!("{name}: reply {reply}: {n}");
    }
    let never: Vec<String> = (0..v.rows.len()).filter(|&i| v.completed[i] == 0).map(|i| format!("{:04X}", v.rows[i].0)).collect();
    eprintln!("{} rows; without a completed step: {}", v.rows.len(), never.join(" "));
    let sum = v.out.iter().fold(0u64, |sum, &b| (sum * 257 + b as u64) % (1 << 32));
    let (n, len) = (v.records, v.out.len());
    eprintln!("stdout is to be:\nrecords {n}\nagree {n}\nfirst that differs 0\nbytes {len}\nbytes replayed {len}\nsum {sum}");
    0
}
