//! `speed [STEPS [TIMES [PROGRAM]]]`: the original's `execute` in a loop, the archive's `run` and the archive's `step`, called a
//! tenth as often, on the same programs (host/programs), alternating in one process. Prints nanoseconds of processor time a
//! step, the best of TIMES (seven), and the archive's speed over the original's for a run and for single steps. After each
//! turn the states and memories must be equal. `ZLIB` is the folder where programs/zlib has made its program.

#![no_main]

#[cfg(not(original))]
compile_error!("the original's cpu.rs was not found: give its folder in ORIGINAL");

#[path = "../oracle/bus.rs"]
#[allow(dead_code)]
mod bus;
#[path = "../oracle/fast.rs"]
#[allow(dead_code)]
mod fast;
#[path = "../oracle/jit.rs"]
#[allow(dead_code)]
mod jit;
#[path = "../programs.rs"]
mod programs;
include!(concat!(env!("OUT_DIR"), "/original.rs"));

use bus::Bus;
use cpu::Cpu;
use host::{Reply, State};
use programs::{load, Program};

extern "C" {
    fn clock_gettime(clock: i32, time: *mut [i64; 2]) -> i32;
}

/// The processor time of this thread, in nanoseconds: what else the machine does counts less.
fn now() -> f64 {
    let mut t = [0i64; 2];
    // SAFETY: on 64-bit Linux a timespec is two 64-bit numbers; 3 is CLOCK_THREAD_CPUTIME_ID.
    let answer = unsafe { clock_gettime(3, &mut t) };
    assert_eq!(answer, 0, "the thread's clock");
    t[0] as f64 * 1e9 + t[1] as f64
}

fn set(c: &mut Cpu, s: &State, mem: &[u8]) {
    c.d = s.d;
    c.a = s.a;
    c.pc = s.pc;
    c.sr = s.sr;
    c.other_sp = s.other;
    c.vbr = s.vbr;
    c.cacr = s.cacr;
    c.macsr = s.macsr;
    c.mask = s.mask;
    c.accv = s.acc;
    c.stopped = s.stopped;
    c.bus.outside = false;
    c.bus.mem.clear();
    c.bus.mem.extend_from_slice(mem);
}

fn get(c: &Cpu) -> State {
    State {
        d: c.d,
        a: c.a,
        pc: c.pc,
        sr: c.sr,
        other: c.other_sp,
        vbr: c.vbr,
        cacr: c.cacr,
        macsr: c.macsr,
        mask: c.mask,
        acc: c.accv,
        stopped: c.stopped,
    }
}

/// The original's loop: it stops where `run` would.
#[inline(never)]
fn original(c: &mut Cpu, budget: u32) -> u32 {
    let mut done = 0;
    while done < budget && !c.stopped {
        c.op_pc = c.pc;
        c.execute();
        if c.bus.outside {
            break;
        }
        done += 1;
    }
    done
}

/// One turn: nanoseconds a step of the original, of `run` and of `step`. A program that ends is run to its end, and must leave its
/// known answer; one that loops does `steps`.
fn turn(cpu: &mut Cpu, program: &Program, steps: u32) -> [f64; 3] {
    let name = program.name;
    let (start, memory, _) = load(program);
    let (budget, end) = if program.answer.is_some() { (u32::MAX, Reply::Stopped) } else { (steps, Reply::Done) };
    set(cpu, &start, &memory);
    let clock = now();
    let done = original(cpu, budget);
    let original = (now() - clock) / done as f64;

    let (mut block, mut mem) = (start.to_block(), memory);
    let single = done / 10;
    let clock = now();
    for _ in 0..single {
        assert_eq!(host::step(&mut block, &mut mem).0, Reply::Done, "{name}: the archive refused a step");
    }
    let step = (now() - clock) / single as f64;

    let clock = now();
    let (reply, rest) = host::run(&mut block, &mut mem, budget - single);
    let run = (now() - clock) / rest as f64;
    assert_eq!(reply, end, "{name}: how the archive's run ended");

    assert_eq!(single + rest, done, "{name}: the steps of the archive and of the original");
    assert_eq!(State::from_block(&block), Ok(get(cpu)), "{name}: the states after {done} steps");
    assert!(mem == cpu.bus.mem, "{name}: the memories after {done} steps");
    if let Some(answer) = program.answer {
        assert_eq!(cpu.d[..2], answer, "{name}: the known answer");
    }
    [original, run, step]
}

#[no_mangle]
pub extern "C" fn main() -> i32 {
    let number = |i, default| std::env::args().nth(i).map_or(default, |a| a.parse().expect("use: speed [STEPS [TIMES [PROGRAM]]]"));
    let (steps, times): (u32, u32) = (number(1, 2_000_000), number(2, 7));
    let mut cpu = Cpu::new(Bus::new());
    println!("{steps} steps, or to the program's end; best of {times}");
    println!("{:16} {:>11} {:>11} {:>11} {:>11} {:>11}", "program", "original", "run", "ratio", "step", "ratio");
    let only = std::env::args().nth(3);
    let zlib = std::env::var("ZLIB").ok().and_then(|folder| programs::zlib(&folder));
    for program in programs::kept().into_iter().chain(zlib) {
        if only.as_ref().is_some_and(|o| o != program.name) {
            continue;
        }
        let mut best = [f64::INFINITY; 3];
        for _ in 0..times {
            let took = turn(&mut cpu, &program, steps);
            best = std::array::from_fn(|i| best[i].min(took[i]));
        }
        let [original, run, step] = best;
        println!("{:16} {original:11.2} {run:11.2} {:11.2} {step:11.2} {:11.3}", program.name, original / run, original / step);
    }
    0
}
