//! The witnesses of the differences from the manual: crates/replay/witnesses.txt, which says how it is written.

use crate::cases::{Answer, Call, Case};
use host::{Reply, State};

const TEXT: &str = include_str!("../../crates/replay/witnesses.txt");
const MEMORY: usize = 1024;
const NAMES: [&str; 28] = [
    "d0", "d1", "d2", "d3", "d4", "d5", "d6", "d7", "a0", "a1", "a2", "a3", "a4", "a5", "a6", "a7", "pc", "sr", "other", "vbr", "cacr",
    "macsr", "mask", "acc0", "acc1", "acc2", "acc3", "stopped",
];

/// A call, and what it leaves by the table.
pub struct Asked {
    /// The witness's number, with a letter where the difference has several.
    pub name: String,
    pub case: Case,
    pub leaves: Answer,
}

/// Where a register lies in a block, and its bytes.
fn place(name: &str) -> Option<(usize, usize)> {
    let i = NAMES.iter().position(|n| *n == name)?;
    Some(match i {
        0..=16 => (5 + 4 * i, 4),
        17 => (73, 2),
        18..=22 => (75 + 4 * (i - 18), 4),
        23..=26 => (95 + 8 * (i - 23), 8),
        _ => (127, 1),
    })
}

fn hex(digits: &str) -> Result<u64, String> {
    u64::from_str_radix(digits, 16).map_err(|_| format!("'{digits}' is no number"))
}

/// `name=VALUE` in a block, or `@ADDRESS=BYTES` in a memory.
fn set(word: &str, block: &mut [u8], mem: &mut [u8]) -> Result<(), String> {
    let (name, value) = word.split_once('=').ok_or_else(|| format!("'{word}' is no name=value"))?;
    if let Some(address) = name.strip_prefix('@') {
        let at = hex(address)? as usize;
        let bytes: Vec<u8> = (0..value.len() / 2).map(|i| Ok(hex(&value[2 * i..2 * i + 2])? as u8)).collect::<Result<_, String>>()?;
        let to = mem.get_mut(at..at + bytes.len()).filter(|_| value.len() % 2 == 0).ok_or_else(|| format!("'{word}' does not fit"))?;
        to.copy_from_slice(&bytes);
        return Ok(());
    }
    let (at, n) = place(name).ok_or_else(|| format!("'{name}' is no register"))?;
    let bytes = hex(value)?.to_be_bytes();
    if bytes[..8 - n].iter().any(|&b| b != 0) {
        return Err(format!("'{word}' does not fit"));
    }
    block[at..at + n].copy_from_slice(&bytes[8 - n..]);
    Ok(())
}

fn call(word: &str) -> Result<Call, String> {
    let (name, rest) = word.split_once('(').unwrap_or((word, ")"));
    let wrong = || format!("'{word}' is no call");
    let inside = rest.strip_suffix(')').ok_or_else(wrong)?;
    let args: Vec<&str> = inside.split(',').filter(|a| !a.is_empty()).collect();
    let byte = |a: &str| a.parse::<u8>().map_err(|_| wrong());
    Ok(match (name, &args[..]) {
        ("step", []) => Call::Step,
        ("rte", []) => Call::Rte,
        ("run", [n]) => Call::Run(n.parse().map_err(|_| wrong())?),
        ("exception", [v, pc]) => Call::Exception(byte(v)?, hex(pc)? as u32),
        ("exception_at", [v, pc, l]) => Call::ExceptionAt(byte(v)?, hex(pc)? as u32, byte(l)?),
        ("interrupt", [v, l]) => Call::Interrupt(byte(v)?, byte(l)?),
        _ => return Err(wrong()),
    })
}

/// The state and the memory that a witness starts from.
fn start() -> (Vec<u8>, Vec<u8>) {
    let mut s = State::fresh();
    s.sr = 0x2700;
    s.pc = 0x100;
    s.a[7] = 0x300;
    (s.to_block().to_vec(), vec![0; MEMORY])
}

/// What a call leaves, from the words after 'leaves': its reply, its vector or count, and every change. A word that changes nothing is wrong.
fn answer(words: &[&str], case: &Case) -> Result<Answer, String> {
    let number = words.first().and_then(|w| w.parse().ok()).and_then(Reply::of_number).ok_or("no reply after 'leaves'")?;
    let mut a = Answer { reply: number, value: 0, block: case.block.clone(), mem: case.mem.clone() };
    for word in &words[1..] {
        match (case.call, word.split_once('=')) {
            (Call::Step, Some(("vector", n))) | (Call::Run(_), Some(("count", n))) => a.value = n.parse().map_err(|_| format!("'{word}'"))?,
            _ => {
                let (block, mem) = (a.block.clone(), a.mem.clone());
                set(word, &mut a.block, &mut a.mem)?;
                if block == a.block && mem == a.mem {
                    return Err(format!("'{word}' changes nothing"));
                }
            }
        }
    }
    Ok(a)
}

/// What the table has, in its order; the calls of a witness follow each other.
pub fn all() -> Vec<Asked> {
    let mut found: Vec<Asked> = Vec::new();
    let mut name = String::new();
    let (mut block, mut mem) = start();
    let mut asked: Option<Case> = None;
    // A line that starts with a space goes on the line before it.
    let mut lines: Vec<(usize, String)> = Vec::new();
    for (i, line) in TEXT.lines().enumerate().filter(|(_, l)| !l.trim().is_empty() && !l.starts_with('#')) {
        match lines.last_mut() {
            Some((_, before)) if line.starts_with(' ') => *before += line,
            _ => lines.push((i + 1, line.to_string())),
        }
    }
    for (at, line) in &lines {
        let wrong = |what: &str| -> ! {
            eprintln!("crates/replay/witnesses.txt, line {at}: {what}");
            std::process::exit(1)
        };
        let words: Vec<&str> = line.split_whitespace().collect();
        if line.starts_with(|c: char| c.is_ascii_digit()) {
            if asked.is_some() {
                wrong("the call before this has no 'leaves'");
            }
            name = words[0].strip_suffix('.').unwrap_or_else(|| wrong("no full stop after the number")).to_string();
            (block, mem) = start();
        } else if words[0] == "leaves" {
            let case = asked.take().unwrap_or_else(|| wrong("no call before 'leaves'"));
            let leaves = answer(&words[1..], &case).unwrap_or_else(|e| wrong(&e));
            (block, mem) = (leaves.block.clone(), leaves.mem.clone());
            found.push(Asked { name: name.clone(), case, leaves });
        } else {
            if asked.is_some() || name.is_empty() {
                wrong("a call where 'leaves' or a number is due");
            }
            let call = call(words[0]).unwrap_or_else(|e| wrong(&e));
            for word in &words[1..] {
                set(word, &mut block, &mut mem).unwrap_or_else(|e| wrong(&e));
            }
            asked = Some(Case { call, block: block.clone(), mem: mem.clone() });
        }
    }
    assert!(asked.is_none() && !found.is_empty(), "crates/replay/witnesses.txt ends within a witness");
    found
}

/// An answer in the table's words.
pub fn text(case: &Case, a: &Answer) -> String {
    let mut words = vec![format!("leaves {}", a.reply.number())];
    match case.call {
        Call::Step if a.value != 0 => words.push(format!("vector={}", a.value)),
        Call::Run(_) => words.push(format!("count={}", a.value)),
        _ => {}
    }
    for name in NAMES {
        let (at, n) = place(name).expect("a register");
        if case.block[at..at + n] != a.block[at..at + n] {
            words.push(format!("{name}={:X}", a.block[at..at + n].iter().fold(0u64, |v, &b| v << 8 | b as u64)));
        }
    }
    let mut at = 0;
    while at < a.mem.len() {
        let end = (at..a.mem.len()).find(|&i| case.mem[i] == a.mem[i]).unwrap_or(a.mem.len());
        if end > at {
            let bytes: String = a.mem[at..end].iter().map(|b| format!("{b:02X}")).collect();
            words.push(format!("@{at:X}={bytes}"));
        }
        at = end + 1;
    }
    words.join(" ")
}
