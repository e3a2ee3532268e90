//! `voyage FOLDER`: runs that are cut in parts against single runs. Block, memory, total count and reply must
//! be equal. Then what saves leave on disk, and what a restore answers. The folder is an empty one. Exit 1 on
//! a difference, or where a kind of reply was not seen. Repeatable: the random cuts have fixed seeds.
//!
//! `voyage begin|fail|end FOLDER`: a voyage whose second save fails. host/voyage calls these three, and for
//! `fail` limits the size of files.

#![no_main]

#[path = "../programs.rs"]
mod programs;
#[path = "../random.rs"]
#[allow(dead_code)]
mod random;

use host::{interrupt, run, Part, Reply, State, Voyage, BLOCK, MEMORY_LIMIT};
use programs::Program;
use random::Random;
use std::collections::BTreeMap;
use std::convert::Infallible;
use std::fs;
use std::io::{self, ErrorKind};
use std::ops::ControlFlow;
use std::path::{Path, PathBuf};

// -- the comparison ---------------------------------------------------------------

/// What a run answers and leaves.
#[derive(Clone, PartialEq)]
struct Left {
    reply: Reply,
    count: u64,
    block: Vec<u8>,
    memory: Vec<u8>,
}

impl Left {
    fn of(reply: Reply, count: u64, voyage: &Voyage) -> Left {
        Left { reply, count, block: voyage.block().to_vec(), memory: voyage.memory().to_vec() }
    }
}

/// One run, on copies.
fn single(block: &[u8], memory: &[u8], budget: u32) -> Left {
    let (mut block, mut memory) = (block.to_vec(), memory.to_vec());
    let (reply, count) = run(&mut block, &mut memory, budget);
    Left { reply, count: count as u64, block, memory }
}

/// The reply of a second part of budget `m`, where one run of both parts has the reply `whole`.
fn second_reply(whole: Reply, m: u32) -> Reply {
    let of_every_part = [Reply::MemoryTooLong, Reply::NotAdmitted, Reply::BadVersion, Reply::BadLength];
    if m >= 1 || of_every_part.contains(&whole) {
        whole
    } else {
        Reply::Done
    }
}

#[derive(Default)]
struct Checks {
    cut: u64,
    differ: u64,
}

impl Checks {
    /// Something that is to be so.
    fn holds(&mut self, what: &str, so: bool) {
        if !so {
            self.differ += 1;
            println!("not so: {what}");
        }
    }

    /// A cut run against what is expected of it.
    fn compare(&mut self, what: &str, expected: &Left, cut: &Left) {
        self.cut += 1;
        if expected == cut {
            return;
        }
        self.differ += 1;
        println!("differs: {what}: the first is expected");
        println!("  replies {} and {}", expected.reply.number(), cut.reply.number());
        println!("  counts {} and {}", expected.count, cut.count);
        say_difference("blocks", &expected.block, &cut.block);
        say_difference("memories", &expected.memory, &cut.memory);
    }
}

fn say_difference(name: &str, one: &[u8], other: &[u8]) {
    if one.len() != other.len() {
        println!("  {name} of {} and {} bytes", one.len(), other.len());
    } else if let Some(byte) = one.iter().zip(other).position(|(a, b)| a != b) {
        println!("  {name} that differ from byte {byte} on");
    }
}

/// An empty folder of this name.
fn new_folder(parent: &Path, name: &str) -> io::Result<PathBuf> {
    let folder = parent.join(name);
    fs::create_dir(&folder)?;
    Ok(folder)
}

// -- programs in ten parts, saved and restored between them -------------------------

/// Ten budgets that have `n` as their sum. The last three begin after two thirds of it, where a program that
/// ends has ended. There is a budget of 0 before that and after it.
fn ten_budgets(n: u32) -> [u32; 10] {
    let mut budgets = [n / 4, 0, 1, n / 10, n / 5, 7, n / 6, n / 20, 0, 0];
    budgets[9] = n - budgets.iter().sum::<u32>();
    budgets
}

/// How many steps a program is to do: one that ends has a third of them left at its end.
fn steps_of(program: &Program) -> u32 {
    let (state, memory, budget) = programs::load(program);
    match program.answer {
        Some(_) => single(&state.to_block(), &memory, budget).count as u32 / 2 * 3,
        None => 100_000,
    }
}

fn program_in_parts(checks: &mut Checks, program: &Program, folder: &Path) -> io::Result<()> {
    let name = program.name;
    let (state, memory, _) = programs::load(program);
    let n = steps_of(program);
    let whole = single(&state.to_block(), &memory, n);
    Voyage::new(&state, memory).save(folder)?;
    let (mut reply, mut count) = (Reply::Done, 0);
    for budget in ten_budgets(n) {
        let mut voyage = Voyage::restore(folder)?;
        let part = voyage.part(budget);
        voyage.save(folder)?;
        count += part.count as u64;
        if budget == 0 {
            let nothing = part == Part { reply: Reply::Done, count: 0 };
            checks.holds(&format!("{name}: a part of budget 0 does nothing"), nothing);
        } else {
            // A program that has ended says so again, and does no more.
            let so = reply == Reply::Done || part == Part { reply, count: 0 };
            checks.holds(&format!("{name}: a part after the end answers as the whole"), so);
            reply = part.reply;
        }
    }
    let voyage = Voyage::restore(folder)?;
    checks.compare(name, &whole, &Left::of(reply, count, &voyage));
    checks.holds(&format!("{name}: the voyage's steps are the count"), voyage.steps() == whole.count);
    if let Some(answer) = program.answer {
        let known = reply == Reply::Stopped && voyage.state().is_ok_and(|state| state.d[..2] == answer);
        checks.holds(&format!("{name}: the voyage ends with the known answer"), known);
    }
    let number = reply.number();
    println!("{name}: budget {n} in ten parts, saved and restored between: reply {number}, {count} steps");
    Ok(())
}

// -- random cuts ----------------------------------------------------------------

const CUTS: u32 = 6_000;
const CUTS_IN_LONG_MEMORY: u32 = 12;
/// The length of the random memories.
const LENGTH: u32 = 4096;

type Start = (Vec<u8>, Vec<u8>);

/// MOVEQ, ADD.L and ADDQ; MOVE.L from and to where An points; BRA, BNE, TRAP, RTE and NOP.
const COMMON: [u16; 12] =
    [0x7001, 0xD081, 0x5280, 0x2010, 0x2218, 0x2081, 0x2101, 0x6002, 0x66FC, 0x4E41, 0x4E73, 0x4E71];
const HALT: u16 = 0x4AC8;

/// A memory with a table of vectors at 0 that leads inside. Then instructions that mostly complete, random
/// words, which make exceptions, and HALT here and there.
fn random_words(r: &mut Random) -> Vec<u8> {
    let mut words: Vec<u16> = Vec::new();
    for _ in 0..64 {
        words.extend([0, (r.below(LENGTH) & !1) as u16]);
    }
    while words.len() < LENGTH as usize / 2 {
        words.push(match r.below(100) {
            0..=69 => r.pick(&COMMON),
            70..=94 => r.word(),
            _ => HALT,
        });
    }
    words.into_iter().flat_map(u16::to_be_bytes).collect()
}

/// A state for such a memory: pointers mostly lead inside it, and VBR mostly to the table.
fn random_state(r: &mut Random) -> State {
    State {
        d: std::array::from_fn(|_| r.long()),
        a: std::array::from_fn(|_| if r.of_100(90) { r.below(LENGTH) & !3 } else { r.long() }),
        pc: (0x100 + r.below(LENGTH - 0x100)) & !1,
        sr: r.word() & 0xB71F,
        other: r.below(LENGTH),
        vbr: if r.of_100(90) { 0 } else { r.long() },
        cacr: r.long(),
        macsr: r.below(0x1000),
        mask: r.long(),
        // 47 bits are in the range of every mode.
        acc: std::array::from_fn(|_| (r.next() >> 17) as i64),
        stopped: r.of_100(5),
    }
}

/// Makes a block that says no state of one that does.
fn spoil(r: &mut Random, block: &mut Vec<u8>) {
    match r.below(7) {
        // Not admitted: by SR, by MACSR, by an accumulator, or by what is to say whether it is stopped.
        0 => block[73] |= r.pick(&[0x08, 0x40]),
        1 => block[89] |= 0x10,
        2 => block[95] = 0x40,
        3 => block[127] = 2 + r.below(254) as u8,
        // The version, the length that the block says, and the length that it has.
        4 => block[0] = r.pick(&[0, 2, 255]),
        5 => block[4] = r.pick(&[0, 122, 124, 128]),
        _ => block.resize(r.pick(&[0, 4, 5, 127, 129, 256]), 0),
    }
}

/// The programs that are kept, at their start.
fn voyages_of_programs() -> Vec<Voyage> {
    let voyage = |program: &Program| {
        let (state, memory, _) = programs::load(program);
        Voyage::new(&state, memory)
    };
    programs::kept().iter().map(voyage).collect()
}

/// A block and a memory: of a program on its way, or of random words. One in four blocks says no state.
fn random_start(r: &mut Random, programs: &mut [Voyage]) -> Start {
    let (mut block, memory) = if r.of_100(40) {
        let voyage = &mut programs[r.below(programs.len() as u32) as usize];
        voyage.part(r.below(5_000));
        (voyage.block().to_vec(), voyage.memory().to_vec())
    } else {
        (random_state(r).to_block().to_vec(), random_words(r))
    };
    if r.of_100(25) {
        spoil(r, &mut block);
    }
    (block, memory)
}

fn random_budget(r: &mut Random) -> u32 {
    if r.of_100(25) {
        0
    } else {
        1 + r.below(30)
    }
}

/// How many cuts were seen, by the reply of the whole run and by whether the second part has budget 0.
type Seen = BTreeMap<(u8, bool), u64>;

fn cut_run(checks: &mut Checks, seen: &mut Seen, what: &str, (block, memory): &Start, [n, m]: [u32; 2]) {
    let whole = single(block, memory, n + m);
    let first = single(block, memory, n);
    if let Ok(state) = State::from_block(&first.block) {
        checks.holds(&format!("{what}: a block is that of its state"), state.to_block()[..] == first.block);
    }
    // On copies: the second part has nothing of the first but the bytes that it left.
    let second = single(&first.block, &first.memory, m);
    *seen.entry((whole.reply.number(), m == 0)).or_insert(0) += 1;
    let expected = Left { reply: second_reply(whole.reply, m), ..whole };
    let cut = Left { count: first.count + second.count, ..second };
    checks.compare(&format!("{what}, budgets {n} and {m}"), &expected, &cut);
}

/// Says what was seen; every reply that a run can have is to be among it.
fn all_kinds_seen(checks: &mut Checks, seen: &Seen) {
    let mut counts = Vec::new();
    for reply in [0, 1, 2, 3, 4, 8, 9] {
        let [zero, more] = [true, false].map(|zero| seen.get(&(reply, zero)).copied().unwrap_or(0));
        checks.holds(&format!("reply {reply} was seen, with m = 0 and with m > 0"), zero > 0 && more > 0);
        counts.push(format!("{reply}: {zero} and {more}"));
    }
    let cuts: u64 = seen.values().sum();
    println!("{cuts} random cuts; by the whole's reply, with m = 0 and with m > 0: {}", counts.join(", "));
}

fn random_cuts(checks: &mut Checks) {
    let mut r = Random::new(1);
    let mut programs = voyages_of_programs();
    let mut seen = Seen::new();
    for number in 0..CUTS {
        let start = random_start(&mut r, &mut programs);
        let budgets = [random_budget(&mut r), random_budget(&mut r)];
        cut_run(checks, &mut seen, &format!("random cut {number}"), &start, budgets);
    }
    for number in 0..CUTS_IN_LONG_MEMORY {
        let (block, mut memory) = random_start(&mut r, &mut programs);
        memory.resize(MEMORY_LIMIT + 1, 0);
        let budgets = [random_budget(&mut r), number % 3];
        let what = format!("cut {number} in a memory that is too long");
        cut_run(checks, &mut seen, &what, &(block, memory), budgets);
    }
    all_kinds_seen(checks, &seen);
}

// -- lists of budgets -------------------------------------------------------------

const LISTS: u32 = 500;

fn go_on(_: &Voyage, _: Part) -> Result<ControlFlow<()>, Infallible> {
    Ok(ControlFlow::Continue(()))
}

/// All budgets at once, against one run of their sum; and how often the closure is called.
fn list_at_once(checks: &mut Checks, what: &str, start: &Voyage, budgets: &[u32]) {
    let expected = single(start.block(), start.memory(), budgets.iter().sum());
    let mut voyage = start.clone();
    let mut replies = Vec::new();
    let after_each = |voyage: &Voyage, part: Part| {
        replies.push(part.reply);
        go_on(voyage, part)
    };
    let whole = voyage.parts(budgets.iter().copied(), after_each).unwrap();
    checks.compare(what, &expected, &Left::of(whole.reply, whole.count, &voyage));
    checks.holds(&format!("{what}: the voyage's steps are the count"), voyage.steps() == expected.count);
    // No part comes after one that was refused.
    let refused = replies.iter().position(|&reply| reply != Reply::Done);
    let parts = refused.map_or(budgets.len(), |at| at + 1);
    checks.holds(&format!("{what}: the closure is called after each part"), replies.len() == parts);
}

/// The closure stops the voyage after the budgets `before`, or fails there. Both leave the same, and the rest
/// of the budgets then leads where all of them would.
fn list_with_stop(checks: &mut Checks, what: &str, start: &Voyage, before: &[u32], rest: &[u32]) {
    let what = format!("{what}, with a stop after {}", before.len());
    let all = || before.iter().chain(rest).copied();
    let mut stopped = start.clone();
    let mut done = 0;
    let stop = |voyage: &Voyage, part: Part| {
        done += 1;
        if done == before.len() {
            Ok(ControlFlow::Break(()))
        } else {
            go_on(voyage, part)
        }
    };
    let first = stopped.parts(all(), stop).unwrap();

    let mut failed = start.clone();
    let mut done = 0;
    let fail = |_: &Voyage, part: Part| {
        done += 1;
        if done == before.len() || part.reply != Reply::Done {
            Err(done)
        } else {
            Ok(ControlFlow::Continue(()))
        }
    };
    let error = failed.parts(all(), fail);
    checks.holds(&format!("{what}: the closure's error comes out"), error == Err(done));
    checks.holds(&format!("{what}: an error leaves the voyage as a stop does"), failed == stopped);

    let second = stopped.parts(rest.iter().copied(), go_on).unwrap();
    let whole = single(start.block(), start.memory(), all().sum());
    let expected = Left { reply: second_reply(whole.reply, rest.iter().sum()), ..whole };
    checks.compare(&what, &expected, &Left::of(second.reply, first.count + second.count, &stopped));
}

fn lists_of_budgets(checks: &mut Checks) {
    let mut r = Random::new(2);
    let mut programs = voyages_of_programs();
    let mut lists = 0;
    while lists < LISTS {
        let (block, memory) = random_start(&mut r, &mut programs);
        // The block of a voyage has 128 bytes, and not each of these has.
        let Ok(block) = <[u8; BLOCK]>::try_from(block) else { continue };
        let start = Voyage::from_block(block, memory);
        let budgets: Vec<u32> = (0..r.below(9)).map(|_| random_budget(&mut r)).collect();
        let what = format!("budgets {budgets:?}, list {lists}");
        list_at_once(checks, &what, &start, &budgets);
        if !budgets.is_empty() {
            let (before, rest) = budgets.split_at(1 + r.below(budgets.len() as u32) as usize);
            list_with_stop(checks, &what, &start, before, rest);
        }
        lists += 1;
    }
    println!("{LISTS} lists of budgets, at once, and with a stop or an error of the closure");
}

// -- saves on disk ----------------------------------------------------------------

/// Every path below a folder, with the bytes of a file.
fn contents(folder: &Path) -> io::Result<BTreeMap<PathBuf, Option<Vec<u8>>>> {
    let mut found = BTreeMap::new();
    for entry in fs::read_dir(folder)? {
        let path = entry?.path();
        if path.is_dir() {
            found.extend(contents(&path)?);
            found.insert(path, None);
        } else {
            found.insert(path.clone(), Some(fs::read(path)?));
        }
    }
    Ok(found)
}

fn names(folder: &Path) -> io::Result<Vec<String>> {
    let name = |entry: io::Result<fs::DirEntry>| Ok(entry?.file_name().to_string_lossy().into_owned());
    let mut names = fs::read_dir(folder)?.map(name).collect::<io::Result<Vec<String>>>()?;
    names.sort();
    Ok(names)
}

/// The restore fails with this kind and names this path, and nothing in the folder changes.
fn refused(checks: &mut Checks, what: &str, folder: &Path, kind: ErrorKind, named: &Path) -> io::Result<()> {
    let before = contents(folder)?;
    let (got, said) = match Voyage::restore(folder) {
        Ok(_) => (None, String::from("restored")),
        Err(error) => (Some(error.kind()), error.to_string()),
    };
    println!("{what}: {said}");
    let right = got == Some(kind) && said.starts_with(&format!("{}: ", named.display()));
    checks.holds(&format!("{what}: the restore fails with {kind:?} and names {}", named.display()), right);
    checks.holds(&format!("{what}: the restore changes nothing in the folder"), contents(folder)? == before);
    Ok(())
}

/// Without a save nothing is restored, and without a number nothing is saved.
fn no_save(checks: &mut Checks, voyage: &Voyage, parent: &Path) -> io::Result<()> {
    let empty = new_folder(parent, "empty")?;
    refused(checks, "an empty folder", &empty, ErrorKind::NotFound, &empty)?;
    let missing = parent.join("missing");
    let kind = |error: io::Error| error.kind() == ErrorKind::NotFound;
    checks.holds("without the folder a save answers NotFound", voyage.save(&missing).is_err_and(kind));
    checks.holds("without the folder a restore answers NotFound", Voyage::restore(&missing).is_err_and(kind));
    let full = new_folder(parent, "full")?;
    fs::create_dir(full.join(u64::MAX.to_string()))?;
    checks.holds("no save has a number above the highest", voyage.save(&full).is_err());
    println!("a folder that is not there, and one without a number left: the save answers an error");
    Ok(())
}

/// A save that lacks a file, or has one with other bytes, is not restored. The next save works.
fn damaged_saves(checks: &mut Checks, voyage: &Voyage, parent: &Path) -> io::Result<()> {
    let (state, memory) = (voyage.block(), voyage.memory());
    let [long_state, long_memory] = [&state[..], memory].map(|bytes| [bytes, &[0]].concat());
    let last = memory.len() - 1;
    let mut changed = memory.to_vec();
    changed[last] ^= 1;
    let mut later = voyage.clone();
    later.part(SECOND);
    let later_steps = format!("{}\n", later.steps());
    // What a file is then (none where it is removed), and what the error names: that file, or the whole save.
    let damages: [(&str, &str, Option<&[u8]>, ErrorKind, &str); 17] = [
        ("a state of 127 bytes", "state", Some(&state[..127]), ErrorKind::InvalidData, "1/state"),
        ("a state of 129 bytes", "state", Some(&long_state), ErrorKind::InvalidData, "1/state"),
        ("the state of a later save", "state", Some(later.block()), ErrorKind::InvalidData, "1"),
        ("no state", "state", None, ErrorKind::NotFound, "1/state"),
        ("a memory cut short", "memory", Some(&memory[..last]), ErrorKind::InvalidData, "1"),
        ("a memory with a byte more", "memory", Some(&long_memory), ErrorKind::InvalidData, "1"),
        ("a memory with another bit", "memory", Some(&changed), ErrorKind::InvalidData, "1"),
        ("the memory of a later save", "memory", Some(later.memory()), ErrorKind::InvalidData, "1"),
        ("no memory", "memory", None, ErrorKind::NotFound, "1/memory"),
        ("steps with letters", "steps", Some(b"12a\n"), ErrorKind::InvalidData, "1/steps"),
        ("steps without LF", "steps", Some(b"12"), ErrorKind::InvalidData, "1/steps"),
        ("empty steps", "steps", Some(b""), ErrorKind::InvalidData, "1/steps"),
        ("the steps of a later save", "steps", Some(later_steps.as_bytes()), ErrorKind::InvalidData, "1"),
        ("no steps", "steps", None, ErrorKind::NotFound, "1/steps"),
        ("another sum", "sum", Some(b"0123456789abcdef\n"), ErrorKind::InvalidData, "1"),
        ("an empty sum", "sum", Some(b""), ErrorKind::InvalidData, "1"),
        ("no sum", "sum", None, ErrorKind::NotFound, "1/sum"),
    ];
    for (what, file, bytes, kind, named) in damages {
        let folder = new_folder(parent, what)?;
        voyage.save(&folder)?;
        let path = folder.join("1").join(file);
        match bytes {
            Some(bytes) => fs::write(&path, bytes)?,
            None => fs::remove_file(&path)?,
        }
        refused(checks, what, &folder, kind, &folder.join(named))?;
        voyage.save(&folder)?;
        checks.holds(&format!("{what}: the next save works"), Voyage::restore(&folder)? == *voyage);
    }
    Ok(())
}

/// What a killed process can leave, and names that are not of a save. The restore takes the last whole save,
/// and the next save removes what is older and what is half.
fn leftovers(checks: &mut Checks, voyage: &Voyage, folder: &Path) -> io::Result<()> {
    // The whole save is 10. A restore that takes names for words, and not for numbers, would take 9.
    voyage.save(folder)?;
    fs::rename(folder.join("1"), folder.join("10"))?;
    for half in ["11.new", "9", "4.new"] {
        fs::create_dir(folder.join(half))?;
        fs::write(folder.join(half).join("state"), [0; BLOCK])?;
    }
    let strange = ["notes", "007", "+12", "12.old", "x.new"];
    for name in strange {
        fs::create_dir(folder.join(name))?;
    }
    // A file cannot be removed as a save is. So it stays, which is no error.
    fs::write(folder.join("3"), "")?;
    let before = contents(folder)?;
    checks.holds("half saves are not taken", Voyage::restore(folder)? == *voyage);
    checks.holds("a restore leaves half saves as they are", contents(folder)? == before);

    let mut later = voyage.clone();
    later.part(1);
    later.save(folder)?;
    checks.holds("a save after half ones is taken", Voyage::restore(folder)? == later);
    let mut expected = [&strange[..], &["11", "3"]].concat();
    expected.sort();
    let left = names(folder)?;
    checks.holds(&format!("a save leaves {expected:?}, and not {left:?}"), left == expected);
    println!("beside half saves and strange names the last whole save is taken; the next leaves {left:?}");
    Ok(())
}

/// A voyage is restored as it was saved: also with a block that says no state, with no memory, and with one
/// that is too long.
fn any_voyage(checks: &mut Checks, folder: &Path) -> io::Result<()> {
    let block: [u8; BLOCK] = std::array::from_fn(|i| i as u8);
    for length in [0, 1, MEMORY_LIMIT + 1] {
        let memory = (0..length).map(|i| (i % 251) as u8).collect();
        let voyage = Voyage::from_block(block, memory);
        voyage.save(folder)?;
        checks.holds(&format!("a memory of {length} bytes comes back"), Voyage::restore(folder)? == voyage);
    }
    println!("memories of 0, 1 and {} bytes, with a block that says no state: restored", MEMORY_LIMIT + 1);
    Ok(())
}

/// An interrupt between two parts, and a save after it: as the same calls on a block and a memory.
fn interrupt_between(checks: &mut Checks, start: &Voyage, folder: &Path) -> io::Result<()> {
    let (mut block, mut memory) = (*start.block(), start.memory().to_vec());
    // The program's handler of TRAP #0 takes it, and returns.
    let (vector, level) = (32, 7);
    let entered = interrupt(&mut block, &mut memory, vector, level);
    checks.holds("an interrupt of level 7 is taken", entered == Reply::Done);
    let (reply, count) = run(&mut block, &mut memory, SECOND);
    checks.holds("the program goes on after it", count == SECOND);
    let expected = Left { reply, count: count as u64, block: block.to_vec(), memory };

    let mut voyage = start.clone();
    let (block, memory) = voyage.block_and_memory();
    checks.holds("it is taken between two parts", interrupt(block, memory, vector, level) == Reply::Done);
    voyage.save(folder)?;
    let mut voyage = Voyage::restore(folder)?;
    let part = voyage.part(SECOND);
    let cut = Left::of(part.reply, part.count as u64, &voyage);
    checks.compare("an interrupt between two parts", &expected, &cut);
    println!("an interrupt between two parts, saved and restored: {count} steps after it");
    Ok(())
}

// -- a save that fails --------------------------------------------------------------

/// A program that ends after more steps than these.
const PROGRAM: &str = "start-handlers";
const FIRST: u32 = 100_000;
const SECOND: u32 = 50_000;

fn program() -> Program {
    programs::kept().into_iter().find(|program| program.name == PROGRAM).expect("the program is kept")
}

/// The voyage as it was when the first part was saved.
fn after_first_part() -> Voyage {
    let (state, memory, _) = programs::load(&program());
    let mut voyage = Voyage::new(&state, memory);
    voyage.part(FIRST);
    voyage
}

fn begin(folder: &Path) -> io::Result<i32> {
    after_first_part().save(folder)?;
    Ok(0)
}

/// Under a limit on the size of files: the save is to answer an error, or never to come back.
fn fail(folder: &Path) -> io::Result<i32> {
    let mut voyage = Voyage::restore(folder)?;
    voyage.part(SECOND);
    let saved = voyage.save(folder);
    match &saved {
        Ok(()) => println!("the save was to fail, and did not"),
        Err(error) => println!("{error}"),
    }
    Ok(saved.is_ok() as i32)
}

/// The save before the failed one is there, and the voyage goes on from it to its end with saves that work.
fn end(folder: &Path) -> io::Result<i32> {
    let mut checks = Checks::default();
    let mut voyage = Voyage::restore(folder)?;
    checks.holds("the save before the failed one is restored as it was", voyage == after_first_part());
    voyage.part(SECOND);
    voyage.save(folder)?;
    checks.holds("a later save works, and stands alone", names(folder)? == ["2"]);
    let mut restored = Voyage::restore(folder)?;
    checks.holds("the later save is restored as it was", restored == voyage);

    let (state, memory, budget) = programs::load(&program());
    let part = restored.part(budget);
    let cut = Left::of(part.reply, restored.steps(), &restored);
    checks.compare("the voyage with a failed save", &single(&state.to_block(), &memory, budget), &cut);
    Ok((checks.differ > 0) as i32)
}

// -- all of it --------------------------------------------------------------------

fn all(folder: &Path) -> io::Result<i32> {
    let mut checks = Checks::default();
    for program in programs::kept() {
        program_in_parts(&mut checks, &program, &new_folder(folder, program.name)?)?;
    }
    random_cuts(&mut checks);
    lists_of_budgets(&mut checks);
    no_save(&mut checks, &after_first_part(), folder)?;
    damaged_saves(&mut checks, &after_first_part(), &new_folder(folder, "damaged")?)?;
    leftovers(&mut checks, &after_first_part(), &new_folder(folder, "leftovers")?)?;
    any_voyage(&mut checks, &new_folder(folder, "any")?)?;
    interrupt_between(&mut checks, &after_first_part(), &new_folder(folder, "interrupt")?)?;
    include!("../voyage_example.rs");
    println!("the example of the documentation ran");
    println!("voyages: {} cut runs, {} differ", checks.cut, checks.differ);
    Ok((checks.differ > 0) as i32)
}

#[no_mangle]
pub extern "C" fn main() -> i32 {
    let words: Vec<String> = std::env::args().skip(1).collect();
    let answer = match words.iter().map(String::as_str).collect::<Vec<&str>>()[..] {
        ["begin", folder] => begin(Path::new(folder)),
        ["fail", folder] => fail(Path::new(folder)),
        ["end", folder] => end(Path::new(folder)),
        [folder] => all(Path::new(folder)),
        _ => {
            eprintln!("use: voyage [begin|fail|end] FOLDER");
            return 2;
        }
    };
    answer.unwrap_or_else(|error| {
        println!("a save or a restore failed: {error}");
        1
    })
}
