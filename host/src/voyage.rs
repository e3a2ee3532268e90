//! Runs in parts, with a break between two of them: the voyage, and its saves on disk.

use crate::{run, Reply, State, BLOCK};
use std::fs::{self, File};
use std::io::{self, Write};
use std::ops::ControlFlow;
use std::path::{Path, PathBuf};

/// What one part of a voyage answers.
#[derive(Clone, Copy, Debug, PartialEq, Eq)]
pub struct Part {
    /// The reply of its run.
    pub reply: Reply,
    /// How many steps this part has done.
    pub count: u32,
}

/// What several parts answer together: the same as one run of the sum of their budgets.
#[derive(Clone, Copy, Debug, PartialEq, Eq)]
pub struct Whole {
    /// The reply of the last of them.
    pub reply: Reply,
    /// How many steps these parts have done.
    pub count: u64,
}

/// A run that is made in parts and can be saved between them: a state block, a memory, and the
/// number of steps done so far.
///
/// A part of n and then one of m leave the state and the memory of one run of n + m, and the sum of
/// their counts is its count. The second part also has its reply where m is at least 1. A part of
/// budget 0 replies [`Reply::Done`], except where a run replies 1, 2, 8 or 9: then every part does.
/// A break between the parts changes nothing in this.
///
/// ```
#[doc = include_str!("voyage_example.rs")]
/// ```
///
/// # What a save is
///
/// A folder has the saves of one voyage, and one process at a time saves to it. Each save is a folder in
/// it, named by a number, with four files:
///
/// | file | holds |
/// |---|---|
/// | `state` | the state block, 128 bytes |
/// | `memory` | the memory's bytes |
/// | `steps` | the number of steps done, in decimal, and LF |
/// | `sum` | a checksum of the other three, 16 hexadecimal digits, and LF |
///
/// The highest number counts. A save is written under its number and `.new`, and has its own name only
/// when all of it is on the disk. So state and memory are always of the same moment, and the sum tells
/// where a copy of them is not. Names other than these are left alone.
#[derive(Clone, Debug, PartialEq, Eq)]
pub struct Voyage {
    block: [u8; BLOCK],
    memory: Vec<u8>,
    steps: u64,
}

const STATE: &str = "state";
const MEMORY: &str = "memory";
const STEPS: &str = "steps";
const SUM: &str = "sum";
/// What follows the number of a save that is not whole yet.
const UNFINISHED: &str = ".new";

impl Voyage {
    /// A voyage from this state, with no step done.
    pub fn new(state: &State, memory: Vec<u8>) -> Voyage {
        Voyage::from_block(state.to_block(), memory)
    }

    /// A voyage from a block as it is, with no step done. Where the block says no state, each part
    /// replies so.
    pub fn from_block(block: [u8; BLOCK], memory: Vec<u8>) -> Voyage {
        Voyage { block, memory, steps: 0 }
    }

    /// The state block.
    pub fn block(&self) -> &[u8; BLOCK] {
        &self.block
    }

    /// The state, or the reply where the block says none.
    pub fn state(&self) -> Result<State, Reply> {
        State::from_block(&self.block)
    }

    /// The memory.
    pub fn memory(&self) -> &[u8] {
        &self.memory
    }

    /// The block and the memory, for what is done between two parts: an interrupt, or bytes that come in.
    /// A call of `step` or `run` on them is not among [`Voyage::steps`].
    pub fn block_and_memory(&mut self) -> (&mut [u8; BLOCK], &mut [u8]) {
        (&mut self.block, &mut self.memory)
    }

    /// How many steps have been done in all, those before a restore too.
    pub fn steps(&self) -> u64 {
        self.steps
    }

    /// One part: up to `budget` steps, as [`run`] does them.
    pub fn part(&mut self, budget: u32) -> Part {
        let (reply, count) = run(&mut self.block, &mut self.memory, budget);
        self.steps = self.steps.saturating_add(count as u64);
        Part { reply, count }
    }

    /// Parts of these budgets, one after the other. `after_each` is called after every part, also after
    /// the last, and may save the voyage or stop it.
    ///
    /// It ends after the first part whose reply is not [`Reply::Done`]: no further budget would change
    /// anything. It also ends where `after_each` breaks, and where the budgets are used up. The answer is
    /// that of one run of the sum of the budgets, after a break of those until then. The sum of none is 0.
    ///
    /// An error of `after_each` ends it too and is the answer. The voyage is then as the last part has
    /// left it, and can go on.
    pub fn parts<E>(
        &mut self,
        budgets: impl IntoIterator<Item = u32>,
        mut after_each: impl FnMut(&Voyage, Part) -> Result<ControlFlow<()>, E>,
    ) -> Result<Whole, E> {
        let mut whole = Whole { reply: self.part(0).reply, count: 0 };
        for budget in budgets {
            let part = self.part(budget);
            // All parts before were done, so the whole has the reply of this one, also with budget 0.
            whole = Whole { reply: part.reply, count: whole.count + part.count as u64 };
            if after_each(self, part)?.is_break() || part.reply != Reply::Done {
                break;
            }
        }
        Ok(whole)
    }

    /// Saves the voyage in a folder, which is to be there, and removes the older saves.
    ///
    /// Where this fails, or the process is killed, the save before is whole and counts, and the next save
    /// works. Once the new one is whole and has its name, it is the new one that counts: then only the
    /// folder's own sync can fail. An older save that cannot be removed is no error.
    pub fn save(&self, folder: &Path) -> io::Result<()> {
        let number = next_number(folder)?;
        let unfinished = folder.join(format!("{number}{UNFINISHED}"));
        // What a killed process has left here. Where it cannot be removed, the write fails.
        let _ = fs::remove_dir_all(&unfinished);
        let written = self.write(&unfinished);
        if written.is_err() {
            // The disk may be full. What stays is removed by the next save.
            let _ = fs::remove_dir_all(&unfinished);
        }
        written?;
        // The one moment at which the new save begins to count: all of it is on the disk.
        fs::rename(&unfinished, folder.join(number.to_string())).map_err(naming(&unfinished))?;
        sync_folder(folder)?;
        remove_others(folder, number);
        Ok(())
    }

    /// Writes the files to a new folder, and waits until they are on the disk.
    fn write(&self, folder: &Path) -> io::Result<()> {
        fs::create_dir(folder).map_err(naming(folder))?;
        write_file(&folder.join(STATE), &self.block)?;
        write_file(&folder.join(MEMORY), &self.memory)?;
        write_file(&folder.join(STEPS), format!("{}\n", self.steps).as_bytes())?;
        write_file(&folder.join(SUM), self.sum().as_bytes())?;
        sync_folder(folder)
    }

    /// What the file `sum` holds: FNV-1a, in 64 bits, of block, steps and memory.
    fn sum(&self) -> String {
        let steps = self.steps.to_be_bytes();
        let bytes = self.block.iter().chain(&steps).chain(&self.memory);
        let add = |sum: u64, &byte: &u8| (sum ^ byte as u64).wrapping_mul(0x100_0000_01B3);
        format!("{:016x}\n", bytes.fold(0xCBF2_9CE4_8422_2325, add))
    }

    /// The voyage of the last whole save in a folder. Changes nothing there.
    ///
    /// Without a save the error is of the kind [`io::ErrorKind::NotFound`]. Where `state` has not 128 bytes,
    /// or `steps` is not a number and LF, it is [`io::ErrorKind::InvalidData`]. So it is where the files are
    /// not those that were saved together, by their sum: one was cut, changed, or taken from another save.
    /// The block is not judged. Every error names the file, or the save.
    pub fn restore(folder: &Path) -> io::Result<Voyage> {
        let Some(number) = highest_number(folder)? else {
            return Err(naming(folder)(io::Error::new(io::ErrorKind::NotFound, "no save is in this folder")));
        };
        let save = folder.join(number.to_string());
        let voyage = Voyage {
            block: read_block(&save.join(STATE))?,
            memory: read_file(&save.join(MEMORY))?,
            steps: read_steps(&save.join(STEPS))?,
        };
        if read_file(&save.join(SUM))? != voyage.sum().as_bytes() {
            return Err(invalid(&save, String::from("its files are not those that were saved together")));
        }
        Ok(voyage)
    }
}

/// The same error with the path in its message.
fn naming(path: &Path) -> impl FnOnce(io::Error) -> io::Error + '_ {
    move |error| io::Error::new(error.kind(), format!("{}: {error}", path.display()))
}

fn invalid(path: &Path, message: String) -> io::Error {
    naming(path)(io::Error::new(io::ErrorKind::InvalidData, message))
}

fn write_file(path: &Path, bytes: &[u8]) -> io::Result<()> {
    let write = || {
        let mut file = File::create(path)?;
        file.write_all(bytes)?;
        file.sync_all()
    };
    write().map_err(naming(path))
}

/// Waits until the names in a folder are on the disk.
fn sync_folder(folder: &Path) -> io::Result<()> {
    File::open(folder).and_then(|opened| opened.sync_all()).map_err(naming(folder))
}

fn read_file(path: &Path) -> io::Result<Vec<u8>> {
    fs::read(path).map_err(naming(path))
}

fn read_block(path: &Path) -> io::Result<[u8; BLOCK]> {
    let bytes = read_file(path)?;
    let length = bytes.len();
    bytes
        .try_into()
        .map_err(|_| invalid(path, format!("it has {length} bytes, and a state block has {BLOCK}")))
}

fn read_steps(path: &Path) -> io::Result<u64> {
    let bytes = read_file(path)?;
    let line = std::str::from_utf8(&bytes).ok().and_then(|text| text.strip_suffix('\n'));
    line.and_then(decimal).ok_or_else(|| invalid(path, String::from("it is not a number and LF")))
}

/// The number that is written so: in decimal, with no sign and no zero before it.
fn decimal(text: &str) -> Option<u64> {
    text.parse().ok().filter(|number: &u64| number.to_string() == text)
}

/// The paths in a folder, each with its name. A name that is not UTF-8 is none of ours.
fn entries(folder: &Path) -> io::Result<Vec<(String, PathBuf)>> {
    let mut found = Vec::new();
    for entry in fs::read_dir(folder).map_err(naming(folder))? {
        let entry = entry.map_err(naming(folder))?;
        if let Ok(name) = entry.file_name().into_string() {
            found.push((name, entry.path()));
        }
    }
    Ok(found)
}

fn highest_number(folder: &Path) -> io::Result<Option<u64>> {
    Ok(entries(folder)?.iter().filter_map(|(name, _)| decimal(name)).max())
}

fn next_number(folder: &Path) -> io::Result<u64> {
    let highest = highest_number(folder)?.unwrap_or(0);
    highest
        .checked_add(1)
        .ok_or_else(|| invalid(folder, format!("no number is above that of the save {highest}")))
}

/// Removes the saves below this number, and those that were never whole. What cannot be removed stays:
/// it counts no more, and the next save tries again.
fn remove_others(folder: &Path, number: u64) {
    for (name, path) in entries(folder).unwrap_or_default() {
        let older = decimal(&name).is_some_and(|other| other < number);
        let unfinished = name.strip_suffix(UNFINISHED).and_then(decimal).is_some();
        if older || unfinished {
            let _ = fs::remove_dir_all(path);
        }
    }
}
