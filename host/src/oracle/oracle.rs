//! What each call must answer: the original's `execute`, `exception`, `interrupt` and `rte`, with the
//! paper's replies around them. In one place the answer is the paper's alone: `difference_60`.

use crate::bus::Bus;
use crate::cpu::Cpu;
use host::{Reply, State, MEMORY_LIMIT};

/// Difference 60: MOVEC as supervisor, its second word inside, of a number that is neither CACR's nor VBR's. The core has no such
/// register and enters vector 4; the original keeps a long for each number, and the other stack pointer for 0x800. So it is not
/// asked there. Its own answers to a second word that is not inside, and to a user, stand.
pub fn difference_60(s: &State, mem: &[u8]) -> bool {
    let word = |at: u32| mem.get(at as usize..at as usize + 2).map(|b| u16::from_be_bytes([b[0], b[1]]));
    let (Some(0x4E7A | 0x4E7B), Some(second)) = (word(s.pc), word(s.pc.wrapping_add(2))) else { return false };
    s.sr & 0x2000 != 0 && !matches!(second & 0x0FFF, 0x002 | 0x801)
}

pub struct Oracle {
    cpu: Cpu,
}

impl Oracle {
    pub fn new() -> Oracle {
        Oracle { cpu: Cpu::new(Bus::new()) }
    }

    fn set(&mut self, s: &State) {
        let c = &mut self.cpu;
        c.d = s.d;
        c.a = s.a;
        c.pc = s.pc;
        c.sr = s.sr;
        c.other_sp = s.other;
        c.vbr = s.vbr;
        c.cacr = s.cacr;
        c.macsr = s.macsr;
        c.mask = s.mask;
        c.accv = s.acc;
        c.stopped = s.stopped;
        c.op_pc = s.pc;
        c.bus.outside = false;
        c.last_fault = None;
        c.fault_log.clear();
    }

    fn get(&self) -> State {
        let c = &self.cpu;
        State {
            d: c.d,
            a: c.a,
            pc: c.pc,
            sr: c.sr,
            other: c.other_sp,
            vbr: c.vbr,
            cacr: c.cacr,
            macsr: c.macsr,
            mask: c.mask,
            acc: c.accv,
            stopped: c.stopped,
        }
    }

    /// Replies 9, 8, 9, 1 and 2, in this order.
    fn opened(block: &[u8], mem: &[u8]) -> Result<State, Reply> {
        match State::from_block(block) {
            Err(r) if r != Reply::NotAdmitted => Err(r),
            _ if mem.len() > MEMORY_LIMIT => Err(Reply::MemoryTooLong),
            other => other,
        }
    }

    /// Gives the original a memory.
    fn load(&mut self, mem: &[u8]) {
        self.cpu.bus.mem.clear();
        self.cpu.bus.mem.extend_from_slice(mem);
    }

    /// Do `f` on the original with this state and the memory that it has: the state after it, or, where an
    /// access was not inside, reply 4. Other stores were then done, and the memory is of no use.
    fn perform(&mut self, s: &State, f: impl FnOnce(&mut Cpu)) -> Result<State, Reply> {
        self.set(s);
        f(&mut self.cpu);
        if self.cpu.bus.outside {
            return Err(Reply::Outside);
        }
        Ok(self.get())
    }

    /// A step on the memory that the original has.
    fn one(&mut self, s: &State) -> Result<(State, u8), Reply> {
        if s.stopped {
            return Err(Reply::Stopped);
        }
        self.cpu.exc_counts = [0; 256];
        let after = if difference_60(s, &self.cpu.bus.mem) {
            self.perform(s, |c| c.exception(4, s.pc, None))?
        } else {
            self.perform(s, |c| c.execute())?
        };
        let entered = self.cpu.exc_counts.iter().position(|&n| n != 0).unwrap_or(0);
        Ok((after, entered as u8))
    }

    pub fn step(&mut self, block: &mut [u8], mem: &mut [u8]) -> (Reply, u64) {
        let opened = Self::opened(block, mem);
        let answer = opened.and_then(|s| {
            self.load(mem);
            self.one(&s)
        });
        match answer {
            Ok((s, vector)) => {
                mem.copy_from_slice(&self.cpu.bus.mem);
                block.copy_from_slice(&s.to_block());
                (Reply::Done, vector as u64)
            }
            Err(r) => (r, 0),
        }
    }

    pub fn run(&mut self, block: &mut [u8], mem: &mut [u8], budget: u32) -> (Reply, u64) {
        let s = match Self::opened(block, mem) {
            Ok(s) => s,
            Err(r) => return (r, 0),
        };
        let (mut after, done, answer) = self.steps(&s, mem, budget);
        if answer == Reply::Outside {
            // For the memory: those that were completed, once more.
            after = self.steps(&s, mem, done).0;
        }
        mem.copy_from_slice(&self.cpu.bus.mem);
        block.copy_from_slice(&after.to_block());
        (answer, done as u64)
    }

    /// Steps until one is refused: the state before that, how many were done, and the refusal.
    fn steps(&mut self, s: &State, mem: &[u8], budget: u32) -> (State, u32, Reply) {
        self.load(mem);
        let mut s = s.clone();
        for done in 0..budget {
            match self.one(&s) {
                Ok((after, _)) => s = after,
                Err(r) => return (s, done, r),
            }
        }
        (s, budget, Reply::Done)
    }

    /// A call that is not a step: `f` on the original, or its refusal.
    fn call(&mut self, block: &mut [u8], mem: &mut [u8], f: impl FnOnce(&mut Cpu) -> Option<Reply>) -> (Reply, u64) {
        let mut refusal = None;
        let before = match Self::opened(block, mem) {
            Ok(s) => s,
            Err(r) => return (r, 0),
        };
        self.load(mem);
        let after = self.perform(&before, |c| refusal = f(c));
        match (refusal, after) {
            (Some(r), _) | (None, Err(r)) => (r, 0),
            (None, Ok(s)) => {
                mem.copy_from_slice(&self.cpu.bus.mem);
                block.copy_from_slice(&s.to_block());
                (Reply::Done, 0)
            }
        }
    }

    pub fn exception(&mut self, block: &mut [u8], mem: &mut [u8], vector: u8, pc: u32) -> (Reply, u64) {
        self.call(block, mem, |c| {
            c.exception(vector, pc, None);
            None
        })
    }

    pub fn exception_at(&mut self, block: &mut [u8], mem: &mut [u8], vector: u8, pc: u32, level: u8) -> (Reply, u64) {
        self.call(block, mem, |c| {
            if level > 7 {
                return Some(Reply::BadNumber);
            }
            c.exception(vector, pc, Some(level));
            None
        })
    }

    pub fn interrupt(&mut self, block: &mut [u8], mem: &mut [u8], vector: u8, level: u8) -> (Reply, u64) {
        self.call(block, mem, |c| {
            if level > 7 {
                return Some(Reply::BadNumber);
            }
            (!c.interrupt(vector, level)).then_some(Reply::Masked)
        })
    }

    pub fn rte(&mut self, block: &mut [u8], mem: &mut [u8]) -> (Reply, u64) {
        self.call(block, mem, |c| {
            c.rte();
            None
        })
    }
}
