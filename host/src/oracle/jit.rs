//! Names that the original's text needs to compile. `execute` uses none of them.

use crate::bus::Bus;
use crate::cpu::Cpu;
use crate::fast::Op;
use std::sync::atomic::AtomicU64;

pub type BlockFn = unsafe extern "C" fn(*mut Cpu);
pub const HOT: u32 = 256;

pub struct Mem {
    pub macsr: u32,
}

impl Mem {
    pub fn of(_bus: &mut Bus) -> Mem {
        Mem { macsr: 0 }
    }
}

pub struct Jit {
    pub epoch: u64,
    pub compiled: u64,
    pub failed: u64,
    pub compile_secs: f64,
}

impl Jit {
    pub fn reset(&mut self, _epoch: u64) {}
    pub fn compile(&mut self, _pc: u32, _ops: &[Op], _mem: Mem) -> Option<BlockFn> {
        None
    }
}

pub struct Stats {
    pub compiled: AtomicU64,
    pub failed: AtomicU64,
    pub nanos: AtomicU64,
}

pub struct Done {
    pub idx: usize,
    pub epoch: u64,
    pub f: Option<BlockFn>,
}

pub struct Worker {
    pub stats: Stats,
}

impl Worker {
    pub fn queue(&self, _idx: usize, _epoch: u64, _pc: u32, _ops: &[Op], _mem: Mem) {}
    pub fn poll(&self) -> std::vec::IntoIter<Done> {
        Vec::new().into_iter()
    }
}
