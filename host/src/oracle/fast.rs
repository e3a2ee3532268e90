//! Names that the original's text needs to compile. `execute` uses none of them.

use crate::cpu::Cpu;

pub type Handler = extern "C" fn(&mut Cpu, &Op);

pub struct Op {
    pub h: Handler,
    pub len: u8,
}

pub fn decode(_c: &Cpu, _pc: u32) -> Op {
    unreachable!("the oracle calls execute")
}

pub fn build_block(_c: &mut Cpu, _pc: u32) -> usize {
    unreachable!("the oracle calls execute")
}
