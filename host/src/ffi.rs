//! The functions of `libharness.a`, as crates/harness_c exports them. Nothing checks these
//! declarations against its source: they stand here alone, and `lib.rs` alone calls them.
//!
//! A lent slice is a pointer and a length in bytes. The functions keep no pointer.

extern "C" {
    /// Reply + 256 * vector.
    pub fn step(block: *mut u8, block_len: usize, mem: *mut u8, mem_len: usize) -> u32;
    /// Reply + 256 * steps done.
    pub fn run(block: *mut u8, block_len: usize, mem: *mut u8, mem_len: usize, budget: u32) -> u64;
    /// The reply.
    pub fn rte(block: *mut u8, block_len: usize, mem: *mut u8, mem_len: usize) -> u32;
    /// The reply. The interrupt mask stays.
    pub fn exception(block: *mut u8, block_len: usize, mem: *mut u8, mem_len: usize, vector: u8, pc: u32) -> u32;
    /// The reply. The interrupt mask becomes the level.
    pub fn exception_at(
        block: *mut u8,
        block_len: usize,
        mem: *mut u8,
        mem_len: usize,
        vector: u8,
        pc: u32,
        level: u8,
    ) -> u32;
    /// The reply.
    pub fn interrupt(block: *mut u8, block_len: usize, mem: *mut u8, mem_len: usize, vector: u8, level: u8) -> u32;
    /// Reply + 256 * start address. The text is only read.
    pub fn srecord_read(text: *const u8, text_len: usize, mem: *mut u8, mem_len: usize) -> u64;
    /// Reply + 256 * length of the text. The memory is only read.
    pub fn srecord_write(
        mem: *const u8,
        mem_len: usize,
        from: u32,
        count: u32,
        start: u32,
        text: *mut u8,
        text_len: usize,
    ) -> u64;
}
