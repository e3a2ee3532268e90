//! A ColdFire core over lent memory, for Rust programs: safe functions over `libharness.a`.
//!
//! The state of the core is a block of 128 bytes ([`State`] writes and reads it), the memory a byte
//! slice from address 0, big-endian, of at most 16,777,216 bytes. After [`Reply::Done`] the block
//! holds the new state (in a run also after a refused step: the state after the steps done);
//! otherwise block and memory are as they were. [`srecord_read`] and [`srecord_write`] fill a memory
//! from Motorola S-records and write them of it; they take no block. [`Voyage`] is a run that is made
//! in parts, and saved to disk and restored between them.
//!
//! ```
#![doc = include_str!("example.rs")]
//! ```

mod ffi;
mod voyage;

pub use voyage::{Part, Voyage, Whole};

/// The bytes of a state block.
pub const BLOCK: usize = 128;
/// The longest memory, in bytes.
pub const MEMORY_LIMIT: usize = 16_777_216;

/// What a call answers; the numbers are the paper's.
#[derive(Clone, Copy, Debug, PartialEq, Eq, Hash, PartialOrd, Ord)]
#[repr(u8)]
pub enum Reply {
    Done = 0,
    MemoryTooLong = 1,
    NotAdmitted = 2,
    Stopped = 3,
    Outside = 4,
    NotCarried = 5,
    BadNumber = 6,
    Masked = 7,
    BadVersion = 8,
    BadLength = 9,
    Malformed = 10,
    WrongSum = 11,
    NoRoom = 16,
}

impl Reply {
    /// Every reply, by its number; the numbers have gaps.
    pub const ALL: [Reply; 13] = [
        Reply::Done,
        Reply::MemoryTooLong,
        Reply::NotAdmitted,
        Reply::Stopped,
        Reply::Outside,
        Reply::NotCarried,
        Reply::BadNumber,
        Reply::Masked,
        Reply::BadVersion,
        Reply::BadLength,
        Reply::Malformed,
        Reply::WrongSum,
        Reply::NoRoom,
    ];

    pub fn number(self) -> u8 {
        self as u8
    }

    /// The reply that has this number, if one has.
    pub fn of_number(n: u64) -> Option<Reply> {
        Reply::ALL.into_iter().find(|r| r.number() as u64 == n)
    }
}

fn reply(n: u64) -> Reply {
    Reply::of_number(n).expect("the archive answers the number of a reply")
}

/// The state of the core.
#[derive(Clone, Debug, PartialEq, Eq)]
pub struct State {
    pub d: [u32; 8],
    pub a: [u32; 8],
    pub pc: u32,
    pub sr: u16,
    /// The inactive stack pointer.
    pub other: u32,
    pub vbr: u32,
    pub cacr: u32,
    pub macsr: u32,
    pub mask: u32,
    pub acc: [i64; 4],
    pub stopped: bool,
}

impl State {
    /// All 0 but MASK, which is all ones.
    pub fn fresh() -> State {
        State {
            d: [0; 8],
            a: [0; 8],
            pc: 0,
            sr: 0,
            other: 0,
            vbr: 0,
            cacr: 0,
            macsr: 0,
            mask: 0xFFFF_FFFF,
            acc: [0; 4],
            stopped: false,
        }
    }

    /// Whether SR, MACSR and the accumulators are ones that a core can have.
    pub fn admitted(&self) -> bool {
        let unsigned = self.macsr & 0x60 == 0x40;
        let (low, high) = if unsigned { (0, (1i64 << 48) - 1) } else { (-(1i64 << 47), (1i64 << 47) - 1) };
        self.sr & !0xB71F == 0 && self.macsr <= 0xFFF && self.acc.iter().all(|v| (low..=high).contains(v))
    }

    /// The block of this state: version 1, length 123, then the registers, big-endian.
    pub fn to_block(&self) -> [u8; BLOCK] {
        let mut bytes = Vec::with_capacity(BLOCK);
        bytes.push(1);
        bytes.extend_from_slice(&123u32.to_be_bytes());
        for v in self.d.iter().chain(&self.a).chain([&self.pc]) {
            bytes.extend_from_slice(&v.to_be_bytes());
        }
        bytes.extend_from_slice(&self.sr.to_be_bytes());
        for v in [self.other, self.vbr, self.cacr, self.macsr, self.mask] {
            bytes.extend_from_slice(&v.to_be_bytes());
        }
        for v in self.acc {
            bytes.extend_from_slice(&v.to_be_bytes());
        }
        bytes.push(self.stopped as u8);
        bytes.try_into().expect("the fields make 128 bytes")
    }

    /// The state in a block, or the reply of a call on it: 9, 8 or 2, in the paper's order.
    pub fn from_block(block: &[u8]) -> Result<State, Reply> {
        if block.len() < 5 {
            return Err(Reply::BadLength);
        }
        if block[0] != 1 {
            return Err(Reply::BadVersion);
        }
        if block.len() != BLOCK || block[1..5] != 123u32.to_be_bytes() {
            return Err(Reply::BadLength);
        }
        let long = |at: usize| u32::from_be_bytes(block[at..at + 4].try_into().unwrap());
        let state = State {
            d: std::array::from_fn(|i| long(5 + 4 * i)),
            a: std::array::from_fn(|i| long(37 + 4 * i)),
            pc: long(69),
            sr: u16::from_be_bytes([block[73], block[74]]),
            other: long(75),
            vbr: long(79),
            cacr: long(83),
            macsr: long(87),
            mask: long(91),
            acc: std::array::from_fn(|i| i64::from_be_bytes(block[95 + 8 * i..103 + 8 * i].try_into().unwrap())),
            stopped: block[127] == 1,
        };
        if block[127] > 1 || !state.admitted() {
            return Err(Reply::NotAdmitted);
        }
        Ok(state)
    }
}

/// One instruction. The second value is the vector that it entered, or 0.
pub fn step(block: &mut [u8], mem: &mut [u8]) -> (Reply, u8) {
    // SAFETY: the pointers and lengths are those of two exclusive slices, kept no longer than the call.
    let n = unsafe { ffi::step(block.as_mut_ptr(), block.len(), mem.as_mut_ptr(), mem.len()) };
    (reply(n as u64 % 256), (n / 256) as u8)
}

/// Up to `budget` instructions. The second value is how many were done.
pub fn run(block: &mut [u8], mem: &mut [u8], budget: u32) -> (Reply, u32) {
    // SAFETY: as in `step`.
    let n = unsafe { ffi::run(block.as_mut_ptr(), block.len(), mem.as_mut_ptr(), mem.len(), budget) };
    (reply(n % 256), (n / 256) as u32)
}

/// Return from an exception, whatever the privilege.
pub fn rte(block: &mut [u8], mem: &mut [u8]) -> Reply {
    // SAFETY: as in `step`.
    reply(unsafe { ffi::rte(block.as_mut_ptr(), block.len(), mem.as_mut_ptr(), mem.len()) } as u64)
}

/// Enter `vector` with `pc` in the frame; the interrupt mask stays.
pub fn exception(block: &mut [u8], mem: &mut [u8], vector: u8, pc: u32) -> Reply {
    // SAFETY: as in `step`.
    reply(unsafe { ffi::exception(block.as_mut_ptr(), block.len(), mem.as_mut_ptr(), mem.len(), vector, pc) } as u64)
}

/// Enter `vector` with `pc` in the frame and the interrupt mask at `level`, 0 to 7.
pub fn exception_at(block: &mut [u8], mem: &mut [u8], vector: u8, pc: u32, level: u8) -> Reply {
    // SAFETY: as in `step`.
    reply(
        unsafe { ffi::exception_at(block.as_mut_ptr(), block.len(), mem.as_mut_ptr(), mem.len(), vector, pc, level) }
            as u64,
    )
}

/// Deliver an interrupt of `level`, 0 to 7, if the mask lets it in.
pub fn interrupt(block: &mut [u8], mem: &mut [u8], vector: u8, level: u8) -> Reply {
    // SAFETY: as in `step`.
    reply(unsafe { ffi::interrupt(block.as_mut_ptr(), block.len(), mem.as_mut_ptr(), mem.len(), vector, level) } as u64)
}

/// Reads S-records into memory. The second value is the start address that the end record gives.
///
/// Read are S1, S2 and S3 data, up to an S7, S8 or S9 end; later data wins. S0 and S5 are skipped.
/// Hex digits may be of either case, and every line ends in LF or CR LF, the last one too. After the
/// end record only empty lines may stand.
///
/// The answer is [`Reply::MemoryTooLong`], or that of the first line that is refused:
/// [`Reply::Malformed`], then [`Reply::WrongSum`], then [`Reply::Outside`] where a byte of the record
/// is not inside memory. Without an end record it is [`Reply::Malformed`]. A text that is refused
/// leaves memory as it was, and the start address is then 0.
pub fn srecord_read(text: &[u8], mem: &mut [u8]) -> (Reply, u32) {
    // SAFETY: the pointers and lengths are those of two slices, kept no longer than the call. The
    // function writes to memory alone, and that slice is exclusive.
    let n = unsafe { ffi::srecord_read(text.as_ptr(), text.len(), mem.as_mut_ptr(), mem.len()) };
    (reply(n % 256), (n / 256) as u32)
}

/// Writes `count` bytes of memory, from address `from` on, as S3 records, and `start` as the S7 end.
/// The second value is the length of the lines, [`srecord_length`] of `count`; what `text` holds
/// behind them stays.
///
/// A line has 16 data bytes, the last one perhaps fewer, and ends in LF; digits are upper case. An
/// empty range gives the S7 line alone.
///
/// The answer is [`Reply::MemoryTooLong`]; then [`Reply::Outside`] where the range is not inside
/// memory, also an empty one past its end; then [`Reply::NoRoom`] where `text` is shorter than the
/// lines. A range that is refused leaves `text` as it was, and the length is then 0.
pub fn srecord_write(mem: &[u8], from: u32, count: u32, start: u32, text: &mut [u8]) -> (Reply, usize) {
    // SAFETY: as in `srecord_read`; the function writes to the text alone, and that slice is exclusive.
    let n = unsafe {
        ffi::srecord_write(mem.as_ptr(), mem.len(), from, count, start, text.as_mut_ptr(), text.len())
    };
    (reply(n % 256), (n / 256) as usize)
}

/// The bytes that [`srecord_write`] needs for a range of `count` bytes, which is at most
/// [`MEMORY_LIMIT`]: 15 a line and 2 a byte, and 15 for the end.
pub fn srecord_length(count: usize) -> usize {
    15 * count.div_ceil(16) + 2 * count + 15
}
