//! The bus under the original: plain big-endian memory from address 0. An access that is not inside
//! is noted, reads 0 and stores nothing. The other names are those that the original's text needs to
//! compile; nothing here has a cache, peripherals or compiled code.

pub struct Io {
    pub now: u64,
    pub irq_level: u8,
    pub deadline: u64,
}

impl Io {
    pub fn ack_irq(&mut self, _mask: u8) -> Option<(u8, u8)> {
        None
    }
}

pub struct Cache;

impl Cache {
    pub fn set_cacr(&mut self, _v: u32) {}
    pub fn set_acr(&mut self, _i: usize, _v: u32) {}
    pub fn configure(&mut self, _cacr: u32, _acr: [u32; 4]) {}
}

pub struct Block {
    pub ops: Box<[crate::fast::Op]>,
    pub code: Option<crate::jit::BlockFn>,
    pub hits: u32,
    pub no_jit: bool,
    pub queued: bool,
}

pub struct Bus {
    pub mem: Vec<u8>,
    /// An access was not inside.
    pub outside: bool,
    pub pc: u32,
    pub io: Io,
    pub cache: Option<Cache>,
    pub strict: bool,
    pub strict_pending: Option<(u32, u32)>,
    pub watch: Option<u32>,
    pub blk_arena: Vec<Block>,
    pub icache_flushes: u64,
    pub flush_pending: bool,
}

impl Bus {
    pub fn new() -> Bus {
        Bus {
            mem: Vec::new(),
            outside: false,
            pc: 0,
            io: Io { now: 0, irq_level: 0, deadline: u64::MAX },
            cache: None,
            strict: false,
            strict_pending: None,
            watch: None,
            blk_arena: Vec::new(),
            icache_flushes: 0,
            flush_pending: false,
        }
    }

    /// The `N` bytes at `a`, where a + N is at most the length.
    #[inline(always)]
    fn get<const N: usize>(&self, a: u32) -> Option<[u8; N]> {
        let a = a as usize;
        self.mem.get(a..a + N).map(|s| s.try_into().unwrap())
    }

    #[inline(always)]
    fn load<const N: usize>(&mut self, a: u32) -> [u8; N] {
        match self.get(a) {
            Some(v) => v,
            None => {
                self.outside = true;
                [0; N]
            }
        }
    }

    #[inline(always)]
    fn store<const N: usize>(&mut self, a: u32, v: [u8; N]) {
        let a = a as usize;
        match self.mem.get_mut(a..a + N) {
            Some(s) => s.copy_from_slice(&v),
            None => self.outside = true,
        }
    }

    #[inline(always)]
    pub fn read8(&mut self, a: u32) -> u8 {
        u8::from_be_bytes(self.load(a))
    }
    #[inline(always)]
    pub fn read16(&mut self, a: u32) -> u16 {
        u16::from_be_bytes(self.load(a))
    }
    #[inline(always)]
    pub fn read32(&mut self, a: u32) -> u32 {
        u32::from_be_bytes(self.load(a))
    }
    #[inline(always)]
    pub fn write8(&mut self, a: u32, v: u8) {
        self.store(a, v.to_be_bytes())
    }
    #[inline(always)]
    pub fn write16(&mut self, a: u32, v: u16) {
        self.store(a, v.to_be_bytes())
    }
    #[inline(always)]
    pub fn write32(&mut self, a: u32, v: u32) {
        self.store(a, v.to_be_bytes())
    }
    #[inline(always)]
    pub fn ifetch16(&mut self, a: u32) -> u16 {
        self.read16(a)
    }
    #[inline(always)]
    pub fn ifetch32(&mut self, a: u32) -> u32 {
        self.read32(a)
    }
    /// Looks for the original's logs: not an access of the instruction.
    pub fn peek16(&self, a: u32) -> u16 {
        self.get(a).map_or(0, u16::from_be_bytes)
    }
    pub fn peek32(&self, a: u32) -> u32 {
        self.get(a).map_or(0, u32::from_be_bytes)
    }

    pub fn icache_flush(&mut self) {}
    pub fn icache_settle(&mut self) {}
    pub fn block_at(&self, _pc: u32) -> Option<usize> {
        None
    }
    pub fn in_code_window(&self, _pc: u32) -> bool {
        false
    }
    pub fn cache_op(&mut self, _which: u8, _a: u32) {}
}
