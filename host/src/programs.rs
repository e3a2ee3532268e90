//! The programs of host/programs, as image files.

use host::State;
use std::borrow::Cow;

pub struct Program {
    pub name: &'static str,
    image: Cow<'static, [u8]>,
    memory: usize,
    /// D0 and D1 at the end; none of a program that loops for ever.
    pub answer: Option<[u32; 2]>,
}

/// What `coreimage` has.
const MEMORY: usize = 49_152;
const LOOPS: [(&str, &[u8]); 5] = [
    ("search", include_bytes!("../programs/search.image")),
    ("copy", include_bytes!("../programs/copy.image")),
    ("dot", include_bytes!("../programs/dot.image")),
    ("dot-words", include_bytes!("../programs/dot-words.image")),
    ("compiled", include_bytes!("../programs/compiled.image")),
];
const SEGREGATE: &str = include_str!("../programs/segregate.answer");
const START: &str = include_str!("../programs/start.answer");
/// With their known answers.
const ENDING: [(&str, &[u8], &str); 3] = [
    ("segregate-5208", include_bytes!("../programs/segregate-5208.image"), SEGREGATE),
    ("segregate-54455", include_bytes!("../programs/segregate-54455.image"), SEGREGATE),
    ("start-handlers", include_bytes!("../programs/start-handlers.image"), START),
];

fn registers(text: &str) -> [u32; 2] {
    let mut words = text.split_whitespace().map(|w| u32::from_str_radix(w, 16).expect("an answer is two longs"));
    [words.next(), words.next()].map(|v| v.expect("an answer has D0 and D1"))
}

/// The programs whose images are kept: those that loop, then those that end.
pub fn kept() -> Vec<Program> {
    let of = |name, image, answer| Program { name, image: Cow::Borrowed(image), memory: MEMORY, answer };
    let ending = ENDING.map(|(name, image, answer)| of(name, image, Some(registers(answer))));
    LOOPS.map(|(name, image)| of(name, image, None)).into_iter().chain(ending).collect()
}

/// The program that programs/zlib has made in a folder, where it is there.
#[allow(dead_code)]
pub fn zlib(folder: &str) -> Option<Program> {
    let image = std::fs::read(format!("{folder}/zlib.image")).ok()?;
    let answer = std::fs::read_to_string(format!("{folder}/zlib.answer")).ok()?;
    Some(Program { name: "zlib", image: Cow::Owned(image), memory: 1 << 20, answer: Some(registers(&answer)) })
}

/// The start of a program: a state, a memory and the image's budget.
pub fn load(program: &Program) -> (State, Vec<u8>, u32) {
    let bytes = &program.image;
    let long = |at: usize| u32::from_be_bytes(bytes[at..at + 4].try_into().unwrap());
    assert!(bytes[0] == 1 && long(1) as usize == bytes.len() - 5, "an image file");
    let mut s = State::fresh();
    s.pc = long(5);
    s.a[7] = long(9);
    s.sr = u16::from_be_bytes([bytes[13], bytes[14]]);
    let mut mem = vec![0; program.memory];
    mem[..bytes.len() - 19].copy_from_slice(&bytes[19..]);
    (s, mem, long(15))
}
