//! `mutate FILE SEED NUMBER OUT`: the original's text with one place changed at random, to OUT, and a line that says which.
//! A line of code that the compared calls reach is drawn, then one of the changes that fit there: an operator, a number or a
//! truth value replaced, or a condition negated. The same seed and number make the same change.

#![no_main]

#[path = "../random.rs"]
#[allow(dead_code)]
mod random;

use random::Random;

/// Functions that no compared call reaches: the original's loops, hooks, cache and compiled code. In the two of MOVEC a line for further
/// control registers is not reached either (difference 60), and CACR's old bit 5 is not used: a change there is no break.
const OUTSIDE: [&str; 20] = [
    "new", "set_hook", "hooked", "strict_fault", "icount", "run", "run_block", "run_compiled", "jit_async", "jit_stats", "compile_block",
    "run_ops_slice", "run_ops", "run_ops_loop", "step", "cache_sync", "acc_phys", "acc_get", "default", "fmt",
];

const SWAPS: [(&str, &str); 24] = [
    (" + ", " - "), (" - ", " + "), (" * ", " + "), (" & ", " | "), (" | ", " & "), (" ^ ", " | "), (" << ", " >> "), (" >> ", " << "),
    (" < ", " <= "), (" <= ", " < "), (" > ", " >= "), (" >= ", " > "), (" == ", " != "), (" != ", " == "), (" && ", " || "),
    (" || ", " && "), ("wrapping_add", "wrapping_sub"), ("wrapping_sub", "wrapping_add"), ("true", "false"), ("false", "true"),
    ("as i16", "as i32"), ("as i8", "as i16"), ("as u16", "as u32"), ("as i64", "as u32 as i64"),
];

/// The numbers in a line: where each starts, its length and itself.
fn numbers(line: &str) -> Vec<(usize, usize, u64)> {
    let bytes = line.as_bytes();
    let word = |b: u8| b.is_ascii_alphanumeric() || b == b'_';
    let mut found = Vec::new();
    let mut i = 0;
    while i < bytes.len() {
        if !bytes[i].is_ascii_digit() || i > 0 && (word(bytes[i - 1]) || bytes[i - 1] == b'.') {
            i += 1;
            continue;
        }
        let mut end = i;
        while end < bytes.len() && word(bytes[end]) {
            end += 1;
        }
        let text = line[i..end].replace('_', "");
        let (digits, radix) = text.strip_prefix("0x").map_or((&text[..], 10), |t| (t, 16));
        let kept: String = digits.chars().take_while(|c| c.is_digit(radix)).collect();
        if let Ok(n) = u64::from_str_radix(&kept, radix) {
            found.push((i, end - i, n));
        }
        i = end;
    }
    found
}

/// Every change that fits a line: the line as it becomes.
fn changes(line: &str) -> Vec<String> {
    let code = line.split("//").next().unwrap_or("");
    let rest = &line[code.len()..];
    let mut all = Vec::new();
    for (from, to) in SWAPS {
        for (at, _) in code.match_indices(from) {
            all.push(format!("{}{to}{}{rest}", &code[..at], &code[at + from.len()..]));
        }
    }
    for (at, len, n) in numbers(code) {
        let text = &code[at..at + len];
        let suffix: String = ["u8", "u16", "u32", "u64", "i64", "i32", "usize"].iter().find(|s| text.ends_with(**s)).map_or("".into(), |s| s.to_string());
        for other in [Some(n + 1), n.checked_sub(1)].into_iter().flatten() {
            all.push(format!("{}{other:#X}{suffix}{}{rest}", &code[..at], &code[at + len..]));
        }
    }
    let start = code.len() - code.trim_start().len();
    for head in ["if ", "} else if "] {
        let body = code[start..].strip_prefix(head).and_then(|b| b.trim_end().strip_suffix(" {"));
        if let Some(test) = body.filter(|t| !t.starts_with("let ")) {
            all.push(format!("{}{head}!({test}) {{{rest}", &code[..start]));
        }
    }
    all
}

/// The lines of the functions that are reached, by their numbers.
fn reached(lines: &[&str]) -> Vec<usize> {
    let mut inside = false;
    let mut found = Vec::new();
    for (i, line) in lines.iter().enumerate() {
        let code = line.trim_start();
        let header = ["fn ", "pub fn ", "pub(crate) fn "].iter().find_map(|p| code.strip_prefix(p));
        if let Some(name) = header {
            let name = name.split(['(', '<']).next().unwrap_or("");
            inside = !OUTSIDE.contains(&name);
        } else if inside && !code.starts_with("//") && !code.starts_with('#') && !changes(line).is_empty() {
            found.push(i);
        }
    }
    found
}

#[no_mangle]
pub extern "C" fn main() -> i32 {
    let args: Vec<String> = std::env::args().skip(1).collect();
    let [file, seed, number, out] = &args[..] else {
        eprintln!("use: mutate FILE SEED NUMBER OUT");
        return 2;
    };
    let (seed, number): (u64, u64) = (seed.parse().expect("SEED"), number.parse().expect("NUMBER"));
    let text = std::fs::read_to_string(file).expect("FILE");
    let mut lines: Vec<&str> = text.split('\n').collect();
    let places = reached(&lines);
    let mut r = Random::new(seed.wrapping_mul(1_000_003).wrapping_add(number));
    let at = r.pick(&places);
    let all = changes(lines[at]);
    let changed = all[r.below(all.len() as u32) as usize].clone();
    println!("line {}: {} -> {}", at + 1, lines[at].trim(), changed.trim());
    lines[at] = &changed;
    std::fs::write(out, lines.join("\n")).expect("OUT");
    0
}
