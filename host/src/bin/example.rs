//! Runs the example of the wrapper's documentation; it ends by an abort where an assertion fails.

#![no_main]

#[no_mangle]
pub extern "C" fn main() -> i32 {
    include!("../example.rs");
    println!("the example ran");
    0
}
