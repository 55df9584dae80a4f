//! The checks and the example as functions for a C program to call, where an emulator cannot run the start of a Rust program.

use std::ffi::{CStr, OsStr, OsString};
use std::os::raw::{c_char, c_int};
use std::os::unix::ffi::OsStrExt;

#[macro_use]
#[path = "../tests/checks/mod.rs"]
mod checks;

#[allow(dead_code)] // its main is for Cargo
#[path = "../examples/panel.rs"]
mod panel;

macro_rules! run_each {
    ($($name:ident)*) => {
        $(
            checks::$name();
            println!("{} holds", stringify!($name));
        )*
    };
}

/// Ends the program at the first check that does not hold.
#[no_mangle]
pub extern "C" fn run_checks() {
    each_check!(run_each);
}

/// The example with the arguments of a C main; its status.
///
/// # Safety
/// `argv` points at `argc` strings that end with NUL, and the first is the program's name.
#[no_mangle]
pub unsafe extern "C" fn run_example(argc: c_int, argv: *const *const c_char) -> c_int {
    // SAFETY: as the caller says; the strings are copied before anything else is done.
    let arguments: Vec<OsString> =
        (1..argc as usize).map(|i| unsafe { OsStr::from_bytes(CStr::from_ptr(*argv.add(i)).to_bytes()).to_owned() }).collect();
    match panel::ask(&arguments) {
        Ok(text) => {
            print!("{text}");
            0
        }
        Err(what) => {
            eprintln!("panel: {what}");
            2
        }
    }
}
