//! The machine that the tests run on: x86-64, or another one that runs x86-64
//! programs by an emulator, as `.ci/emulate` sets it up and says in a variable.

use crate::night::leave_out;
use std::env;
use std::ffi::OsString;
use std::sync::Once;

/// Whether the tests and the programs run under an emulator.
pub fn is_emulated() -> bool {
    env::var_os("UNDER_EMULATION").is_some()
}

/// How many times as long a call of the program takes, about.
pub fn slowness() -> usize {
    if is_emulated() {
        100
    } else {
        1
    }
}

/// One in so many cases is tested, where there are very many: each, but under an
/// emulator fewer. That is noted.
pub fn every() -> usize {
    static NOTED: Once = Once::new();
    if !is_emulated() {
        return 1;
    }
    NOTED.call_once(|| {
        leave_out(
            "an x86-64 machine: three in four of the made-up files, names, faults and cuts; the rest ran under an emulator",
        );
    });
    4
}

/// So many of this number of cases are tested.
pub fn share(count: usize) -> usize {
    count / every()
}

/// Whether the case of this count is tested: under an emulator one of each four,
/// each time another.
pub fn is_tested(count: usize) -> bool {
    let every = every();
    count % every == count / every % every
}

/// What the machine calls a system call of the program. An emulator makes newer
/// ones of the oldest, which another machine does not have.
pub fn call_name(name: &str) -> &str {
    match name {
        "readlink" if is_emulated() => "readlinkat",
        "unlink" if is_emulated() => "unlinkat",
        "rename" if is_emulated() => "renameat",
        _ => name,
    }
}

/// How a shell limits the stack of a program that it calls, in KiB. An emulator has
/// another stack than the program, and leaves a file where the program's is too small.
pub fn limit_stack(size: usize) -> String {
    if is_emulated() {
        let bytes = 1_024 * size;
        format!("ulimit -c 0; ulimit -s {size}; export QEMU_STACK_SIZE={bytes}")
    } else {
        format!("ulimit -s {size}")
    }
}

/// The C compiler that makes x86-64 programs.
pub fn c_compiler() -> OsString {
    env::var_os("CC").unwrap_or("cc".into())
}
