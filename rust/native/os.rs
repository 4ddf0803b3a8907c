//! What our programs reach of the toolchain's own C functions, for processors other than x86-64: the toolchain has them compiled for x86-64
//! alone. `tools/native` links them in place of those, and only there.
use std::os::unix::ffi::OsStringExt;

extern "C" {
    fn __errno_location() -> *mut i32;
}

#[no_mangle]
pub extern "C" fn rattle_errno() -> i32 {
    // The C library answers a pointer to the calling thread's own number.
    unsafe { *__errno_location() }
}

#[no_mangle]
pub extern "C" fn rattle_set_errno(error: i32) {
    // As above.
    unsafe { *__errno_location() = error };
}

/// How many arguments there are, the program's own name among them.
#[no_mangle]
pub extern "C" fn rattle_arg_count() -> usize {
    std::env::args_os().count()
}

/// The argument's length, -1 where there is no such argument, or -2 where it does not fit.
///
/// # Safety
/// The buffer is writable and has that length: a Rattle slice.
#[no_mangle]
pub unsafe extern "C" fn rattle_arg(i: usize, buffer: *mut u8, length: usize) -> isize {
    let Some(word) = std::env::args_os().nth(i) else {
        return -1;
    };
    let word = word.into_vec();
    let fits = word.len().min(length);
    // The caller lends so many bytes, and the argument is our own.
    unsafe { std::ptr::copy_nonoverlapping(word.as_ptr(), buffer, fits) };
    if fits == word.len() {
        fits as isize
    } else {
        -2
    }
}

/// What a program asks of an x86-64 processor as it starts: whether that has what the code wants. Here the code is another processor's, and
/// every bit answers yes.
static LEAF: [u32; 8] = [u32::MAX; 8];

#[no_mangle]
pub extern "C" fn __x86_get_cpuid_feature_leaf(_leaf: u32) -> *const u32 {
    LEAF.as_ptr()
}
