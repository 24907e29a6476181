//! Requests to valgrind's memcheck, under which a program may run. Elsewhere they do nothing and answer 0.

const RUNNING: usize = 0x1001;
const COUNT_ERRORS: usize = 0x1201;
/// Those of memcheck start with its letters M and C.
const MAKE_UNDEFINED: usize = 0x4d43_0001;
const MAKE_DEFINED: usize = 0x4d43_0002;
const CHECK_DEFINED: usize = 0x4d43_0005;

/// The instructions that valgrind knows a request by; they come to nothing: rdi turned by 128 bits, rbx for rbx.
fn request(number: usize, bytes: &[u8]) -> usize {
    let words = [number, bytes.as_ptr() as usize, bytes.len(), 0, 0, 0];
    let mut answer = 0_usize;
    // Valgrind reads the words and notes something about the bytes; it changes no byte.
    unsafe {
        std::arch::asm!(
            "rol rdi, 3", "rol rdi, 13", "rol rdi, 61", "rol rdi, 51", "xchg rbx, rbx",
            in("rax") words.as_ptr(), inout("rdx") answer, options(nostack)
        );
    }
    answer
}

pub fn runs() -> bool {
    request(RUNNING, &[]) != 0
}

/// How many errors memcheck has reported so far.
pub fn errors() -> usize {
    request(COUNT_ERRORS, &[])
}

/// From now on a decision that depends on these bytes is an error, until they are written.
pub fn make_undefined(bytes: &[u8]) {
    request(MAKE_UNDEFINED, bytes);
}

pub fn make_defined(bytes: &[u8]) {
    request(MAKE_DEFINED, bytes);
}

/// An error unless every one of the bytes was written.
pub fn check_defined(bytes: &[u8]) {
    request(CHECK_DEFINED, bytes);
}
