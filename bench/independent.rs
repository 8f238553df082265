//! The independent program of tests/independent for the benchmark: its analysis and its check, for C.
#[path = "../tests/independent/independent.rs"]
mod independent;

use independent::{certify, check, matrix, Field};

/// Writes the certificate and returns its length. The lent runs are n * n bytes, and as many as the certificate has.
#[no_mangle]
pub unsafe extern "C" fn independent_certify(p: u32, n: u32, entries: *const u8, out: *mut u8) -> usize {
    let entries = std::slice::from_raw_parts(entries, (n * n) as usize);
    let bytes = certify(Field { p }, &matrix(entries, n as usize)).bytes();
    std::ptr::copy_nonoverlapping(bytes.as_ptr(), out, bytes.len());
    bytes.len()
}

#[no_mangle]
pub unsafe extern "C" fn independent_check(certificate: *const u8, length: usize, place: *mut u64) -> u32 {
    let (number, at) = check(std::slice::from_raw_parts(certificate, length));
    *place = at;
    number
}
