//! The independent program of tests/independent for the targets, by the C calling convention.
#[path = "../tests/independent/answers.rs"]
mod answers;
#[path = "../tests/independent/independent.rs"]
mod independent;

use answers::*;
use independent::*;
use std::slice::from_raw_parts;

/// # Safety
/// The pointer and the length are those of a run of bytes, and the place may be written. So it is with each function here.
#[no_mangle]
pub unsafe extern "C" fn independent_analysis(
    p: u64,
    n: u64,
    matrix: *const u8,
    matrix_length: usize,
    out_length: usize,
    place: *mut u64,
) -> u8 {
    let answer = analysis_answer(p, n, from_raw_parts(matrix, matrix_length), out_length);
    *place = answer.1;
    answer.0
}

/// # Safety
/// As above.
#[no_mangle]
pub unsafe extern "C" fn independent_check(
    certificate: *const u8,
    certificate_length: usize,
    place: *mut u64,
) -> u8 {
    let answer = check_answer(from_raw_parts(certificate, certificate_length));
    *place = answer.1;
    answer.0
}

/// # Safety
/// As above.
#[no_mangle]
pub unsafe extern "C" fn independent_find(
    certificate: *const u8,
    certificate_length: usize,
    mark: *const u8,
    mark_length: usize,
    start: *mut u64,
) -> u64 {
    let certificate = from_raw_parts(certificate, certificate_length);
    let found = finding(certificate, from_raw_parts(mark, mark_length));
    *start = found.0;
    found.1
}

/// Whether a certificate that is accepted has the D and the F that the elimination finds for its matrix.
///
/// # Safety
/// As above.
#[no_mangle]
pub unsafe extern "C" fn independent_forms(
    certificate: *const u8,
    certificate_length: usize,
) -> u8 {
    let s = from_raw_parts(certificate, certificate_length);
    let (p, n) = read(s, 10).expect("the certificate is accepted");
    let (f, parts) = (Field { p }, payloads(s, n, 10));
    let (diagonal, form) = form_payloads(f, &invariants(f, &matrix(parts[1], n)));
    (parts[2] == diagonal && parts[7] == form) as u8
}
