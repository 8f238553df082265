//! Safe functions over Nyargulet's four proved operations: the analysis of a matrix of residues modulo a small prime, the check of
//! a certificate from anyone, finding one record of a certificate, and the reciprocal. Every input is answered; none panics.
//!
//! ```
//! let made = nyargulet::certificate(5, 2, &[2, 1, 0, 3]).expect("a prime, an order and residues");
//! assert_eq!(nyargulet::check(&made), Ok(96));
//! assert_eq!(nyargulet::find(&made, b"FB"), [0, 4, 1, 0]);
//! assert_eq!(nyargulet::check(&made[..95]).unwrap_err().to_string(), "refused 6 88");
//! ```
use std::error::Error;
use std::fmt;

/// The largest order.
pub const ORDER: usize = 12;

/// The length of the longest certificate, that of order 12.
pub const ROOM: usize = length(ORDER);

/// The marks of the ten records, in their order.
pub const MARKS: [&[u8; 2]; 10] = [
    b"HD", b"MA", b"DF", b"PL", b"PI", b"QR", b"QI", b"FB", b"TB", b"TI",
];

/// The length of a certificate of order n, for n from 1 to 12.
pub const fn length(n: usize) -> usize {
    4 * n * n * n + 5 * n * n + n + 42
}

/// The C interface, as include/nyargulet.h declares it.
pub mod c {
    #[link(name = "blocks", kind = "static")]
    extern "C" {
        pub fn nyargulet_analysis(
            p: u64,
            n: u64,
            matrix: *const u8,
            matrix_length: usize,
            out: *mut u8,
            out_length: usize,
            place: *mut u64,
        ) -> u8;
        pub fn nyargulet_check(
            certificate: *const u8,
            certificate_length: usize,
            place: *mut u64,
        ) -> u8;
        pub fn nyargulet_find(
            certificate: *const u8,
            certificate_length: usize,
            mark: *const u8,
            mark_length: usize,
            start: *mut u64,
        ) -> u64;
        pub fn nyargulet_reciprocal(p: u64, x: u64, value: *mut u64) -> u8;
    }
}

/// A refusal: the number, 1 to 11, and the place that goes with it.
#[derive(Clone, Copy, Debug, PartialEq, Eq, Hash)]
pub struct Refusal {
    pub number: u8,
    pub place: u64,
}

impl fmt::Display for Refusal {
    fn fmt(&self, f: &mut fmt::Formatter<'_>) -> fmt::Result {
        write!(f, "refused {} {}", self.number, self.place)
    }
}

impl Error for Refusal {}

/// Number 0 gives its place, which is a length or a residue; any other number is a refusal.
fn answered(number: u8, place: u64) -> Result<u64, Refusal> {
    match number {
        0 => Ok(place),
        _ => Err(Refusal { number, place }),
    }
}

/// Writes the certificate of a matrix modulo p, of order n, given row by row, to the front of `out`, and gives its length. Bytes
/// past it stay as they were, and so does all of `out` on a refusal: 1 to 5.
pub fn analysis(p: u64, n: u64, matrix: &[u8], out: &mut [u8]) -> Result<usize, Refusal> {
    let mut place = 0;
    // SAFETY: each pointer and length is a slice's, `out` and `place` are borrowed for this call alone.
    let number = unsafe {
        c::nyargulet_analysis(
            p,
            n,
            matrix.as_ptr(),
            matrix.len(),
            out.as_mut_ptr(),
            out.len(),
            &mut place,
        )
    };
    answered(number, place).map(|written| written as usize)
}

/// The certificate of a matrix modulo p, of order n, in memory of its own.
pub fn certificate(p: u64, n: u64, matrix: &[u8]) -> Result<Vec<u8>, Refusal> {
    let mut out = vec![0; ROOM];
    let written = analysis(p, n, matrix, &mut out)?;
    out.truncate(written);
    Ok(out)
}

/// Reads a certificate from anyone and asks its nine rules; gives the length read. Refusals: 1, 2, and 6 to 11.
pub fn check(certificate: &[u8]) -> Result<usize, Refusal> {
    let mut place = 0;
    // SAFETY: the pointer and the length are a slice's, `place` is borrowed for this call alone.
    let number = unsafe { c::nyargulet_check(certificate.as_ptr(), certificate.len(), &mut place) };
    answered(number, place).map(|read| read as usize)
}

/// The payload under a mark of two letters, as a part of the certificate; empty where the certificate is not read or the mark is
/// none of the ten. The rules are not asked.
pub fn find<'a>(certificate: &'a [u8], mark: &[u8]) -> &'a [u8] {
    let mut start = 0;
    // SAFETY: each pointer and length is a slice's, `start` is borrowed for this call alone.
    let found = unsafe {
        c::nyargulet_find(
            certificate.as_ptr(),
            certificate.len(),
            mark.as_ptr(),
            mark.len(),
            &mut start,
        )
    };
    &certificate[start as usize..start as usize + found as usize]
}

/// The reciprocal of x modulo p, and 0 for 0. Refusals: 2, and then 4 with place 0 where x is at or above p.
pub fn reciprocal(p: u64, x: u64) -> Result<u8, Refusal> {
    let mut value = 0;
    // SAFETY: `value` is borrowed for this call alone.
    let number = unsafe { c::nyargulet_reciprocal(p, x, &mut value) };
    answered(number, value).map(|residue| residue as u8)
}
