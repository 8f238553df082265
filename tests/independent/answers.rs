//! What document 01 says of each operation's answer, from the independent program.
#![allow(dead_code)]
use crate::independent::*;

/// A number and its place.
pub type Answer = (u8, u64);

/// The length of a certificate, record by record.
pub fn size(n: usize) -> usize {
    sizes(n).iter().map(|payload| 4 + payload).sum()
}

/// What document 01 says of an analysis.
pub fn analysis_answer(p: u64, n: u64, a: &[u8], room: usize) -> Answer {
    if n < 1 || n > LIMIT as u64 {
        return (1, n);
    }
    if !is_prime(p) {
        return (2, p);
    }
    if a.len() as u64 != n * n {
        return (3, a.len() as u64);
    }
    if let Some(index) = a.iter().position(|entry| u64::from(*entry) >= p) {
        return (4, index as u64);
    }
    let needed = size(n as usize);
    (if room < needed { 5 } else { 0 }, needed as u64)
}

/// The start and the length of the payload that finding gives, or 0 and 0.
pub fn finding(s: &[u8], mark: &[u8]) -> (u64, u64) {
    let (n, index) = match (read(s, 10), MARKS.iter().position(|m| &m[..] == mark)) {
        (Ok((_, n)), Some(index)) => (n, index),
        _ => return (0, 0),
    };
    let before: usize = sizes(n)[..index].iter().map(|payload| 4 + payload).sum();
    ((before + 4) as u64, sizes(n)[index] as u64)
}

/// What document 01 says of a reciprocal, by trying every residue.
pub fn reciprocal_answer(p: u64, x: u64) -> Answer {
    if !is_prime(p) {
        return (2, p);
    }
    if x >= p {
        return (4, 0);
    }
    (0, (1..p).find(|y| x * y % p == 1).unwrap_or(0))
}

/// What document 01 says of a check.
pub fn check_answer(s: &[u8]) -> Answer {
    let (number, place) = check(s);
    (number as u8, place)
}

/// The payloads of DF and FB that belong to the polynomials of D.
pub fn form_payloads(f: Field, d: &[Poly]) -> (Vec<u8>, Vec<u8>) {
    let coefficients = |g: &Poly| -> Vec<u8> {
        let at = |k: usize| g.get(k).copied().unwrap_or(0) as u8;
        (0..=d.len()).map(at).collect()
    };
    let form = frobenius(f, d).iter().flatten().map(|x| *x as u8).collect();
    (d.iter().flat_map(coefficients).collect(), form)
}
