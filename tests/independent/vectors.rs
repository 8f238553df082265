//! The independent program against the vectors from PARI/GP: the same polynomials, and certificates that its own check accepts.
//! Usage: vectors FILE
mod cases;
mod independent;

use independent::*;

fn main() {
    let path = std::env::args().nth(1).expect("the file of vectors");
    let (mut count, mut wrong) = (0, 0);
    for case in cases::vectors(&path) {
        let f = Field { p: case.p };
        let m = matrix(&case.a, case.n);
        let found: Vec<Poly> = invariants(f, &m).into_iter().filter(|g| g.len() > 1).collect();
        let bytes = certify(f, &m).bytes();
        count += 1;
        if found != case.polynomials || check(&bytes) != (0, bytes.len() as u64) {
            wrong += 1;
            println!("differs: p {}, {m:?}", case.p);
        }
    }
    println!("vectors: {count} matrices, {wrong} wrong");
    std::process::exit((wrong != 0 || count < 1000) as i32);
}
