//! The archive of the library, call by call, against the independent program: the answers, every byte of lent memory, and the safe
//! functions over it. Usage: library VECTORS ROUNDS, with more matrices for more rounds.
mod answers;
mod cases;
mod damage;
mod independent;
mod lent;
mod operations;

use cases::*;
use independent::*;
use operations::Library;

const PRIMES: [u32; 7] = [2, 3, 5, 7, 127, 241, 251];

/// Numbers whose low bytes alone would pass for others.
const LARGE: [u64; 6] = [
    256 + 5,
    65_536 + 2,
    (1 << 32) + 5,
    (1 << 32) + 2,
    1 << 63,
    u64::MAX,
];

/// The ways to lend a matrix of the asked length, and of others, with entries that are residues and entries that are not.
fn matrices(p: u64, length: usize) -> Vec<Vec<u8>> {
    let largest = p.clamp(1, 255) as u8 - 1;
    let mut list = vec![
        vec![0; length],
        vec![largest; length],
        vec![0; length + 1],
        vec![255; length + 1],
    ];
    if length > 0 {
        list.push(vec![0; length - 1]);
        list.push(vec![255; length]);
        for at in [0, length / 2, length - 1] {
            let mut a = vec![largest; length];
            a[at] = largest.wrapping_add(1);
            list.push(a);
        }
    }
    list
}

/// Every question of the analysis, alone and together with later ones.
fn questions(library: &mut Library) {
    for p in (0..=20).chain(250..=258).chain(LARGE) {
        for n in (0..=14).chain(255..=257).chain(LARGE) {
            let order = (n % 256).min(14) as usize;
            for a in matrices(p, order * order) {
                let needed = independent_length(order);
                for room in [0, 1, needed - 1, needed, needed + 1, needed + 300] {
                    library.expect_analysis(p, n, &a, room);
                }
            }
        }
    }
}

/// The length of document 01, by its formula.
fn independent_length(n: usize) -> usize {
    4 * n * n * n + 5 * n * n + n + 42
}

/// The answers that document 01 prints.
fn document(library: &mut Library) {
    let b = [2, 1, 0, 3];
    for (p, n, a, room, answer) in [
        (5, 0, &b[..], 96, (1, 0)),
        (9, 13, &b[..], 96, (1, 13)),
        (9, 2, &b[..], 96, (2, 9)),
        (251, 2, &b[..], 96, (0, 96)),
        (257, 2, &b[..], 96, (2, 257)),
        (5, 2, &b[..3], 96, (3, 3)),
        (5, 2, &[0, 0, 0, 5][..], 96, (4, 3)),
        (5, 2, &[0, 0, 0, 4][..], 96, (0, 96)),
        (5, 2, &b[..], 95, (5, 96)),
        (5, 2, &b[..], 96, (0, 96)),
    ] {
        let (got, _) = library.analysis(p, n, a, room);
        library.same(got, answer, || {
            format!("analysis of {a:?}, p {p}, n {n}, room {room}")
        });
    }
    let (_, whole) = library.analysis(5, 2, &b, 96);
    let mut longer = whole.clone();
    longer.push(0);
    let mut zero = whole.clone();
    zero[84..88].fill(0);
    zero[92..96].fill(0);
    for (s, answer) in [
        (&whole[..0], (6, 0)),
        (&whole, (0, 96)),
        (&whole[..95], (6, 88)),
        (&longer, (10, 96)),
        (&zero, (11, 8)),
    ] {
        let got = library.check(s);
        library.same(got, answer, || format!("check of {s:?}"));
    }
}

/// Matrices whose D is known from elsewhere.
fn known(library: &mut Library, cases: &[Case]) {
    for case in cases {
        let (f, d) = (Field { p: case.p }, case.diagonal());
        library.expect_forms(f, &matrix(&case.a, case.n), &d);
    }
}

/// Analyses of one matrix, of a conjugate of it, and certificates of it that the library did not make, whole and with one fault.
fn both_ways(library: &mut Library, r: &mut Numbers, f: Field, a: &Matrix) {
    let d = invariants(f, a);
    library.expect_forms(f, a, &d);
    library.expect_forms(f, &conjugate(r, f, a), &d);
    let form = frobenius(f, &d);
    let t = basis(f, a, &form);
    let other = other_basis(r, f, &t, &form);
    for t in [t, other] {
        let certificate = certify_in(f, a, &d, &t);
        let got = library.expect_check(&certificate.bytes());
        library.same(got.0, 0, || {
            format!("number of a certificate of {a:?} modulo {}", f.p)
        });
        let rule = 1 + r.below(9) as usize;
        library.expect_check(&break_rule(&certificate, rule).bytes());
    }
}

/// Matrices of every kind, at every order and many primes.
fn kinds(library: &mut Library, rounds: usize) {
    let mut r = Numbers(11);
    for _ in 0..rounds {
        for p in PRIMES {
            for n in 1..=LIMIT {
                let f = Field { p };
                for a in structured(&mut r, f, n) {
                    both_ways(library, &mut r, f, &a);
                }
            }
        }
    }
}

/// Every p and x up to 300, and large ones.
fn reciprocals(library: &mut Library) {
    for p in (0..=300).chain(LARGE) {
        for x in (0..=300)
            .chain(LARGE)
            .chain([(1 << 32) + 1, (1 << 8) * 251])
        {
            library.expect_reciprocal(p, x);
        }
    }
}

fn main() {
    let words: Vec<String> = std::env::args().collect();
    let rounds = words[2].parse().expect("the number of rounds");
    let mut library = Library::new();
    document(&mut library);
    questions(&mut library);
    known(&mut library, &document_cases());
    known(&mut library, &vectors(&words[1]));
    kinds(&mut library, rounds);
    reciprocals(&mut library);
    damage::all(&mut library, rounds);
    std::process::exit(library.report() as i32);
}
