//! What the tests are run on: document 01's matrices, the vectors of tests/vectors, matrices of every kind that has blocks of its
//! own, other bases of one form, and certificates with one fault each.
#![allow(dead_code)]
use crate::independent::*;

pub fn numbers(text: &str) -> Vec<u32> {
    text.split_whitespace()
        .map(|x| x.parse().expect("a number"))
        .collect()
}

pub fn polynomials(text: &str) -> Vec<Poly> {
    text.split(';').map(numbers).collect()
}

/// A matrix with the polynomials of its D that are not 1.
pub struct Case {
    pub p: u32,
    pub n: usize,
    pub a: Vec<u8>,
    pub polynomials: Vec<Poly>,
}

impl Case {
    pub fn new(p: u32, n: usize, a: Vec<u8>, text: &str) -> Case {
        let polynomials = polynomials(text);
        Case {
            p,
            n,
            a,
            polynomials,
        }
    }

    /// All of D.
    pub fn diagonal(&self) -> Vec<Poly> {
        let mut d = vec![vec![1]; self.n - self.polynomials.len()];
        d.extend_from_slice(&self.polynomials);
        d
    }
}

/// The matrices of document 01 with the polynomials it prints.
pub fn document_cases() -> Vec<Case> {
    let example = |p: i32| {
        [4, 1, -1, 0, 3, 0, -1, 1, 4]
            .iter()
            .map(|x: &i32| x.rem_euclid(p) as u8)
            .collect()
    };
    let h = vec![0, 0, 0, 0, 1, 0, 0, 0, 0, 0, 0, 0, 0, 0, 1, 0];
    let i = vec![0, 0, 0, 0, 1, 0, 0, 0, 0, 0, 0, 0, 0, 0, 0, 0];
    vec![
        Case::new(2, 1, vec![1], "1 1"),
        Case::new(5, 2, vec![2, 1, 0, 3], "1 0 1"),
        Case::new(5, 2, vec![3, 0, 1, 2], "1 0 1"),
        Case::new(7, 3, example(7), "4 4 3 1"),
        Case::new(2, 3, example(2), "1 1 ; 1 0 1"),
        Case::new(5, 3, example(5), "0 4 4 1"),
        Case::new(3, 3, vec![0; 9], "0 1 ; 0 1 ; 0 1"),
        Case::new(2, 4, h, "0 0 1 ; 0 0 1"),
        Case::new(2, 4, i, "0 1 ; 0 1 ; 0 0 1"),
        Case::new(3, 3, vec![1, 0, 0, 0, 1, 0, 0, 0, 2], "2 1 ; 2 0 1"),
        Case::new(3, 3, vec![1, 0, 0, 0, 2, 0, 0, 0, 2], "1 1 ; 2 0 1"),
    ]
}

/// The matrices from PARI/GP, one to a line: p n : matrix : polynomials.
pub fn vectors(path: &str) -> Vec<Case> {
    let text = std::fs::read_to_string(path).expect("the vectors");
    let case = |line: &str| {
        let part: Vec<&str> = line.split(':').collect();
        let head = numbers(part[0]);
        let a = numbers(part[1]).iter().map(|x| *x as u8).collect();
        Case::new(head[0], head[1] as usize, a, part[2])
    };
    text.lines().map(case).collect()
}

/// Another basis of the same form: T g(F) for a polynomial g with g(F) invertible; a constant g always serves.
pub fn other_basis(r: &mut Numbers, f: Field, t: &Matrix, form: &Matrix) -> Matrix {
    let n = t.len();
    for tried in 0..20 {
        let c = 1 + r.below(f.p as u64 - 1) as u32;
        let d = if tried < 19 {
            r.below(f.p as u64) as u32
        } else {
            0
        };
        let entry = |i: usize, j: usize| (c * ((i == j) as u32) + d * form[i][j]) % f.p;
        let g: Matrix = (0..n)
            .map(|i| (0..n).map(|j| entry(i, j)).collect())
            .collect();
        let candidate = f.product(t, &g);
        if f.invert(&candidate).is_some() {
            return candidate;
        }
    }
    t.clone()
}

/// A certificate damaged so that the given rule is the first to fail, if this matrix allows it.
pub fn break_rule(c: &Certificate, rule: usize) -> Certificate {
    let (mut d, n) = (c.clone(), c.n);
    let other = |x: u8| ((x as u32 + 1) % c.p) as u8;
    match rule {
        1 => d.payloads[2][..n + 1].iter_mut().for_each(|x| *x = 0),
        2 => (0..n + 1).for_each(|k| d.payloads[2][k] = (k == 1) as u8),
        3 => (0..n * (n + 1)).for_each(|k| d.payloads[2][k] = (k % (n + 1) == 0) as u8),
        4 => d.payloads[4][0] = other(c.payloads[4][0]),
        5 => d.payloads[6][0] = other(c.payloads[6][0]),
        6 => d.payloads[1][0] = other(c.payloads[1][0]),
        7 => d.payloads[7][0] = other(c.payloads[7][0]),
        8 => d.payloads[9].iter_mut().for_each(|x| *x = 0),
        _ => {
            let e: Vec<u8> = (0..n * n).map(|k| (k / n == k % n) as u8).collect();
            d.payloads[8] = e.clone();
            d.payloads[9] = e;
        }
    }
    d
}

fn build(n: usize, mut entry: impl FnMut(usize, usize) -> u32) -> Matrix {
    let mut m = vec![vec![0; n]; n];
    for i in 0..n {
        for j in 0..n {
            m[i][j] = entry(i, j);
        }
    }
    m
}

/// The companion blocks of monic polynomials, in the order given, whether each divides the next or not.
fn blocks(f: Field, n: usize, polynomials: &[Poly]) -> Matrix {
    let mut d = polynomials.to_vec();
    d.resize(n, vec![1]);
    frobenius(f, &d)
}

fn monic(r: &mut Numbers, f: Field, degree: usize) -> Poly {
    let mut g: Poly = (0..degree).map(|_| r.below(f.p as u64) as u32).collect();
    g.push(1);
    g
}

/// Degrees that add up to n.
fn degrees(r: &mut Numbers, n: usize) -> Vec<usize> {
    let (mut left, mut parts) = (n, vec![]);
    while left > 0 {
        let part = 1 + r.below(left as u64) as usize;
        parts.push(part);
        left -= part;
    }
    parts
}

fn permutation(r: &mut Numbers, n: usize) -> Matrix {
    let mut order: Vec<usize> = (0..n).collect();
    for k in (1..n).rev() {
        order.swap(k, r.below(k as u64 + 1) as usize);
    }
    build(n, |i, j| (order[i] == j) as u32)
}

/// Equal companion blocks of one random polynomial, and zeros where they leave room.
pub fn repeated_blocks(r: &mut Numbers, f: Field, n: usize) -> Matrix {
    let degree = 1 + r.below(n as u64) as usize;
    let g = monic(r, f, degree);
    blocks_with_zeros(f, n, &vec![g; n / degree])
}

/// Companion blocks, and zeros where they leave room.
fn blocks_with_zeros(f: Field, n: usize, polynomials: &[Poly]) -> Matrix {
    let used: usize = polynomials.iter().map(|g| g.len() - 1).sum();
    let mut d = polynomials.to_vec();
    d.resize(polynomials.len() + n - used, vec![0, 1]);
    blocks(f, n, &d)
}

/// A matrix of each kind that has blocks of its own, and a random one.
pub fn structured(r: &mut Numbers, f: Field, n: usize) -> Vec<Matrix> {
    let residue = |r: &mut Numbers| r.below(f.p as u64) as u32;
    let (c, d) = (residue(r), residue(r));
    let parts = degrees(r, n);
    let nilpotent: Vec<Poly> = parts.iter().map(|k| power_of_x(*k)).collect();
    let mixed: Vec<Poly> = parts.iter().map(|k| monic(r, f, *k)).collect();
    let whole = monic(r, f, n);
    vec![
        build(n, |_, _| 0),
        build(n, |i, j| (i == j) as u32),
        build(n, |i, j| if i == j { c } else { 0 }),
        build(n, |i, j| if i == j { residue(r) } else { 0 }),
        build(n, |i, j| if i == j { [c, d][i % 2] } else { 0 }),
        build(n, |i, j| if i < j { residue(r) } else { 0 }),
        build(n, |i, j| {
            if r.below(4) == 0 || i == j {
                residue(r)
            } else {
                0
            }
        }),
        build(n, |_, _| f.p - 1),
        blocks(f, n, &nilpotent),
        blocks(f, n, &mixed),
        blocks(f, n, &[whole]),
        repeated_blocks(r, f, n),
        permutation(r, n),
        r.matrix(f, n),
    ]
}

/// X^k
fn power_of_x(k: usize) -> Poly {
    let mut g = vec![0; k];
    g.push(1);
    g
}

/// C^-1 A C for a random invertible C.
pub fn conjugate(r: &mut Numbers, f: Field, a: &Matrix) -> Matrix {
    let c = r.invertible(f, a.len());
    let inverse = f.invert(&c).expect("C is invertible");
    f.product(&inverse, &f.product(a, &c))
}
