//! An independent analysis and check of state matrices, written from document 01 and from nothing else of this repository:
//! the Smith form of XE-A by polynomial elimination with transformations, T from the transformations, and a reader and a
//! checker that multiply everything out. It is slow and plain on purpose; the tests compare the library with it.
#![allow(dead_code)]

pub const LIMIT: usize = 12;

/// Coefficients, constant term first, with no zero at the end.
pub type Poly = Vec<u32>;
pub type Matrix = Vec<Vec<u32>>;
pub type PolyMatrix = Vec<Vec<Poly>>;

#[derive(Clone, Copy)]
pub struct Field {
    pub p: u32,
}

impl Field {
    pub fn neg(self, a: u32) -> u32 {
        (self.p - a % self.p) % self.p
    }

    /// By Fermat's theorem; 0 for 0.
    pub fn inverse(self, a: u32) -> u32 {
        let (mut r, mut b, mut e) = (1 % self.p, a % self.p, self.p - 2);
        if a % self.p == 0 {
            return 0;
        }
        while e > 0 {
            if e & 1 == 1 {
                r = r * b % self.p;
            }
            b = b * b % self.p;
            e >>= 1;
        }
        r
    }

    pub fn trim(self, mut f: Poly) -> Poly {
        while f.last() == Some(&0) {
            f.pop();
        }
        f
    }

    pub fn add(self, f: &Poly, g: &Poly) -> Poly {
        let n = f.len().max(g.len());
        let at = |h: &Poly, i: usize| h.get(i).copied().unwrap_or(0);
        self.trim((0..n).map(|i| (at(f, i) + at(g, i)) % self.p).collect())
    }

    pub fn scale(self, c: u32, f: &Poly) -> Poly {
        self.trim(f.iter().map(|a| c * a % self.p).collect())
    }

    pub fn sub(self, f: &Poly, g: &Poly) -> Poly {
        self.add(f, &self.scale(self.p - 1, g))
    }

    pub fn mul(self, f: &Poly, g: &Poly) -> Poly {
        if f.is_empty() || g.is_empty() {
            return vec![];
        }
        let mut r = vec![0u32; f.len() + g.len() - 1];
        for (i, a) in f.iter().enumerate() {
            for (j, b) in g.iter().enumerate() {
                r[i + j] = (r[i + j] + a * b) % self.p;
            }
        }
        self.trim(r)
    }

    /// Quotient and remainder by a divisor that is not zero.
    pub fn divide(self, f: &Poly, g: &Poly) -> (Poly, Poly) {
        let (mut r, lead) = (f.clone(), self.inverse(*g.last().expect("a divisor")));
        let mut q = vec![0u32; (f.len() + 1).saturating_sub(g.len())];
        while r.len() >= g.len() {
            let (k, c) = (r.len() - g.len(), r[r.len() - 1] * lead % self.p);
            q[k] = c;
            for (i, b) in g.iter().enumerate() {
                r[i + k] = (r[i + k] + self.neg(c * b % self.p)) % self.p;
            }
            r = self.trim(r);
        }
        (self.trim(q), r)
    }

    pub fn product(self, a: &Matrix, b: &Matrix) -> Matrix {
        let n = a.len();
        (0..n).map(|i| (0..n).map(|j| (0..n).map(|k| a[i][k] * b[k][j]).sum::<u32>() % self.p).collect()).collect()
    }

    pub fn poly_product(self, a: &PolyMatrix, b: &PolyMatrix) -> PolyMatrix {
        let n = a.len();
        let entry = |i: usize, j: usize| (0..n).fold(vec![], |s, k| self.add(&s, &self.mul(&a[i][k], &b[k][j])));
        (0..n).map(|i| (0..n).map(|j| entry(i, j)).collect()).collect()
    }

    pub fn constants(self, a: &Matrix) -> PolyMatrix {
        a.iter().map(|r| r.iter().map(|x| self.trim(vec![*x])).collect()).collect()
    }

    /// XE-A
    pub fn characteristic(self, a: &Matrix) -> PolyMatrix {
        let n = a.len();
        let entry = |i: usize, j: usize| self.trim(vec![self.neg(a[i][j]), (i == j) as u32]);
        (0..n).map(|i| (0..n).map(|j| entry(i, j)).collect()).collect()
    }

    /// The inverse by elimination, if there is one.
    pub fn invert(self, a: &Matrix) -> Option<Matrix> {
        let n = a.len();
        let mut m: Matrix = (0..n).map(|i| a[i].iter().copied().chain((0..n).map(|j| (i == j) as u32)).collect()).collect();
        for c in 0..n {
            let q = (c..n).find(|&r| m[r][c] != 0)?;
            m.swap(c, q);
            let d = self.inverse(m[c][c]);
            for x in m[c].iter_mut() {
                *x = *x * d % self.p;
            }
            for r in 0..n {
                if r != c && m[r][c] != 0 {
                    let k = self.neg(m[r][c]);
                    for j in 0..2 * n {
                        m[r][j] = (m[r][j] + k * m[c][j]) % self.p;
                    }
                }
            }
        }
        Some(m.into_iter().map(|r| r[n..].to_vec()).collect())
    }
}

pub fn identity(n: usize) -> PolyMatrix {
    (0..n).map(|i| (0..n).map(|j| if i == j { vec![1] } else { vec![] }).collect()).collect()
}

/// A polynomial matrix with the row operations (left), the column operations (right) and both inverses kept beside it.
pub struct Elimination {
    f: Field,
    pub m: PolyMatrix,
    pub left: PolyMatrix,
    pub left_inverse: PolyMatrix,
    pub right: PolyMatrix,
    pub right_inverse: PolyMatrix,
}

impl Elimination {
    pub fn new(f: Field, m: PolyMatrix) -> Self {
        let e = identity(m.len());
        Elimination { f, m, left: e.clone(), left_inverse: e.clone(), right: e.clone(), right_inverse: e }
    }

    /// row i += c row j
    pub fn add_row(&mut self, i: usize, c: &Poly, j: usize) {
        let f = self.f;
        for k in 0..self.m.len() {
            self.m[i][k] = f.add(&self.m[i][k], &f.mul(c, &self.m[j][k]));
            self.left[i][k] = f.add(&self.left[i][k], &f.mul(c, &self.left[j][k]));
            self.left_inverse[k][j] = f.sub(&self.left_inverse[k][j], &f.mul(c, &self.left_inverse[k][i]));
        }
    }

    /// column i += c column j
    pub fn add_column(&mut self, i: usize, c: &Poly, j: usize) {
        let f = self.f;
        for k in 0..self.m.len() {
            self.m[k][i] = f.add(&self.m[k][i], &f.mul(c, &self.m[k][j]));
            self.right[k][i] = f.add(&self.right[k][i], &f.mul(c, &self.right[k][j]));
            self.right_inverse[j][k] = f.sub(&self.right_inverse[j][k], &f.mul(c, &self.right_inverse[i][k]));
        }
    }

    pub fn swap_rows(&mut self, i: usize, j: usize) {
        self.m.swap(i, j);
        self.left.swap(i, j);
        self.left_inverse.iter_mut().for_each(|r| r.swap(i, j));
    }

    pub fn swap_columns(&mut self, i: usize, j: usize) {
        self.m.iter_mut().for_each(|r| r.swap(i, j));
        self.right.iter_mut().for_each(|r| r.swap(i, j));
        self.right_inverse.swap(i, j);
    }

    pub fn scale_row(&mut self, i: usize, c: u32) {
        let (f, d) = (self.f, self.f.inverse(c));
        for k in 0..self.m.len() {
            self.m[i][k] = f.scale(c, &self.m[i][k]);
            self.left[i][k] = f.scale(c, &self.left[i][k]);
            self.left_inverse[k][i] = f.scale(d, &self.left_inverse[k][i]);
        }
    }

    /// Brings m to Smith form.
    pub fn smith(&mut self) {
        let n = self.m.len();
        for t in 0..n {
            self.clear_from(t);
            let c = self.f.inverse(*self.m[t][t].last().expect("no entry of the Smith form of XE-A is zero"));
            self.scale_row(t, c);
        }
    }

    fn clear_from(&mut self, t: usize) {
        let n = self.m.len();
        loop {
            let cells = (t..n).flat_map(|i| (t..n).map(move |j| (i, j)));
            let (i, j) = cells.filter(|&(i, j)| !self.m[i][j].is_empty()).min_by_key(|&(i, j)| self.m[i][j].len()).expect("a pivot");
            self.swap_rows(t, i);
            self.swap_columns(t, j);
            let mut clean = true;
            for i in t + 1..n {
                let q = self.f.divide(&self.m[i][t], &self.m[t][t]).0;
                self.add_row(i, &self.f.scale(self.f.p - 1, &q), t);
                clean &= self.m[i][t].is_empty();
            }
            for j in t + 1..n {
                let q = self.f.divide(&self.m[t][j], &self.m[t][t]).0;
                self.add_column(j, &self.f.scale(self.f.p - 1, &q), t);
                clean &= self.m[t][j].is_empty();
            }
            if !clean {
                continue;
            }
            let bad = (t + 1..n).find(|&i| (t + 1..n).any(|j| !self.f.divide(&self.m[i][j], &self.m[t][t]).1.is_empty()));
            match bad {
                Some(i) => self.add_row(t, &vec![1], i),
                None => return,
            }
        }
    }
}

/// The polynomials of D.
pub fn invariants(f: Field, a: &Matrix) -> Vec<Poly> {
    let mut e = Elimination::new(f, f.characteristic(a));
    e.smith();
    (0..a.len()).map(|i| e.m[i][i].clone()).collect()
}

pub fn frobenius(f: Field, d: &[Poly]) -> Matrix {
    let n = d.len();
    let (mut m, mut head) = (vec![vec![0; n]; n], 0);
    for g in d {
        let k = g.len() - 1;
        for i in 0..k {
            if i + 1 < k {
                m[head + i + 1][head + i] = 1;
            }
            m[head + i][head + k - 1] = (m[head + i][head + k - 1] + f.neg(g[i])) % f.p;
        }
        head += k;
    }
    m
}

/// T with A T = T F: the right value at F of the polynomial matrix that carries XE-F to XE-A.
pub fn basis(f: Field, a: &Matrix, form: &Matrix) -> Matrix {
    let n = a.len();
    let (mut of_a, mut of_f) = (Elimination::new(f, f.characteristic(a)), Elimination::new(f, f.characteristic(form)));
    of_a.smith();
    of_f.smith();
    let w = f.poly_product(&of_a.right, &of_f.right_inverse);
    let degree = w.iter().flatten().map(|x| x.len()).max().unwrap_or(0);
    let mut power: Matrix = (0..n).map(|i| (0..n).map(|j| (i == j) as u32).collect()).collect();
    let mut t = vec![vec![0u32; n]; n];
    for k in 0..degree {
        let part: Matrix = w.iter().map(|r| r.iter().map(|x| x.get(k).copied().unwrap_or(0)).collect()).collect();
        let part = f.product(&part, &power);
        for i in 0..n {
            for j in 0..n {
                t[i][j] = (t[i][j] + part[i][j]) % f.p;
            }
        }
        power = f.product(&power, form);
    }
    t
}

/// XE-F brought to D by row operations within each block, then column operations, then the order of D.
pub fn reduce_blocks(f: Field, d: &[Poly], form: &Matrix) -> Elimination {
    let n = d.len();
    let mut e = Elimination::new(f, f.characteristic(form));
    let mut head = 0;
    let mut places = vec![];
    for (b, g) in d.iter().enumerate() {
        let k = g.len() - 1;
        for i in (1..k).rev() {
            e.add_row(head + i - 1, &vec![0, 1], head + i);
        }
        for i in 1..k {
            let c = e.m[head + i][head + k - 1].clone();
            e.add_column(head + k - 1, &c, head + i - 1);
            e.scale_row(head + i, f.p - 1);
        }
        for i in (1..k).rev() {
            e.swap_columns(head + i, head + i - 1);
        }
        if k > 0 {
            places.push((head, b));
        }
        head += k;
    }
    // the heads, from the last one down, go to their places in D
    for &(from, to) in places.iter().rev() {
        let mut at = from;
        while at < to {
            e.swap_rows(at, at + 1);
            e.swap_columns(at, at + 1);
            at += 1;
        }
    }
    debug_assert!((0..n).all(|i| e.m[i][i] == d[i]));
    e
}

/// One certificate, record by record.
#[derive(Clone)]
pub struct Certificate {
    pub p: u32,
    pub n: usize,
    pub payloads: Vec<Vec<u8>>,
}

pub const MARKS: [&[u8; 2]; 10] = [b"HD", b"MA", b"DF", b"PL", b"PI", b"QR", b"QI", b"FB", b"TB", b"TI"];

pub fn sizes(n: usize) -> [usize; 10] {
    [2, n * n, n * (n + 1), n * n * n, n * n * n, n * n * n, n * n * n, n * n, n * n, n * n]
}

impl Certificate {
    pub fn bytes(&self) -> Vec<u8> {
        let mut out = vec![];
        for (mark, payload) in MARKS.iter().zip(&self.payloads) {
            out.extend_from_slice(&mark[..]);
            out.extend_from_slice(&[(payload.len() % 256) as u8, (payload.len() / 256) as u8]);
            out.extend_from_slice(payload);
        }
        out
    }
}

fn flat(m: &Matrix) -> Vec<u8> {
    m.iter().flatten().map(|x| *x as u8).collect()
}

fn flat_polys(m: &PolyMatrix, n: usize) -> Vec<u8> {
    let entry = |f: &Poly| -> Vec<u8> {
        assert!(f.len() <= n, "an entry of degree {} at order {}", f.len() - 1, n);
        (0..n).map(|k| f.get(k).copied().unwrap_or(0) as u8).collect()
    };
    m.iter().flatten().flat_map(entry).collect()
}

/// A certificate of A in the basis T (any invertible T with A T = T F).
pub fn certify_in(f: Field, a: &Matrix, d: &[Poly], t: &Matrix) -> Certificate {
    let n = a.len();
    let form = frobenius(f, d);
    let inverse = f.invert(t).expect("T is invertible");
    let e = reduce_blocks(f, d, &form);
    let (pt, pi) = (f.constants(t), f.constants(&inverse));
    let diagonal = d.iter().flat_map(|g| (0..n + 1).map(move |k| g.get(k).copied().unwrap_or(0) as u8)).collect();
    let payloads = vec![
        vec![f.p as u8, n as u8],
        flat(a),
        diagonal,
        flat_polys(&f.poly_product(&e.left, &pi), n),
        flat_polys(&f.poly_product(&pt, &e.left_inverse), n),
        flat_polys(&f.poly_product(&pt, &e.right), n),
        flat_polys(&f.poly_product(&e.right_inverse, &pi), n),
        flat(&form),
        flat(t),
        flat(&inverse),
    ];
    Certificate { p: f.p, n, payloads }
}

pub fn certify(f: Field, a: &Matrix) -> Certificate {
    let d = invariants(f, a);
    let t = basis(f, a, &frobenius(f, &d));
    certify_in(f, a, &d, &t)
}

pub fn is_prime(p: u64) -> bool {
    (2..=251).contains(&p) && (2..p).all(|d| p % d != 0)
}

/// The reading of the first `count` records: a number and a place, or p and n.
pub fn read(s: &[u8], count: usize) -> Result<(u32, usize), (u32, u64)> {
    let (mut at, mut p, mut n) = (0usize, 0u8, 0usize);
    for k in 0..count {
        let left = s.len() - at;
        if left < 4 {
            return Err((6, at as u64));
        }
        if &s[at..at + 2] != MARKS[k] {
            return Err((7, at as u64));
        }
        let size = sizes(n)[k];
        if s[at + 2] as usize + 256 * s[at + 3] as usize != size {
            return Err((8, at as u64 + 2));
        }
        if left < 4 + size {
            return Err((6, at as u64));
        }
        let payload = &s[at + 4..at + 4 + size];
        if k == 0 {
            (p, n) = (payload[0], payload[1] as usize);
            if n < 1 || n > LIMIT {
                return Err((1, n as u64));
            }
            if !is_prime(p as u64) {
                return Err((2, p as u64));
            }
        } else if let Some(i) = payload.iter().position(|b| *b >= p) {
            return Err((9, (at + 4 + i) as u64));
        }
        at += 4 + size;
    }
    if at < s.len() {
        return Err((10, at as u64));
    }
    Ok((p as u32, n))
}

pub fn payloads(s: &[u8], n: usize, count: usize) -> Vec<&[u8]> {
    let mut at = 0;
    sizes(n)[..count].iter().map(|z| { at += 4 + z; &s[at - z..at] }).collect()
}

pub fn matrix(s: &[u8], n: usize) -> Matrix {
    s.chunks(n).map(|r| r.iter().map(|x| *x as u32).collect()).collect()
}

fn poly_matrix(f: Field, s: &[u8], n: usize) -> PolyMatrix {
    s.chunks(n * n).map(|r| r.chunks(n).map(|c| f.trim(c.iter().map(|x| *x as u32).collect())).collect()).collect()
}

/// The first rule that fails, or 0.
pub fn rules(f: Field, n: usize, parts: &[&[u8]]) -> u32 {
    let d: Vec<Poly> = parts[2].chunks(n + 1).map(|c| f.trim(c.iter().map(|x| *x as u32).collect())).collect();
    let a = matrix(parts[1], n);
    let (p, pi) = (poly_matrix(f, parts[3], n), poly_matrix(f, parts[4], n));
    let (q, qi) = (poly_matrix(f, parts[5], n), poly_matrix(f, parts[6], n));
    let (form, t, ti) = (matrix(parts[7], n), matrix(parts[8], n), matrix(parts[9], n));
    let diagonal: PolyMatrix = (0..n).map(|i| (0..n).map(|j| if i == j { d[i].clone() } else { vec![] }).collect()).collect();
    let unit: Matrix = (0..n).map(|i| (0..n).map(|j| (i == j) as u32).collect()).collect();
    if d.iter().any(|g| g.last() != Some(&1)) {
        return 1;
    }
    if (1..n).any(|i| !f.divide(&d[i], &d[i - 1]).1.is_empty()) {
        return 2;
    }
    if d.iter().map(|g| g.len() - 1).sum::<usize>() != n {
        return 3;
    }
    if f.poly_product(&p, &pi) != identity(n) {
        return 4;
    }
    if f.poly_product(&q, &qi) != identity(n) {
        return 5;
    }
    if f.poly_product(&f.poly_product(&p, &f.characteristic(&a)), &q) != diagonal {
        return 6;
    }
    if form != frobenius(f, &d) {
        return 7;
    }
    if f.product(&t, &ti) != unit {
        return 8;
    }
    if f.product(&a, &t) != f.product(&t, &form) {
        return 9;
    }
    0
}

/// The check: a number and a place.
pub fn check(s: &[u8]) -> (u32, u64) {
    match read(s, 10) {
        Err(refusal) => refusal,
        Ok((p, n)) => match rules(Field { p }, n, &payloads(s, n, 10)) {
            0 => (0, s.len() as u64),
            rule => (11, rule as u64),
        },
    }
}

pub fn check_line(s: &[u8]) -> String {
    match check(s) {
        (0, _) => "accepted\n".to_string(),
        (number, place) => format!("refused {number} {place}\n"),
    }
}

fn row(x: impl IntoIterator<Item = u32>) -> String {
    x.into_iter().map(|v| v.to_string()).collect::<Vec<_>>().join(" ")
}

/// What blockform prints for an HD and an MA record.
pub fn listing(s: &[u8]) -> String {
    let (p, n) = match read(s, 2) {
        Err((number, place)) => return format!("refused {number} {place}\n"),
        Ok(x) => x,
    };
    let f = Field { p };
    let d = invariants(f, &matrix(payloads(s, n, 2)[1], n));
    let mut out = format!("p {p} n {n}\n");
    for (i, g) in d.iter().enumerate() {
        out += &format!("D {}: {}\n", i + 1, row(g.iter().copied()));
    }
    for (i, r) in frobenius(f, &d).iter().enumerate() {
        out += &format!("F {}: {}\n", i + 1, row(r.iter().copied()));
    }
    let lead: usize = d.iter().map(|g| g.iter().position(|c| *c != 0).unwrap_or(0)).sum();
    out + &format!("lead {lead}\n")
}

/// Numbers for tests: the same ones on every machine.
pub struct Numbers(pub u64);

impl Numbers {
    pub fn next(&mut self) -> u64 {
        self.0 = self.0.wrapping_mul(6364136223846793005).wrapping_add(1442695040888963407);
        self.0 >> 33
    }

    pub fn below(&mut self, n: u64) -> u64 {
        self.next() % n
    }

    pub fn matrix(&mut self, f: Field, n: usize) -> Matrix {
        (0..n).map(|_| (0..n).map(|_| self.below(f.p as u64) as u32).collect()).collect()
    }

    pub fn invertible(&mut self, f: Field, n: usize) -> Matrix {
        loop {
            let m = self.matrix(f, n);
            if f.invert(&m).is_some() {
                return m;
            }
        }
    }
}
