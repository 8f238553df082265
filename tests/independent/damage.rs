//! Certificates with faults: each byte changed, each length, records moved, payloads of other certificates, and bytes at random.
use crate::cases::*;
use crate::independent::*;
use crate::operations::Library;

/// The check and a finding on the same bytes.
fn expect_both(library: &mut Library, s: &[u8], turn: usize) {
    library.expect_check(s);
    library.expect_find(s, MARKS[turn % MARKS.len()]);
}

/// The other 255 values of every byte.
fn every_byte(library: &mut Library, s: &[u8]) {
    let mut changed = s.to_vec();
    for at in 0..s.len() {
        for step in 1..=255 {
            changed[at] = s[at].wrapping_add(step);
            expect_both(library, &changed, at + step as usize);
        }
        changed[at] = s[at];
    }
}

/// Every shorter length, and longer ones.
fn every_length(library: &mut Library, s: &[u8]) {
    for end in 0..s.len() {
        expect_both(library, &s[..end], end);
    }
    for more in [1, 2, 3, 4, 5, 100, 70_000, 1_000_000] {
        for byte in [0, b'H', 255] {
            let mut longer = s.to_vec();
            longer.resize(s.len() + more, byte);
            expect_both(library, &longer, more);
        }
    }
    expect_both(library, &[s, s].concat(), 0);
}

/// One payload longer or shorter, with the length that belongs to it and with the one that is due.
fn other_lengths(library: &mut Library, c: &Certificate) {
    for record in 0..MARKS.len() {
        for change in [-1i32, 1, 256] {
            let mut d = c.clone();
            let length = (d.payloads[record].len() as i32 + change).max(0) as usize;
            d.payloads[record].resize(length, 0);
            let mut s = d.bytes();
            expect_both(library, &s, record);
            let at: usize = d.payloads[..record]
                .iter()
                .map(|payload| 4 + payload.len())
                .sum();
            let due = c.payloads[record].len();
            s[at + 2..at + 4].copy_from_slice(&[(due % 256) as u8, (due / 256) as u8]);
            expect_both(library, &s, record);
        }
    }
}

/// The records of a certificate as they stand in its bytes.
fn records(c: &Certificate) -> Vec<Vec<u8>> {
    let whole = c.bytes();
    let mut at = 0;
    let mut cut = |payload: &Vec<u8>| {
        at += 4 + payload.len();
        whole[at - 4 - payload.len()..at].to_vec()
    };
    c.payloads.iter().map(&mut cut).collect()
}

/// A record dropped, doubled, or changed with another.
fn other_orders(library: &mut Library, c: &Certificate) {
    let whole = records(c);
    for i in 0..whole.len() {
        let mut fewer = whole.clone();
        fewer.remove(i);
        expect_both(library, &fewer.concat(), i);
        let mut more = whole.clone();
        more.insert(i, whole[i].clone());
        expect_both(library, &more.concat(), i);
        for j in 0..i {
            let mut changed = whole.clone();
            changed.swap(i, j);
            expect_both(library, &changed.concat(), i + j);
        }
    }
}

/// Payloads of one certificate in another of the same prime and order: most break a rule.
fn mixed(library: &mut Library, r: &mut Numbers, c: &Certificate, d: &Certificate) {
    for _ in 0..40 {
        let mut both = c.clone();
        let choice = r.below(1 << 10);
        for record in (0..MARKS.len()).filter(|record| choice >> record & 1 == 1) {
            both.payloads[record] = d.payloads[record].clone();
        }
        expect_both(library, &both.bytes(), choice as usize);
    }
}

/// A few bytes changed at once, mostly to other residues.
fn few_bytes(library: &mut Library, r: &mut Numbers, c: &Certificate) {
    for _ in 0..60 {
        let mut s = c.bytes();
        for _ in 0..1 + r.below(3) {
            let at = r.below(s.len() as u64) as usize;
            let limit = if r.below(8) == 0 { 256 } else { c.p as u64 };
            s[at] = r.below(limit) as u8;
        }
        expect_both(library, &s, s.len());
    }
}

/// Bytes that were never a certificate, short and long, with and without a head that is one's.
fn never_certificates(library: &mut Library, r: &mut Numbers) {
    for turn in 0..3000 {
        let length = r.below(if turn % 100 == 0 { 100_000 } else { 200 }) as usize;
        let mut s: Vec<u8> = (0..length).map(|_| r.below(256) as u8).collect();
        let head = [
            b'H',
            b'D',
            2,
            0,
            r.below(256) as u8,
            r.below(16) as u8,
            b'M',
            b'A',
        ];
        let kept = r.below(9).min(length as u64) as usize;
        s[..kept].copy_from_slice(&head[..kept]);
        expect_both(library, &s, turn);
    }
}

/// Every mark of two bytes, the ten with more and with fewer bytes, on a certificate that is read and on one that is not.
fn every_mark(library: &mut Library, s: &[u8]) {
    for code in 0..=0xFFFFu32 {
        library.expect_find(s, &[code as u8, (code >> 8) as u8]);
    }
    for whole in [s, &s[..s.len() - 1], &[]] {
        for mark in MARKS {
            let longer = [mark[0], mark[1], 0, mark[0]];
            for length in 0..=4 {
                library.expect_find(whole, &longer[..length]);
            }
            library.expect_find(whole, &[mark[1], mark[0]]);
            library.expect_find(whole, &mark.to_ascii_lowercase());
        }
    }
}

/// A certificate of the library's own, taken apart.
fn own(library: &mut Library, f: Field, a: &Matrix) -> Certificate {
    let flat: Vec<u8> = a.iter().flatten().map(|x| *x as u8).collect();
    let s = library.expect_analysis(f.p as u64, a.len() as u64, &flat, 7686);
    let payloads = payloads(&s, a.len(), 10)
        .iter()
        .map(|part| part.to_vec())
        .collect();
    Certificate {
        p: f.p,
        n: a.len(),
        payloads,
    }
}

/// Small orders: every byte, of a certificate of the library's and of one that it did not make.
fn small_orders(library: &mut Library, r: &mut Numbers, rounds: usize) {
    for n in 1..=4 {
        for p in [251, 5, 2].iter().cycle().take(rounds) {
            let f = Field { p: *p };
            let c = own(library, f, &r.matrix(f, n));
            every_byte(library, &c.bytes());
            let blocks = repeated_blocks(r, f, n);
            every_byte(library, &certify(f, &conjugate(r, f, &blocks)).bytes());
        }
    }
}

/// Every order: lengths, records and payloads.
fn every_order(library: &mut Library, r: &mut Numbers) {
    for n in 1..=LIMIT {
        for p in [2, 3, 251] {
            let f = Field { p };
            let (c, d) = (
                own(library, f, &r.matrix(f, n)),
                certify(f, &r.matrix(f, n)),
            );
            if n <= 4 || n == LIMIT && p == 251 {
                every_length(library, &c.bytes());
            }
            other_lengths(library, &d);
            other_orders(library, &c);
            mixed(library, r, &c, &d);
            few_bytes(library, r, &c);
        }
    }
}

pub fn all(library: &mut Library, rounds: usize) {
    let mut r = Numbers(23);
    small_orders(library, &mut r, rounds);
    every_order(library, &mut r);
    never_certificates(library, &mut r);
    let b = own(library, Field { p: 5 }, &vec![vec![2, 1], vec![0, 3]]);
    every_mark(library, &b.bytes());
}
