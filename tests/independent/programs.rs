//! Runs the programs blockform and blockcheck on document 01's cases, on every matrix of small orders, on the vectors of
//! tests/vectors and on damaged input, and compares what they print with the document and with the independent program.
//! Usage: programs check BLOCKCHECK, or programs form BLOCKFORM VECTORS; the variable RUNNER may name an emulator for x86-64.
mod cases;
mod independent;

use cases::*;
use independent::*;
use std::io::Write;
use std::process::{Command, Stdio};

struct Runner {
    before: Vec<String>,
    cases: usize,
    wrong: usize,
}

impl Runner {
    fn output(&self, program: &str, input: &[u8]) -> String {
        let mut words = self.before.clone();
        words.push(program.to_string());
        let mut child = Command::new(&words[0])
            .args(&words[1..])
            .stdin(Stdio::piped())
            .stdout(Stdio::piped())
            .spawn()
            .expect("the program starts");
        // a program that needs no more input may close it early
        let _ = child.stdin.take().expect("its input").write_all(input);
        String::from_utf8_lossy(&child.wait_with_output().expect("its output").stdout).into_owned()
    }

    fn expect(&mut self, program: &str, input: &[u8], wanted: &str) {
        self.cases += 1;
        let got = self.output(program, input);
        if got != wanted {
            self.wrong += 1;
            if self.wrong < 10 {
                println!("{program} on {:?}\nprints {got:?}\nand not {wanted:?}", &input[..input.len().min(200)]);
            }
        }
    }
}

fn request(p: u8, n: u8, a: &[u8]) -> Vec<u8> {
    let mut s = b"HD\x02\x00".to_vec();
    s.extend_from_slice(&[p, n]);
    s.extend_from_slice(b"MA");
    s.extend_from_slice(&[(a.len() % 256) as u8, (a.len() / 256) as u8]);
    s.extend_from_slice(a);
    s
}

/// The listing for a matrix whose polynomials are known.
fn listing_of(case: &Case) -> String {
    let (p, n, d) = (case.p, case.n, case.diagonal());
    let row = |v: &[u32]| v.iter().map(|x| x.to_string()).collect::<Vec<_>>().join(" ");
    let mut out = format!("p {p} n {n}\n");
    for (i, g) in d.iter().enumerate() {
        out += &format!("D {}: {}\n", i + 1, row(g));
    }
    for (i, r) in frobenius(Field { p }, &d).iter().enumerate() {
        out += &format!("F {}: {}\n", i + 1, row(r));
    }
    let lead: usize = d.iter().map(|g| g.iter().position(|c| *c != 0).expect("a coefficient")).sum();
    out + &format!("lead {lead}\n")
}

fn forms(run: &mut Runner, program: &str, path: &str) {
    let b = request(5, 2, &[2, 1, 0, 3]);
    run.expect(program, &b, "p 5 n 2\nD 1: 1\nD 2: 1 0 1\nF 1: 0 4\nF 2: 1 0\nlead 0\n");
    for case in document_cases() {
        run.expect(program, &request(case.p as u8, case.n as u8, &case.a), &listing_of(&case));
    }
    run.expect(program, &request(5, 0, &[]), "refused 1 0\n");
    run.expect(program, &request(9, 13, &[]), "refused 1 13\n");
    run.expect(program, &request(9, 2, &[0; 4]), "refused 2 9\n");
    run.expect(program, &request(251, 1, &[250]), "p 251 n 1\nD 1: 1 1\nF 1: 250\nlead 0\n");
    run.expect(program, &request(5, 2, &[0, 0, 0, 5]), "refused 9 13\n");
    run.expect(program, &request(5, 2, &[0, 0, 0]), "refused 8 8\n");
    for cut in 0..b.len() {
        run.expect(program, &b[..cut], &listing(&b[..cut]));
        for value in [0, 1, 5, 12, 13, 255] {
            let mut s = b.clone();
            s[cut] = value;
            run.expect(program, &s, &listing(&s));
        }
    }
    let longer = [&b[..], &[0; 70_000]].concat();
    run.expect(program, &longer, "refused 10 14\n");
    for (p, n) in [(2u32, 1usize), (2, 2), (2, 3), (3, 2), (5, 2)] {
        for code in 0..p.pow((n * n) as u32) {
            let a: Vec<u8> = (0..n * n).map(|k| (code / p.pow(k as u32) % p) as u8).collect();
            let s = request(p as u8, n as u8, &a);
            run.expect(program, &s, &listing(&s));
        }
    }
    for case in vectors(path) {
        run.expect(program, &request(case.p as u8, case.n as u8, &case.a), &listing_of(&case));
    }
}

fn checks(run: &mut Runner, program: &str) {
    let mut r = Numbers(7);
    let b = certify(Field { p: 5 }, &vec![vec![2, 1], vec![0, 3]]);
    let bytes = b.bytes();
    run.expect(program, &[], "refused 6 0\n");
    run.expect(program, &bytes, "accepted\n");
    run.expect(program, &bytes[..95], "refused 6 88\n");
    run.expect(program, &[&bytes[..], &[0]].concat(), "refused 10 96\n");
    run.expect(program, &[&bytes[..], &[7; 70_000]].concat(), "refused 10 96\n");
    let mut zero = b.clone();
    zero.payloads[8] = vec![0; 4];
    zero.payloads[9] = vec![0; 4];
    run.expect(program, &zero.bytes(), "refused 11 8\n");
    let mut seen = [false; 12];
    for rule in 1..=9 {
        let s = break_rule(&b, rule).bytes();
        let wanted = check_line(&s);
        seen[check(&s).1 as usize] |= wanted.starts_with("refused 11");
        run.expect(program, &s, &wanted);
    }
    if !(1..=9).all(|k| seen[k]) {
        println!("some rule is never the first to fail: {seen:?}");
        run.wrong += 1;
    }
    for n in 1..=4 {
        let f = Field { p: [2, 3, 5, 251][n - 1] };
        let s = certify(f, &r.matrix(f, n)).bytes();
        for at in 0..s.len() {
            for value in [s[at].wrapping_add(1), s[at] ^ 128, 255, 0] {
                let mut t = s.clone();
                t[at] = value;
                run.expect(program, &t, &check_line(&t));
            }
            run.expect(program, &s[..at], &check_line(&s[..at]));
        }
    }
    for p in [2, 3, 5, 7, 127, 241, 251] {
        for n in 1..=LIMIT {
            let f = Field { p };
            let a = r.matrix(f, n);
            let d = invariants(f, &a);
            let form = frobenius(f, &d);
            let t = basis(f, &a, &form);
            run.expect(program, &certify_in(f, &a, &d, &t).bytes(), "accepted\n");
            let other = other_basis(&mut r, f, &t, &form);
            run.expect(program, &certify_in(f, &a, &d, &other).bytes(), "accepted\n");
        }
    }
}

fn main() {
    let words: Vec<String> = std::env::args().collect();
    let before = std::env::var("RUNNER").unwrap_or_default().split_whitespace().map(String::from).collect();
    let mut run = Runner { before, cases: 0, wrong: 0 };
    match words[1].as_str() {
        "check" => checks(&mut run, &words[2]),
        _ => forms(&mut run, &words[2], &words[3]),
    }
    println!("{}: {} cases, {} wrong", words[2], run.cases, run.wrong);
    std::process::exit((run.wrong != 0) as i32);
}
