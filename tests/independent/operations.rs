//! The four operations as the archive has them, called on guarded memory, with what document 01 says of each answer, and compared
//! with the safe functions of the wrapper crate.
use crate::answers::*;
use crate::independent::*;
use crate::lent::Room;
use nyargulet::c;
use nyargulet::Refusal;
use std::collections::BTreeSet;
use std::fmt::Debug;

const LARGEST_INPUT: usize = 1 << 20;

/// What place holds before a call.
const UNWRITTEN: u64 = 0x5A5A_5A5A_5A5A_5A5A;

pub struct Library {
    input: Room,
    mark: Room,
    out: Room,
    place: Room,
    calls: usize,
    wrong: usize,
    /// The operations with the numbers that were seen, and the rule where the number is 11.
    seen: BTreeSet<(&'static str, u8, u64)>,
}

fn safe(result: Result<u64, Refusal>) -> Answer {
    match result {
        Ok(place) => (0, place),
        Err(refusal) => (refusal.number, refusal.place),
    }
}

impl Library {
    pub fn new() -> Library {
        let input = Room::new(LARGEST_INPUT);
        let (mark, out, place) = (Room::new(16), Room::new(1 << 16), Room::new(8));
        Library {
            input,
            mark,
            out,
            place,
            calls: 0,
            wrong: 0,
            seen: BTreeSet::new(),
        }
    }

    /// Counts a comparison, and prints the first that fail.
    pub fn same<T: PartialEq + Debug>(&mut self, got: T, wanted: T, what: impl Fn() -> String) {
        if got != wanted {
            self.wrong += 1;
            if self.wrong <= 10 {
                println!("{}: {got:?} and not {wanted:?}", what());
            }
        }
    }

    fn lend_place(&mut self) -> *mut u64 {
        self.calls += 1;
        self.place.lend(&UNWRITTEN.to_ne_bytes()) as *mut u64
    }

    /// What was stored at the place, with the answer noted.
    fn stored(&mut self, operation: &'static str, number: u8) -> u64 {
        let mut bytes = [0; 8];
        bytes.copy_from_slice(self.place.bytes());
        let place = u64::from_ne_bytes(bytes);
        self.seen
            .insert((operation, number, if number == 11 { place } else { 0 }));
        let whole = self.place.margin_is_whole();
        self.same(whole, true, || {
            format!("the bytes beside the place of a {operation}")
        });
        place
    }

    fn input_unchanged(&mut self, s: &[u8], operation: &str) {
        let whole = self.input.is_unchanged(s);
        self.same(whole, true, || format!("the input of a {operation}, {s:?}"));
    }

    /// The answer of the analysis, and what it wrote at the front of an output of `room` bytes.
    pub fn analysis(&mut self, p: u64, n: u64, a: &[u8], room: usize) -> (Answer, Vec<u8>) {
        let before: Vec<u8> = (0..room).map(|k| (k * 7 + 3) as u8).collect();
        let (matrix, out, place) = (
            self.input.lend(a),
            self.out.lend(&before),
            self.lend_place(),
        );
        // SAFETY: each run is lent whole, and none overlaps another.
        let number = unsafe { c::nyargulet_analysis(p, n, matrix, a.len(), out, room, place) };
        let answer = (number, self.stored("analysis", number));
        self.input_unchanged(a, "analysis");
        let written = if number == 0 {
            answer.1.min(room as u64) as usize
        } else {
            0
        };
        let after = self.out.bytes().to_vec();
        let kept = after[written..] == before[written..] && self.out.margin_is_whole();
        self.same(kept, true, || {
            format!("the output past {written}, p {p}, n {n}, {a:?}, room {room}")
        });
        let mut again = before;
        let safely = safe(nyargulet::analysis(p, n, a, &mut again).map(|length| length as u64));
        self.same((safely, &again), (answer, &after), || {
            format!("the safe analysis, p {p}, n {n}, {a:?}, room {room}")
        });
        (answer, after[..written].to_vec())
    }

    pub fn check(&mut self, s: &[u8]) -> Answer {
        let (certificate, place) = (self.input.lend(s), self.lend_place());
        // SAFETY: each run is lent whole, and none overlaps another.
        let number = unsafe { c::nyargulet_check(certificate, s.len(), place) };
        let answer = (number, self.stored("check", number));
        self.input_unchanged(s, "check");
        let safely = safe(nyargulet::check(s).map(|length| length as u64));
        self.same(safely, answer, || format!("the safe check of {s:?}"));
        answer
    }

    /// The start and the length of the part that is found.
    pub fn find(&mut self, s: &[u8], mark: &[u8]) -> (u64, u64) {
        let (certificate, lent, start) =
            (self.input.lend(s), self.mark.lend(mark), self.lend_place());
        // SAFETY: each run is lent whole, and none overlaps another.
        let length = unsafe { c::nyargulet_find(certificate, s.len(), lent, mark.len(), start) };
        let found = (self.stored("find", (length == 0) as u8), length);
        self.input_unchanged(s, "find");
        let whole = self.mark.is_unchanged(mark);
        self.same(whole, true, || format!("the mark {mark:?}"));
        let part = nyargulet::find(s, mark);
        let safely = (part.as_ptr() as u64 - s.as_ptr() as u64, part.len() as u64);
        self.same(safely, found, || {
            format!("the safe find of {mark:?} in {s:?}")
        });
        found
    }

    pub fn reciprocal(&mut self, p: u64, x: u64) -> Answer {
        let value = self.lend_place();
        // SAFETY: the run is lent whole.
        let number = unsafe { c::nyargulet_reciprocal(p, x, value) };
        let answer = (number, self.stored("reciprocal", number));
        let safely = safe(nyargulet::reciprocal(p, x).map(u64::from));
        self.same(safely, answer, || {
            format!("the safe reciprocal of {x} modulo {p}")
        });
        answer
    }

    /// The analysis against document 01's questions in their order; what it writes against the independent check.
    pub fn expect_analysis(&mut self, p: u64, n: u64, a: &[u8], room: usize) -> Vec<u8> {
        let (got, written) = self.analysis(p, n, a, room);
        let wanted = analysis_answer(p, n, a, room);
        self.same(got, wanted, || {
            format!("analysis of {a:?}, p {p}, n {n}, room {room}")
        });
        if got.0 == 0 {
            let checked = self.expect_check(&written);
            self.same(checked, got, || {
                format!("check of the analysis of {a:?}, p {p}, n {n}")
            });
        }
        written
    }

    /// The analysis's D and F against the polynomials of D.
    pub fn expect_forms(&mut self, f: Field, a: &Matrix, d: &[Poly]) {
        let n = a.len();
        let flat: Vec<u8> = a.iter().flatten().map(|x| *x as u8).collect();
        let written = self.expect_analysis(f.p as u64, n as u64, &flat, size(n) + 9);
        let (diagonal, form) = form_payloads(f, d);
        for (mark, wanted) in [(b"MA", flat), (b"DF", diagonal), (b"FB", form)] {
            let (start, length) = self.expect_find(&written, mark);
            let got = written
                .get(start as usize..(start + length) as usize)
                .map(|part| part.to_vec());
            self.same(got, Some(wanted), || {
                format!("{mark:?} of the analysis of {a:?} modulo {}", f.p)
            });
        }
    }

    pub fn expect_check(&mut self, s: &[u8]) -> Answer {
        let got = self.check(s);
        self.same(got, check_answer(s), || format!("check of {s:?}"));
        got
    }

    pub fn expect_find(&mut self, s: &[u8], mark: &[u8]) -> (u64, u64) {
        let got = self.find(s, mark);
        self.same(got, finding(s, mark), || {
            format!("find of {mark:?} in {s:?}")
        });
        got
    }

    pub fn expect_reciprocal(&mut self, p: u64, x: u64) {
        let got = self.reciprocal(p, x);
        self.same(got, reciprocal_answer(p, x), || {
            format!("reciprocal of {x} modulo {p}")
        });
    }

    /// Prints the counts; true where something differs, or where some answer of document 01 was never given.
    pub fn report(&mut self) -> bool {
        let mut due: BTreeSet<(&str, u8, u64)> = (1..=9).map(|rule| ("check", 11, rule)).collect();
        due.extend([0, 1, 2, 3, 4, 5].map(|number| ("analysis", number, 0)));
        due.extend([0, 1, 2, 6, 7, 8, 9, 10].map(|number| ("check", number, 0)));
        due.extend([("find", 0, 0), ("find", 1, 0)]);
        due.extend([0, 2, 4].map(|number| ("reciprocal", number, 0)));
        let seen = self.seen.clone();
        self.same(seen, due, || "the answers that were given".to_string());
        println!("library: {} calls, {} wrong", self.calls, self.wrong);
        self.wrong != 0
    }
}
