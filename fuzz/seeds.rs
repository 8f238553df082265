//! Writes the inputs that the targets start from: document 01's matrices and some of every kind, the certificates that the library
//! makes of them, and certificates that break a rule. Usage: seeds FOLDER, which gets a folder for each target.
#[path = "../tests/independent/cases.rs"]
mod cases;
#[path = "../tests/independent/independent.rs"]
mod independent;

use cases::*;
use independent::*;
use std::fs;
use std::io;

/// A folder whose files are numbered.
struct Folder {
    path: String,
    count: usize,
}

impl Folder {
    fn new(path: String) -> io::Result<Folder> {
        fs::create_dir_all(&path)?;
        Ok(Folder { path, count: 0 })
    }

    fn add(&mut self, parts: &[&[u8]]) -> io::Result<()> {
        self.count += 1;
        fs::write(format!("{}/{}", self.path, self.count), parts.concat())
    }
}

/// Prime, order and matrix.
fn matrices() -> Vec<(u32, usize, Vec<u8>)> {
    let cases = document_cases().into_iter();
    let mut list: Vec<_> = cases.map(|case| (case.p, case.n, case.a)).collect();
    let mut r = Numbers(5);
    for (p, n) in [(2, 12), (3, 5), (7, 3), (251, 4), (251, 12)] {
        for a in structured(&mut r, Field { p }, n) {
            list.push((p, n, a.iter().flatten().map(|x| *x as u8).collect()));
        }
    }
    list
}

fn main() -> io::Result<()> {
    let folder = std::env::args().nth(1).expect("a folder");
    let mut check = Folder::new(format!("{folder}/check"))?;
    let mut find = Folder::new(format!("{folder}/find"))?;
    let mut analysis = Folder::new(format!("{folder}/analysis"))?;
    for (index, (p, n, a)) in matrices().iter().enumerate() {
        let made = nyargulet::certificate(*p as u64, *n as u64, a).expect("a matrix of residues");
        let room = (made.len() as u16).to_le_bytes();
        analysis.add(&[&[*p as u8, 0, *n as u8, 0, room[0], room[1]], a])?;
        check.add(&[&made])?;
        let independent = certify(Field { p: *p }, &matrix(a, *n));
        check.add(&[&break_rule(&independent, 1 + index % 9).bytes()])?;
        let mark = nyargulet::MARKS[index % nyargulet::MARKS.len()];
        for length in 0..=4 {
            let longer = [mark[0], mark[1], 0, mark[0]];
            find.add(&[&[length as u8], &longer[..length], &made])?;
        }
    }
    Ok(())
}
