//! My pass rewrote a loop: make, keep, check and read the certificate, then walk the old loop and the new one side by side.
//! Usage: loop FILE, where the certificate is kept.
use std::error::Error;
use std::fs;

const PRIME: u64 = 5;
const ORDER: usize = 2;
const STEPS: usize = 12;

/// The old loop steps a state x by x' = A x.
const OLD: [u8; ORDER * ORDER] = [2, 1, 0, 3];

type State = [u8; ORDER];

/// A matrix, row by row, times a state.
fn times(matrix: &[u8], x: State) -> State {
    let mut product = [0; ORDER];
    for (entry, row) in product.iter_mut().zip(matrix.chunks(ORDER)) {
        let sum: u64 = row
            .iter()
            .zip(x)
            .map(|(a, b)| u64::from(*a) * u64::from(b))
            .sum();
        *entry = (sum % PRIME) as u8;
    }
    product
}

/// Every state of the loop.
fn states() -> impl Iterator<Item = State> {
    (0..PRIME as u8).flat_map(|first| (0..PRIME as u8).map(move |second| [first, second]))
}

/// Walks the old loop from x and the new loop from the inverse of T times x; counts the steps at which T does not turn back.
fn differences(certificate: &[u8], x: State) -> usize {
    let [new, turned, turn] = [b"FB", b"TB", b"TI"].map(|mark| nyargulet::find(certificate, mark));
    let (mut old, mut blocks, mut count) = (x, times(turn, x), 0);
    for _ in 0..STEPS {
        old = times(&OLD, old);
        blocks = times(new, blocks);
        count += usize::from(times(turned, blocks) != old);
    }
    count
}

/// The certificate of a pass that wrote another first entry into F.
fn altered(certificate: &[u8]) -> Vec<u8> {
    let form = nyargulet::find(certificate, b"FB");
    let start = form.as_ptr() as usize - certificate.as_ptr() as usize;
    let mut changed = certificate.to_vec();
    changed[start] = 1;
    changed
}

fn main() -> Result<(), Box<dyn Error>> {
    let file = std::env::args().nth(1).ok_or("usage: loop FILE")?;

    let made = nyargulet::certificate(PRIME, ORDER as u64, &OLD)?;
    println!("made {} bytes", made.len());
    fs::write(&file, &made)?;

    let kept = fs::read(&file)?;
    println!("accepted {}", nyargulet::check(&kept)?);
    for (index, row) in nyargulet::find(&kept, b"FB").chunks(ORDER).enumerate() {
        println!("F {}: {} {}", index + 1, row[0], row[1]);
    }
    let wrong: usize = states().map(|x| differences(&kept, x)).sum();
    println!(
        "{} states, {STEPS} steps each: {wrong} differences",
        states().count()
    );

    match nyargulet::check(&altered(&kept)) {
        Ok(read) => println!("altered: accepted {read}"),
        Err(refusal) => println!("altered: {refusal}"),
    }
    Ok(())
}
