// Checks many full tapes, once by the proved library and once by plain Rust, in one run.
use std::hint::black_box;
use std::time::Instant;

const TAPES: usize = 100_000;
const ROUNDS: usize = 5;

unsafe extern "C" {
    fn tape_is_whole(bytes: *const u8, length: usize, place: *mut usize) -> bool;
}

/// The proved check.
fn proved(tape: &[u8]) -> Result<(), usize> {
    let mut place = 0;
    // The library reads `length` bytes from the pointer and writes one number.
    if unsafe { tape_is_whole(tape.as_ptr(), tape.len(), &mut place) } {
        Ok(())
    } else {
        Err(place)
    }
}

/// The same check in plain Rust: the records, and for each ledger how many it has and its latest.
fn plain(tape: &[u8]) -> Result<(), usize> {
    if tape.len() > 256 || tape.len() % 4 != 0 {
        return Err(tape.len());
    }
    let mut records: Vec<(u8, u8)> = Vec::with_capacity(64);
    let mut tracks = [(0usize, None::<usize>); 8];
    for (number, record) in tape.chunks_exact(4).enumerate() {
        let (ledger, code) = (record[0], record[1]);
        let trailer = u16::from_le_bytes([record[2], record[3]]) as usize;
        let Some(track) = tracks.get_mut(ledger as usize) else {
            return Err(4 * number);
        };
        let distance = track.1.map_or(0, |latest| 4 * (number - latest));
        if !(1..=10).contains(&code) || track.0 == 8 || trailer != distance {
            return Err(4 * number);
        }
        *track = (track.0 + 1, Some(number));
        records.push((ledger, code));
    }
    black_box(&records);
    Ok(())
}

/// A full tape: eight records of each ledger, in an order that the seed picks.
fn full_tape(mut seed: u64) -> Vec<u8> {
    let mut bytes = Vec::with_capacity(256);
    let mut tracks = [(0usize, None::<usize>); 8];
    for number in 0..64 {
        seed = seed.wrapping_mul(6364136223846793005).wrapping_add(1442695040888963407);
        let mut ledger = (seed >> 33) as usize % 8;
        while tracks[ledger].0 == 8 {
            ledger = (ledger + 1) % 8;
        }
        let distance = tracks[ledger].1.map_or(0, |latest| 4 * (number - latest)) as u16;
        tracks[ledger] = (tracks[ledger].0 + 1, Some(number));
        bytes.extend([ledger as u8, (seed >> 40) as u8 % 10 + 1]);
        bytes.extend(distance.to_le_bytes());
    }
    bytes
}

fn time(name: &str, tapes: &[Vec<u8>], check: fn(&[u8]) -> Result<(), usize>) {
    let mut best = f64::MAX;
    for _ in 0..ROUNDS {
        let start = Instant::now();
        for tape in tapes {
            assert!(black_box(check(black_box(tape))).is_ok());
        }
        best = best.min(start.elapsed().as_secs_f64());
    }
    println!("{name}: {:.1} ms for {} full tapes, best of {ROUNDS}", best * 1e3, tapes.len());
}

fn main() {
    let mut tapes: Vec<Vec<u8>> = (0..TAPES as u64).map(full_tape).collect();
    // The two agree on whole tapes, and on tapes with one byte changed.
    for (i, tape) in tapes.iter().enumerate() {
        assert_eq!(proved(tape), Ok(()));
        assert_eq!(plain(tape), Ok(()));
        let mut damaged = tape[..i % 257].to_vec();
        if !damaged.is_empty() {
            let at = i * 31 % damaged.len();
            damaged[at] ^= 1 << (i % 8);
        }
        assert_eq!(proved(&damaged), plain(&damaged), "{damaged:?}");
    }
    tapes.truncate(TAPES);
    time("proved", &tapes, proved);
    time("plain ", &tapes, plain);
}
