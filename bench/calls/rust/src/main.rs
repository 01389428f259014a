//! Times the same loops over our sets and over those of Rust's crate, by turns, in one process: the driver of
//! `bench/calls/run`, which writes the modules `theirs` and `subjects`, and links our loops as a static library.
//!
//!     calls_timings TURNS [NANOSECONDS]
//!
//! A line of standard input has what the calls are of, the number of the call, 1 if it is inlined, else 0, and four
//! masks for the data. The answer has the median nanoseconds of our call and of Rust's, and the number that each loop
//! returned. A loop takes NANOSECONDS at least. If they are not given, it has few rounds.

mod subjects;
mod theirs;

use std::hint::black_box;
use std::io::{self, BufRead, Write};
use std::time::Instant;
use subjects::SUBJECTS;

/// A side's loop over calls: the number of the call, whether it is inlined, the seed, the rounds and the masks.
type Run = unsafe extern "C" fn(u32, bool, u64, usize, u64, u64, u64, u64) -> u64;

const FEW_ROUNDS: usize = 200;
const MOST_ROUNDS: usize = 1 << 26;
/// A loop takes this many times as long as making its sets, unless that is too long.
const SHARE: f64 = 8.0;
const TOO_LONG: f64 = 200e6;

// Bytes before the code. The place of a short call's jumps in memory changes its time by up to half.
std::arch::global_asm!(concat!(
    ".text\n.globl padding\npadding:\n.skip ",
    env!("PADDING")
));

extern "C" {
    fn padding();
}

struct Cell {
    op: u32,
    is_inlined: bool,
    masks: [u64; 4],
}

impl Cell {
    /// The nanoseconds of this many rounds, with the time that making the sets takes, and the number that the loop
    /// returns. The arguments are hidden from the compiler.
    fn time(&self, run: Run, rounds: usize) -> (f64, u64) {
        let [pool_and, pool_or, x_and, x_or] = black_box(self.masks);
        let (run, op, is_inlined) = black_box((run, self.op, self.is_inlined));
        let start = Instant::now();
        // SAFETY: each loop is proved or is of safe calls, and takes any numbers.
        let digest = unsafe {
            run(
                op,
                is_inlined,
                black_box(7),
                black_box(rounds),
                pool_and,
                pool_or,
                x_and,
                x_or,
            )
        };
        (start.elapsed().as_nanos() as f64, black_box(digest))
    }

    /// So many rounds that both loops take the least time.
    fn rounds(&self, runs: [Run; 2], nanoseconds: f64) -> usize {
        let mut rounds = 16;
        loop {
            let times = runs.map(|run| self.time(run, rounds).0);
            let bases = runs.map(|run| self.time(run, 0).0);
            let shortest = (times[0] - bases[0]).min(times[1] - bases[1]);
            let wanted = nanoseconds.max(SHARE * bases[0].max(bases[1]));
            if shortest >= wanted || rounds > MOST_ROUNDS || times[0] + times[1] > TOO_LONG {
                return rounds;
            }
            rounds =
                (rounds as f64 * (1.1 * wanted / shortest.max(1e3)).clamp(1.2, 30.0)) as usize + 1;
        }
    }

    /// The median nanoseconds of a round, without the making of the sets, and the digests.
    fn measure(&self, runs: [Run; 2], turns: usize, rounds: usize) -> ([f64; 2], [u64; 2]) {
        let mut bases = [vec![], vec![]];
        let mut times = [vec![], vec![]];
        let mut digests = [0; 2];
        for turn in 0..turns {
            // The side that runs first changes from turn to turn.
            for side in [turn % 2, (turn + 1) % 2] {
                bases[side].push(self.time(runs[side], 0).0);
                let (time, digest) = self.time(runs[side], rounds);
                times[side].push(time);
                digests[side] = digest;
            }
        }
        let of_side = |side: usize| {
            (median(&mut times[side]) - median(&mut bases[side])).max(1.0) / rounds as f64
        };
        ([0, 1].map(of_side), digests)
    }
}

fn median(times: &mut [f64]) -> f64 {
    times.sort_by(f64::total_cmp);
    times[times.len() / 2]
}

fn main() -> io::Result<()> {
    black_box(padding as *const () as usize);
    let mut numbers = std::env::args()
        .skip(1)
        .map(|word| word.parse().expect("a number"));
    let turns = numbers.next().expect("the turns");
    let nanoseconds = numbers.next();
    let mut output = io::stdout().lock();
    for line in io::stdin().lock().lines() {
        let line = line?;
        let (name, rest) = line.split_once(' ').expect("a subject");
        let (_, runs) = SUBJECTS
            .iter()
            .find(|(subject, _)| *subject == name)
            .expect("a known subject");
        let numbers: Vec<u64> = rest
            .split(' ')
            .map(|word| word.parse().expect("a number"))
            .collect();
        let cell = Cell {
            op: numbers[0] as u32,
            is_inlined: numbers[1] != 0,
            masks: numbers[2..].try_into().expect("four masks"),
        };
        let rounds = nanoseconds.map_or(FEW_ROUNDS, |least| cell.rounds(*runs, least as f64));
        let (times, digests) = cell.measure(*runs, turns, rounds);
        writeln!(
            output,
            "{} {} {} {}",
            times[0], times[1], digests[0], digests[1]
        )?;
    }
    Ok(())
}
