//! Times each row: its loops alternate on the same inputs, in many interleaved samples.
//!
//! It prints a line for each loop except the original's: the row, the size, the name of the library, the least
//! nanoseconds of an operation of the original and of this loop, and the median of the ratios to the original, sample
//! by sample. The time of a loop is without what it creates before the first round, and without its clones.
#[macro_use]
mod loops;
mod inputs;
mod keys;
mod original;
#[cfg(peers)]
mod peers;
mod rattle;
mod rows;

use inputs::{Numbers, Texts};
use rows::{Loop, Row};
use std::env;
use std::hint::black_box;

struct Settings {
    /// Parts of the names of the rows that are timed. If it is empty, all rows are.
    only: Vec<String>,
    samples: usize,
    /// The least time of a sample.
    seconds: f64,
    /// The library whose loops of the rows of just these names run once, and the number of their rounds. Then nothing is
    /// timed. It prints the number of operations of a round, and of a row that clones also the number of clones, and the
    /// name of the row of the clone.
    counted: Option<(String, u64)>,
}

#[repr(C)]
struct Timespec {
    seconds: i64,
    nanoseconds: i64,
}

unsafe extern "C" {
    fn clock_gettime(clock: i32, time: &mut Timespec) -> i32;
}

/// Returns the processor time of this thread, which does not include the time of other programs.
fn processor_seconds() -> f64 {
    const CLOCK_THREAD_CPUTIME_ID: i32 = 3;
    let mut time = Timespec {
        seconds: 0,
        nanoseconds: 0,
    };
    // Safety: it only writes the time.
    let status = unsafe { clock_gettime(CLOCK_THREAD_CPUTIME_ID, &mut time) };
    assert_eq!(status, 0);
    time.seconds as f64 + time.nanoseconds as f64 * 1e-9
}

/// Returns the seconds that a loop takes, and its checksum.
fn timed<T>(row: &Row<T>, run: Loop<T>, rounds: u64) -> (f64, u64) {
    let start = processor_seconds();
    let sum = black_box(run)(black_box(row.keys), black_box(row.probes), black_box(rounds));
    (processor_seconds() - start, black_box(sum))
}

/// Returns the seconds that the rounds of a loop take, without what it creates before the first round. If the rounds take
/// less than the clock can tell, it returns a nanosecond.
fn rounds_timed<T>(row: &Row<T>, run: Loop<T>, rounds: u64) -> f64 {
    let setup = timed(row, run, 0).0;
    f64::max(timed(row, run, rounds).0 - setup, 1e-9)
}

/// The least part of the time of the rounds that is left without their clones. The time of a clone varies as much.
const LEAST_PART: f64 = 0.2;

/// The same, without the clones that the rounds make, if `clone` is the loop that makes one in each round.
fn rounds_less_clones<T>(row: &Row<T>, run: Loop<T>, clone: Option<Loop<T>>, rounds: u64) -> f64 {
    let seconds = rounds_timed(row, run, rounds);
    let (Some((_, count)), Some(clone)) = (row.clones, clone) else {
        return seconds;
    };
    let clones = f64::from(count) * rounds_timed(row, clone, rounds);
    f64::max(seconds - clones, LEAST_PART * seconds)
}

/// Returns the loops of the row of the clone, one for each loop of a row that clones.
fn clones_of<T>(rows: &[Row<T>], row: &Row<T>) -> Vec<Option<Loop<T>>> {
    let clones = row.clones.and_then(|(name, _)| rows.iter().find(|it| it.name == name));
    let clone_of = |who: &str| Some(clones?.loops.iter().find(|it| it.0 == who)?.1);
    row.loops.iter().map(|it| clone_of(it.0)).collect()
}

/// Returns the number of rounds that the original needs for a sample: they take longer than the setup.
fn rounds_of<T>(row: &Row<T>, seconds: f64) -> u64 {
    let setup = timed(row, row.loops[0].1, 0).0;
    let mut rounds = 1;
    while rounds_timed(row, row.loops[0].1, rounds) < f64::max(seconds, 2.0 * setup) {
        rounds *= 2;
    }
    rounds
}

fn check<T>(row: &Row<T>, rounds: u64) {
    let expected = timed(row, row.loops[0].1, rounds).1;
    for (who, run) in &row.loops {
        let sum = timed(row, *run, rounds).1;
        assert_eq!(sum, expected, "{} of {who}, {rounds} rounds", row.name);
    }
}

fn median(mut xs: Vec<f64>) -> f64 {
    xs.sort_by(f64::total_cmp);
    xs[xs.len() / 2]
}

/// Runs the loop of a library once, if the row is counted, and prints what a round does.
fn count<T>(settings: &Settings, row: &Row<T>, library: &str, rounds: u64) {
    let is_chosen = settings.only.iter().any(|name| row.name == name);
    for (_, run) in row.loops.iter().filter(|it| is_chosen && it.0 == library) {
        timed(row, *run, rounds);
        let clones = row.clones.map(|(name, count)| format!("\t{count}\t{name}"));
        println!("{}{}", row.steps, clones.unwrap_or_default());
    }
}

fn time<T>(settings: &Settings, rows: &[Row<T>], row: &Row<T>, n: usize) {
    if let Some((library, rounds)) = &settings.counted {
        count(settings, row, library, *rounds);
        return;
    }
    let chosen = |word: &String| row.name.contains(word.as_str());
    if !settings.only.is_empty() && !settings.only.iter().any(chosen) {
        return;
    }
    let rounds = rounds_of(row, settings.seconds);
    for rounds in [0, 1, rounds] {
        check(row, rounds);
    }
    let clones = clones_of(rows, row);
    assert!(row.clones.is_none() || clones.iter().all(Option::is_some), "{}", row.name);
    let count = row.loops.len();
    let mut samples = vec![Vec::new(); count];
    for s in 0..settings.samples {
        for at in 0..count {
            let i = (at + s) % count;
            samples[i].push(rounds_less_clones(row, row.loops[i].1, clones[i], rounds));
        }
    }
    let least = |i: usize| samples[i].iter().copied().fold(f64::MAX, f64::min);
    let nanoseconds = |i: usize| 1e9 * least(i) / (rounds as f64 * row.steps as f64);
    for i in 1..count {
        let ratios = samples[i].iter().zip(&samples[0]).map(|(a, b)| a / b);
        println!(
            "{}\t{n}\t{}\t{:.5}\t{:.5}\t{:.5}",
            row.name,
            row.loops[i].0,
            nanoseconds(0),
            nanoseconds(i),
            median(ratios.collect())
        );
    }
}

fn time_all<T>(settings: &Settings, rows: &[Row<T>], n: usize) {
    for row in rows {
        time(settings, rows, row, n);
    }
}

fn number<N: std::str::FromStr>(name: &str, default: N) -> N {
    let text = env::var(name).ok();
    text.and_then(|it| it.parse().ok()).unwrap_or(default)
}

fn sizes(name: &str, default: &str) -> Vec<usize> {
    let text = env::var(name).unwrap_or_else(|_| default.to_string());
    text.split_whitespace().filter_map(|it| it.parse().ok()).collect()
}

fn main() {
    let settings = Settings {
        only: env::args().skip(1).collect(),
        samples: number("SAMPLES", 5),
        seconds: number("SECONDS", 0.003),
        counted: env::var("COUNTED").ok().map(|library| (library, number("ROUNDS", 1))),
    };
    for n in sizes("SIZES", "2 4 8 16 32 128 512 1000 10000") {
        let inputs = Numbers::of(n);
        time_all(&settings, &rows::numbers(&inputs), n);
        time_all(&settings, &rows::texts(&Texts::of(&inputs), n), n);
    }
    #[cfg(kit)]
    for n in sizes("KIT_SIZES", "24 48 64 96") {
        let inputs = Numbers::of(n);
        time_all(&settings, &rows::beside_kit(rows::numbers(&inputs)), n);
        time_all(&settings, &rows::beside_kit(rows::texts(&Texts::of(&inputs), n)), n);
    }
}
