//! Times two programs that speak the protocol of bench/plain.c and prints their ratios.
//! usage: ratios "plain command" "other command" [milliseconds a measurement]

use std::process::exit;
use std::time::Instant;

use second::compare::runner::{self, End};
use second::gen::full;
use second::rng::Rng;

const SIZES: [usize; 4] = [8, 16, 32, 64];
/// Operations 1 to 9 of the protocol.
const NAMES: [&str; 9] = [
    "open",
    "place",
    "settle fresh",
    "settle half",
    "settle full",
    "verdict",
    "listing",
    "open places",
    "step back",
];
/// Vans, and the operations that are measured with so many.
const FLEETS: [(usize, &[u64]); 3] =
    [(1, &[1, 2, 3, 4, 5, 6, 7, 8, 9]), (3, &[2, 4, 9, 6, 7]), (8, &[2, 4, 9, 6, 7])];
/// The least of so many runs counts, plain and other by turns, so that both meet the same weather.
const TURNS: usize = 7;

fn sheet(n: usize, vans: usize) -> Vec<u8> {
    let rng = &mut Rng::of(1, n as u64);
    let mut draft = full::day(rng, n, vans);
    draft.steps = full::story(rng, &draft.sheet(), 30 * n);
    draft.bytes()
}

/// Nanoseconds of a run, and how many of them it would take for no times at all.
#[derive(Clone, Copy)]
struct Took {
    whole: f64,
    idle: f64,
}

impl Took {
    fn least(self, other: Took) -> Took {
        Took { whole: self.whole.min(other.whole), idle: self.idle.min(other.idle) }
    }

    fn net(self) -> f64 {
        (self.whole - self.idle).max(1.0)
    }
}

/// Result line and time; without a clock of its own, timed from here, beside a run of 0 times.
fn run(command: &[String], operation: u64, times: u64, sheet: &[u8]) -> Result<(String, Took), String> {
    let once = |times: u64| -> Result<(String, f64), String> {
        let mut input = operation.to_le_bytes().to_vec();
        input.extend(times.to_le_bytes());
        input.extend(sheet);
        let begin = Instant::now();
        let output = runner::run(command, input, End::Well)?;
        let outside = begin.elapsed().as_nanos() as f64;
        Ok((String::from_utf8_lossy(&output).to_string(), outside))
    };
    let (text, outside) = once(times)?;
    let mut lines = text.lines();
    let result = lines.next().unwrap_or("nothing").to_string();
    match lines.next().and_then(|line| line.strip_prefix("nanoseconds ")) {
        Some(inside) => {
            let whole = inside.parse().map_err(|_| format!("cannot read time '{inside}'"))?;
            Ok((result, Took { whole, idle: 0.0 }))
        }
        None => Ok((result, Took { whole: outside, idle: once(0)?.1 })),
    }
}

/// So many times that the plain program takes about the wanted while.
fn times_for(command: &[String], operation: u64, sheet: &[u8], wanted: f64) -> Result<u64, String> {
    let mut times = 1;
    loop {
        let took = run(command, operation, times, sheet)?.1.net();
        if took >= wanted / 4.0 || times > 1 << 30 {
            return Ok(((times as f64 * wanted / took) as u64).max(1));
        }
        times *= 4;
    }
}

/// Nanoseconds a time, plain and other: the least whole run less the least idle one, so that no slow idle run makes a side look fast.
fn measure(pair: &[Vec<String>; 2], operation: u64, sheet: &[u8], wanted: f64) -> Result<[f64; 2], String> {
    let times = times_for(&pair[0], operation, sheet, wanted)?;
    let mut least = [Took { whole: f64::MAX, idle: f64::MAX }; 2];
    for _ in 0..TURNS {
        let mut results = vec![];
        for (i, command) in pair.iter().enumerate() {
            let (result, took) = run(command, operation, times, sheet)?;
            least[i] = least[i].least(took);
            results.push(result);
        }
        if results[0] != results[1] || !results[0].starts_with("result ") {
            return Err(format!(
                "operation {operation}: plain says '{}', other '{}'",
                results[0], results[1]
            ));
        }
    }
    Ok(least.map(|took| took.net() / times as f64))
}

fn table(pair: &[Vec<String>; 2], wanted: f64) -> Result<(), String> {
    println!("{:14}{:>5}{:>4}{:>14}{:>14}{:>8}", "operation", "vans", "n", "plain ns", "other ns", "ratio");
    for (vans, operations) in FLEETS {
        let sheets = SIZES.map(|n| sheet(n, vans));
        for &operation in operations {
            lines(pair, operation, vans, &sheets, wanted)?;
        }
    }
    Ok(())
}

/// One operation at every size, and how it grows.
fn lines(
    pair: &[Vec<String>; 2],
    operation: u64,
    vans: usize,
    sheets: &[Vec<u8>; 4],
    wanted: f64,
) -> Result<(), String> {
    let name = NAMES[operation as usize - 1];
    let mut ends = vec![];
    for (n, sheet) in SIZES.iter().zip(sheets) {
        let [plain, other] = measure(pair, operation, sheet, wanted)?;
        println!("{name:14}{vans:>5}{n:>4}{plain:>14.0}{other:>14.0}{:>8.2}", other / plain);
        ends.push([plain, other]);
    }
    let growth = |side: usize| ends[SIZES.len() - 1][side] / ends[0][side];
    println!("{name:14}{vans:>5} growth from 8 to 64: plain {:.1}, other {:.1}", growth(0), growth(1));
    Ok(())
}

fn main() {
    let arguments: Vec<String> = std::env::args().skip(1).collect();
    let split = |text: &String| text.split_whitespace().map(String::from).collect::<Vec<String>>();
    let wanted = arguments.get(2).and_then(|text| text.parse().ok()).unwrap_or(50.0) * 1e6;
    let done = match arguments.as_slice() {
        [plain, other, ..] if !split(plain).is_empty() && !split(other).is_empty() => {
            table(&[split(plain), split(other)], wanted)
        }
        _ => Err("usage: ratios \"plain command\" \"other command\" [milliseconds]".to_string()),
    };
    if let Err(why) = done {
        eprintln!("ratios: {why}");
        exit(1);
    }
}
