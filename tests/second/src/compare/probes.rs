//! Many cases through one process of the other program's `probe`.

use std::path::Path;

use super::coverage::{note_probe, of_probes};
use super::runner::{self, End};
use super::{Plan, SHOWN};
use crate::fleet;
use crate::gen::probes::case;
use crate::probe::{answer_all, Case, MOST_BYTES, MOST_TRAIL};
use crate::rng::Rng;
use crate::state;
use crate::tally::Tally;

/// Input of one batch and where each case of it begins.
pub struct Batch {
    pub input: Vec<u8>,
    begins: Vec<usize>,
}

/// Cases `from` to `to`, and behind them, in most batches, one that cannot be read.
pub fn batch(seed: u64, from: u64, to: u64, tally: &mut Tally) -> Batch {
    let mut made = Batch { input: vec![], begins: vec![] };
    for number in from..to {
        let one = case(seed, number);
        note_probe(tally, &one);
        made.begins.push(made.input.len());
        one.encode(&mut made.input);
    }
    made.begins.push(made.input.len());
    let rng = &mut Rng::of(!seed, from);
    spoil_end(rng, case(seed, from), &mut made.input, tally);
    made
}

fn spoil_end(rng: &mut Rng, one: Case, input: &mut Vec<u8>, tally: &mut Tally) {
    let mut bad = vec![];
    one.encode(&mut bad);
    // In half of the cases so much follows that only the bound, and no shortness, is the reason.
    let behind = if rng.one_in(2) { 8 * MOST_TRAIL as usize + 70_000 } else { 0 };
    let mut put = |at: usize, value: u64| bad[at..at + 8].copy_from_slice(&value.to_le_bytes());
    match rng.below(4) {
        0 => {
            bad.truncate(1 + rng.below(bad.len() - 1));
            tally.add("bad case: cut short");
        }
        1 => {
            put(0, *rng.pick(&[MOST_BYTES + 1, MOST_BYTES + 8, 1 << 40, u64::MAX]));
            bad.resize(bad.len() + behind, 0);
            tally.add("bad case: sheet over its bound");
        }
        2 => {
            put(8, *rng.pick(&[MOST_TRAIL + 1, 1 << 40, u64::MAX]));
            bad.resize(bad.len() + behind, 0);
            tally.add("bad case: trail over its bound");
        }
        _ => return,
    }
    input.extend(bad);
}

pub fn expected(batch: &Batch) -> Vec<u8> {
    let mut out = vec![];
    answer_all(&batch.input, |line| {
        out.extend(line.as_bytes());
        out.push(b'\n');
    });
    out
}

/// Batches as files; the number of them.
pub fn write_files(plan: &Plan, folder: &Path) -> Result<u64, String> {
    let mut from = 0;
    let mut count = 0;
    while from < plan.cases {
        let to = (from + plan.batch).min(plan.cases);
        let made = batch(plan.seed, from, to, &mut of_probes());
        runner::put_pair(folder, &format!("probe-{count:04}"), &made.input, &expected(&made))?;
        from = to;
        count += 1;
    }
    Ok(count)
}

/// Compares all batches; the number of differing lines, and the coverage.
pub fn compare(plan: &Plan) -> Result<(u64, Tally), String> {
    let mut tally = of_probes();
    let mut differences = 0;
    let mut from = 0;
    while from < plan.cases && differences < plan.stop {
        let to = (from + plan.batch).min(plan.cases);
        let made = batch(plan.seed, from, to, &mut tally);
        let ours = expected(&made);
        let end = if ours.ends_with(b"bad case\n") { End::AnyStatus } else { End::Well };
        match runner::run(&plan.program, made.input.clone(), end) {
            Ok(theirs) if theirs == ours => {}
            Ok(theirs) => differences += tell(plan, from, &made, &ours, &theirs, differences)?,
            Err(why) => {
                println!("cases {from} to {}: {why}", to - 1);
                differences += 1;
            }
        }
        from = to;
    }
    Ok((differences, tally))
}

/// Finds the lines that differ and shows the first few.
fn tell(
    plan: &Plan,
    from: u64,
    made: &Batch,
    ours: &[u8],
    theirs: &[u8],
    before: u64,
) -> Result<u64, String> {
    let split = |text: &[u8]| -> Vec<Vec<u8>> { text.split(|&b| b == b'\n').map(|l| l.to_vec()).collect() };
    let (ours, theirs) = (split(ours), split(theirs));
    let mut count = 0;
    for i in 0..ours.len().max(theirs.len()) {
        let (a, b) = (ours.get(i).cloned().unwrap_or_default(), theirs.get(i).cloned().unwrap_or_default());
        if a == b {
            continue;
        }
        count += 1;
        if before + count > SHOWN {
            continue;
        }
        println!("case {} differs (seed {}):\n{}", from + i as u64, plan.seed, first_difference(&a, &b));
        if let (Some(folder), Some(&begin)) = (&plan.keep, made.begins.get(i)) {
            let end = made.begins.get(i + 1).copied().unwrap_or(made.input.len());
            let name = format!("probe-{}-{}", plan.seed, from + i as u64);
            runner::keep(folder, &name, &made.input[begin..end], &a, &b)?;
        }
    }
    Ok(count.max(1))
}

/// Where two lines part, by name.
fn first_difference(ours: &[u8], theirs: &[u8]) -> String {
    let text = |b: &[u8]| String::from_utf8_lossy(b).to_string();
    let (a, b) = (text(ours), text(theirs));
    let (a, b): (Vec<&str>, Vec<&str>) = (a.split(' ').collect(), b.split(' ').collect());
    let at = (0..a.len().max(b.len())).find(|&i| a.get(i) != b.get(i)).unwrap_or(0);
    let of = |list: &[&str]| list.get(at).map_or("nothing".to_string(), |v| v.to_string());
    let both = (a.first().unwrap_or(&""), b.first().unwrap_or(&""));
    format!(
        "  {}: expected {}, came {} (answers {} and {}, {} and {} numbers)",
        name_of(at),
        of(&a),
        of(&b),
        both.0,
        both.1,
        a.len(),
        b.len()
    )
}

/// What number `at` of an answer line is.
fn name_of(at: usize) -> String {
    const HEADS: [&str; 4] = ["answer", "rounds", "places", "alive"];
    if at < HEADS.len() {
        return HEADS[at].to_string();
    }
    let at = at - HEADS.len();
    if at >= fleet::WORDS {
        return format!("trail word {}", at - fleet::WORDS);
    }
    if at == fleet::WORDS - 1 {
        return "marks of the fleet".to_string();
    }
    let van = at / state::WORDS;
    match at % state::WORDS {
        i @ 0..=63 => format!("van {van}, route entry {i}"),
        64 => format!("van {van}, stops"),
        i @ 65..=128 => format!("van {van}, set of node {}", i - 65),
        129 => format!("van {van}, marks"),
        i @ 130..=193 => format!("van {van}, level {}", i - 130),
        194 => format!("van {van}, levels"),
        _ => format!("van {van}, records"),
    }
}
