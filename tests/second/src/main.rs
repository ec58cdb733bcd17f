use std::io::{BufWriter, Read, Write};
use std::path::PathBuf;
use std::process::exit;

use second::compare::{listings, probes, Plan};
use second::gen::full;
use second::options::Options;
use second::rng::Rng;
use second::{check, listing, papers, probe, profile_papers, slips, text};

const USAGE: &str = "usage: second listing < sheet
       second probe < cases
       second self
       second check [--seed S] [--cases N] [--case K]
       second sample [--nodes N] [--vans V] [--steps K] [--seed S] > text
       second cases --kind probe|listing --out FOLDER [--seed S] [--cases N] [--batch M]
       second compare --kind probe|listing [--seed S] [--cases N] [--batch M] [--stop D] [--keep FOLDER] -- program...";

fn input() -> Result<Vec<u8>, String> {
    let mut bytes = vec![];
    std::io::stdin().read_to_end(&mut bytes).map_err(|why| format!("cannot read: {why}"))?;
    Ok(bytes)
}

fn run_probe() -> Result<bool, String> {
    slips::switch_from_environment();
    let mut out = BufWriter::new(std::io::stdout().lock());
    let mut failed = false;
    probe::answer_all(&input()?, |line| failed |= writeln!(out, "{line}").is_err());
    Ok(!failed && out.flush().is_ok())
}

fn run_listing() -> Result<bool, String> {
    slips::switch_from_environment();
    let lines = listing::listing(&input()?);
    Ok(std::io::stdout().write_all(lines.as_bytes()).is_ok())
}

fn run_self() -> Result<bool, String> {
    let mut well = true;
    let by_hand = papers::table().into_iter().chain(papers::run_only()).chain(profile_papers::table());
    for (name, holds) in by_hand {
        println!("{} {name}", if holds { "ok    " } else { "FAILED" });
        well &= holds;
    }
    Ok(well)
}

/// `--case K` runs that one case alone, to look at it again.
fn run_check(options: &Options) -> Result<bool, String> {
    slips::switch_from_environment();
    let seed = options.number("seed", 1)?;
    let cases = options.number("cases", 20_000)?;
    let single = options.text("case").is_some();
    let first = options.number("case", 0)?;
    println!("check: seed {seed}, {} cases", if single { 1 } else { cases });
    let mut tally = check::expected();
    for number in if single { first..first + 1 } else { 0..cases } {
        if let Err(trouble) = check::one(seed, number, &mut tally) {
            print!("{trouble}");
            println!("again: second check --seed {seed} --case {number}");
            return Ok(false);
        }
    }
    tally.print();
    if single {
        return Ok(true);
    }
    for name in tally.missing() {
        println!("never met: {name}");
    }
    println!("check: seed {seed}, {cases} cases, all held");
    Ok(tally.missing().is_empty())
}

/// A whole day of generated work, as text.
fn run_sample(options: &Options) -> Result<bool, String> {
    let nodes = options.number("nodes", 64)?;
    if !(4..=64).contains(&nodes) {
        return Err("--nodes wants 4 to 64".to_string());
    }
    let vans = options.number("vans", 1)?;
    if !(1..=8).contains(&vans) {
        return Err("--vans wants 1 to 8".to_string());
    }
    let rng = &mut Rng::of(options.number("seed", 1)?, nodes);
    let mut draft = full::day(rng, nodes as usize, vans as usize);
    draft.steps = full::story(rng, &draft.sheet(), options.number("steps", 240)?.min(2_000) as usize);
    print!("{}", text::from_bytes(&draft.bytes(), true)?);
    Ok(true)
}

fn plan(options: &Options) -> Result<(String, Plan), String> {
    let kind = options.text("kind").unwrap_or("probe").to_string();
    let plan = Plan {
        seed: options.number("seed", 1)?,
        cases: options.number("cases", if kind == "probe" { 20_000 } else { 1_280 })?,
        batch: options.number("batch", 250)?.max(1),
        stop: options.number("stop", u64::MAX)?.max(1),
        keep: options.text("keep").map(Into::into),
        program: options.command.clone(),
    };
    Ok((kind, plan))
}

/// Inputs and expected outputs as files, for a program that cannot be started from here.
fn run_cases(options: &Options) -> Result<bool, String> {
    let (kind, plan) = plan(options)?;
    let folder = PathBuf::from(options.text("out").ok_or("--out FOLDER is wanted")?);
    let count = match kind.as_str() {
        "probe" => probes::write_files(&plan, &folder)?,
        "listing" => listings::write_files(&plan, &folder)?,
        other => return Err(format!("no kind '{other}'")),
    };
    println!("cases {kind}: seed {}, {} cases in {count} files", plan.seed, plan.cases);
    Ok(true)
}

fn run_compare(options: &Options) -> Result<bool, String> {
    if options.command.is_empty() {
        return Err("name the program to compare with behind --".to_string());
    }
    let (kind, plan) = plan(options)?;
    println!("compare {kind}: seed {}, {} cases", plan.seed, plan.cases);
    let (differences, tally) = match kind.as_str() {
        "probe" => probes::compare(&plan)?,
        "listing" => listings::compare(&plan)?,
        other => return Err(format!("no kind '{other}'")),
    };
    tally.print();
    for name in tally.missing() {
        println!("never met: {name}");
    }
    println!("compare {kind}: seed {}, {} cases, {differences} differences", plan.seed, plan.cases);
    Ok(differences == 0 && tally.missing().is_empty())
}

fn run(arguments: &[String]) -> Result<bool, String> {
    let (name, rest) = arguments.split_first().ok_or(USAGE)?;
    let options = Options::read(rest)?;
    match name.as_str() {
        "listing" => run_listing(),
        "probe" => run_probe(),
        "self" => run_self(),
        "check" => run_check(&options),
        "sample" => run_sample(&options),
        "cases" => run_cases(&options),
        "compare" => run_compare(&options),
        _ => Err(USAGE.to_string()),
    }
}

fn main() {
    let arguments: Vec<String> = std::env::args().skip(1).collect();
    match run(&arguments) {
        Ok(true) => {}
        Ok(false) => exit(1),
        Err(why) => {
            eprintln!("second: {why}");
            exit(2);
        }
    }
}
