//! Runs the other program: all of the input in, all of the output back.

use std::io::{Read, Write};
use std::path::Path;
use std::process::{Command, Stdio};

/// How the program may end: no paper names a status behind `bad case`.
#[derive(Clone, Copy, PartialEq)]
pub enum End {
    Well,
    AnyStatus,
}

pub fn run(program: &[String], input: Vec<u8>, end: End) -> Result<Vec<u8>, String> {
    let mut child = Command::new(&program[0])
        .args(&program[1..])
        .stdin(Stdio::piped())
        .stdout(Stdio::piped())
        .spawn()
        .map_err(|why| format!("cannot start {}: {why}", program[0]))?;
    let mut to = child.stdin.take().ok_or("no standard input")?;
    // A program may stop reading early (an overlong sheet, a bad case): that is its right.
    let feeder = std::thread::spawn(move || {
        let _ = to.write_all(&input);
    });
    let mut output = vec![];
    let mut from = child.stdout.take().ok_or("no standard output")?;
    from.read_to_end(&mut output).map_err(|why| format!("cannot read the answer: {why}"))?;
    let _ = feeder.join();
    let status = child.wait().map_err(|why| format!("cannot wait: {why}"))?;
    let accepted = status.success() || (end == End::AnyStatus && status.code().is_some());
    if !accepted {
        return Err(format!("the program ended with {status}"));
    }
    Ok(output)
}

/// Keeps an input beside what was expected and what came, to be run again by hand.
pub fn keep(folder: &Path, name: &str, input: &[u8], expected: &[u8], came: &[u8]) -> Result<(), String> {
    let put = |end: &str, bytes: &[u8]| std::fs::write(folder.join(format!("{name}.{end}")), bytes);
    std::fs::create_dir_all(folder)
        .and_then(|_| put("in", input))
        .and_then(|_| put("expected", expected))
        .and_then(|_| put("came", came))
        .map_err(|why| format!("cannot keep {name}: {why}"))
}

/// An input and what is expected of it, as `name.in` and `name.expected`.
pub fn put_pair(folder: &Path, name: &str, input: &[u8], expected: &[u8]) -> Result<(), String> {
    std::fs::create_dir_all(folder)
        .and_then(|_| std::fs::write(folder.join(format!("{name}.in")), input))
        .and_then(|_| std::fs::write(folder.join(format!("{name}.expected")), expected))
        .map_err(|why| format!("cannot write {name}: {why}"))
}
