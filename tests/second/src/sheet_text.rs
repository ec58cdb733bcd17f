//! Turns the text form of a day sheet into its bytes and back.

use std::io::{Read, Write};
use std::process::exit;

const USAGE: &str = "usage: sheet_text bytes < text > sheet\n       sheet_text text [long] < sheet > text";

fn run(arguments: &[String]) -> Result<Vec<u8>, String> {
    let mut input = vec![];
    let mut read = || -> Result<Vec<u8>, String> {
        std::io::stdin().read_to_end(&mut input).map_err(|e| format!("cannot read: {e}"))?;
        Ok(std::mem::take(&mut input))
    };
    let names: Vec<&str> = arguments.iter().map(|a| a.as_str()).collect();
    match names.as_slice() {
        ["bytes"] => {
            let text = String::from_utf8(read()?).map_err(|_| "the text is not UTF-8".to_string())?;
            second::text::to_bytes(&text)
        }
        ["text"] => second::text::from_bytes(&read()?, false).map(String::into_bytes),
        ["text", "long"] => second::text::from_bytes(&read()?, true).map(String::into_bytes),
        _ => Err(USAGE.to_string()),
    }
}

fn main() {
    let arguments: Vec<String> = std::env::args().skip(1).collect();
    match run(&arguments) {
        Ok(out) => {
            if std::io::stdout().write_all(&out).is_err() {
                exit(1);
            }
        }
        Err(why) => {
            eprintln!("sheet_text: {why}");
            exit(1);
        }
    }
}
