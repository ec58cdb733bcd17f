//! The text form of 01: numbers, with commas, bars and spaces between them. A `#` starts a
//! remark that runs to the end of its line, so that a sample can say what it is about. The
//! limits of several vans stand van by van, and behind them the number for the whole sheet; one
//! van's stand in a row, as 01 has them.

use crate::sheet::words;

/// Text to bytes. The error says where and what.
pub fn to_bytes(text: &str) -> Result<Vec<u8>, String> {
    let mut bytes = vec![];
    for (number, line) in text.lines().enumerate() {
        let kept = line.split('#').next().unwrap_or("");
        let mut column = 0;
        for token in kept.split(|c: char| c.is_whitespace() || c == ',' || c == '|') {
            if !token.is_empty() {
                let place = format!("line {}, column {}", number + 1, column + 1);
                bytes.extend(word(token).map_err(|why| format!("{place}: {why}"))?.to_le_bytes());
            }
            column += token.chars().count() + 1;
        }
    }
    Ok(bytes)
}

fn word(token: &str) -> Result<u32, String> {
    if let Some(digits) = token.strip_prefix('-') {
        if !digits.is_empty() && digits.chars().all(|c| c.is_ascii_digit()) {
            return Err(format!("'{token}' is below 0, and a sheet has no negative numbers"));
        }
    }
    if !token.chars().all(|c| c.is_ascii_digit()) {
        return Err(format!("'{token}' is not a number"));
    }
    token.parse().map_err(|_| format!("'{token}' does not fit a 32-bit word (at most 4294967295)"))
}

/// Words that each section's count counts, grouped between commas; 0 is no commas within.
const WIDTHS: [usize; 6] = [0, 4, 4, 0, 0, 3];

/// Numbers of a van in the limits.
const A_VAN: usize = 3;

/// Bytes to text, as 01 prints its sheet, in one line; or, `long`, a line for each section and
/// row. What does not read as sections follows as plain numbers, so nothing is lost.
pub fn from_bytes(bytes: &[u8], long: bool) -> Result<String, String> {
    if bytes.len() % 4 != 0 {
        return Err(format!("{} bytes are not whole 32-bit words", bytes.len()));
    }
    let all = words(bytes);
    let mut rest: &[i64] = &all;
    let mut parts = vec![];
    let mut n = 0;
    for (i, width) in WIDTHS.iter().enumerate() {
        let Some(&count) = rest.first() else { break };
        let length = 1 + count as usize * (*width).max(1);
        if length > rest.len() {
            break;
        }
        if i == 1 {
            n = count as usize;
        }
        parts.push(match i {
            0 if length <= 1 + A_VAN + 1 => plain(&rest[..length]),
            0 => section(&rest[..length], A_VAN, usize::from(long)),
            _ => section(&rest[..length], *width, if long { n } else { 0 }),
        });
        rest = &rest[length..];
    }
    if !rest.is_empty() {
        parts.push(plain(rest));
    }
    Ok(parts.join(if long { " |\n" } else { " | " }) + "\n")
}

fn plain(words: &[i64]) -> String {
    words.iter().map(|w| w.to_string()).collect::<Vec<_>>().join(" ")
}

/// `width` words between commas; `row` is 0 where all stands in one line.
fn section(words: &[i64], width: usize, row: usize) -> String {
    let entries = &words[1..];
    let gap = if row == 0 { " " } else { "\n  " };
    if width > 0 {
        let groups: Vec<String> = entries.chunks(width).map(plain).collect();
        return std::iter::once(words[0].to_string())
            .chain(groups)
            .collect::<Vec<_>>()
            .join(&format!(",{gap}"));
    }
    if entries.is_empty() {
        return plain(words);
    }
    let rows: Vec<String> = entries.chunks(if row == 0 { entries.len() } else { row }).map(plain).collect();
    format!("{},{gap}{}", words[0], rows.join(gap))
}
