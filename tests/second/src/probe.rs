//! Cases for `probe`: how one is written, read and answered.

use std::fmt::Write;

use crate::face;
use crate::fleet::{Fleet, WORDS};
use crate::sheet;
use crate::step::step;

pub const MOST_BYTES: u64 = 61_440;
pub const MOST_TRAIL: u64 = 65_536;

pub const OPEN: u64 = 0;
pub const STEP: u64 = 1;
pub const PLACES: u64 = 2;
pub const VERDICT: u64 = 3;
pub const SECTION: u64 = 4;

#[derive(Clone)]
pub struct Case {
    pub question: u64,
    /// For a section question the first word is the section's number.
    pub words: [u64; 3],
    pub fleet: Fleet,
    pub bytes: Vec<u8>,
    pub trail: Vec<u64>,
}

/// What the four leading numbers of an answer line say.
#[derive(Default)]
pub struct Heads {
    pub answer: u64,
    pub rounds: u64,
    pub places: u64,
    pub alive: u64,
}

impl Case {
    pub fn encode(&self, out: &mut Vec<u8>) {
        let head = [
            self.bytes.len() as u64,
            self.trail.len() as u64,
            self.question,
            self.words[0],
            self.words[1],
            self.words[2],
        ];
        for word in head.iter().chain(&self.fleet.to_words()) {
            out.extend(word.to_le_bytes());
        }
        out.extend(&self.bytes);
        for word in &self.trail {
            out.extend(word.to_le_bytes());
        }
    }

    /// The answer, and the fleet and trail as they then are.
    pub fn ask(&self) -> (Heads, Fleet, Vec<u64>) {
        let mut heads = Heads::default();
        let (mut fleet, mut trail) = (self.fleet.clone(), self.trail.clone());
        match self.question {
            OPEN => (heads.answer, fleet) = face::open(&self.bytes),
            STEP => {
                let out = step(&self.bytes, &fleet, &trail, self.words);
                heads.answer = out.answer;
                heads.rounds = out.rounds;
                fleet = out.fleet;
                trail = out.trail;
            }
            PLACES => (heads.answer, heads.places) = face::open_places(&self.bytes, &fleet),
            _ => (heads.answer, heads.alive) = face::verdict(&self.bytes, &fleet),
        }
        (heads, fleet, trail)
    }

    /// The answer line, without its end.
    pub fn line(&self) -> String {
        if self.question == SECTION {
            let stretch = sheet::stretch(&self.bytes, self.words[0]);
            let mut text = stretch.len().to_string();
            for byte in stretch {
                write!(text, " {byte}").expect("text grows");
            }
            return text;
        }
        let (heads, fleet, trail) = self.ask();
        let mut text = format!("{} {} {} {}", heads.answer, heads.rounds, heads.places, heads.alive);
        for word in fleet.to_words().iter().chain(&trail) {
            write!(text, " {word}").expect("text grows");
        }
        text
    }
}

/// Takes one case off the front of the input; None if it is cut short or over its bounds.
pub fn decode(input: &mut &[u8]) -> Option<Case> {
    let head = take_words(input, 6)?;
    if head[0] > MOST_BYTES || head[1] > MOST_TRAIL || head[2] > SECTION {
        return None;
    }
    let fleet = Fleet::from_words(&take_words(input, WORDS)?);
    let bytes = take(input, head[0] as usize)?.to_vec();
    let trail = take_words(input, head[1] as usize)?;
    Some(Case { question: head[2], words: [head[3], head[4], head[5]], fleet, bytes, trail })
}

fn take<'a>(input: &mut &'a [u8], count: usize) -> Option<&'a [u8]> {
    if input.len() < count {
        return None;
    }
    let (front, rest) = input.split_at(count);
    *input = rest;
    Some(front)
}

fn take_words(input: &mut &[u8], count: usize) -> Option<Vec<u64>> {
    let bytes = take(input, 8 * count)?;
    Some(bytes.chunks_exact(8).map(|c| u64::from_le_bytes(c.try_into().expect("8 bytes"))).collect())
}

/// All cases of an input, a line each, ended by `bad case` where one cannot be read.
pub fn answer_all(mut input: &[u8], mut put: impl FnMut(&str)) {
    while !input.is_empty() {
        match decode(&mut input) {
            Some(case) => put(&case.line()),
            None => {
                put("bad case");
                return;
            }
        }
    }
}
