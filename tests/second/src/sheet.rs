//! The day sheet as numbers, and refusals 1 to 3. Those of the sheet as a whole stand in `whole.rs`.

use crate::limits::{self, Limits, Van};
use crate::slips;
use crate::whole;

#[derive(Clone)]
pub struct Node {
    pub earliest: i64,
    /// The door is shut then: the service must be over.
    pub latest: i64,
    pub service: i64,
    /// The bits of the van classes that may come here.
    pub classes: i64,
}

/// Kind 1 clean, 2 soiled, 3 transfer, as the sheet writes them; b is 0 but for a transfer.
#[derive(Clone)]
pub struct Job {
    pub kind: i64,
    pub a: usize,
    pub b: usize,
    pub load: i64,
}

#[derive(Clone)]
pub struct Sheet {
    vans: Vec<Van>,
    /// The infection team's rule holds: clean before soiled.
    pub profile: bool,
    pub nodes: Vec<Node>,
    pub jobs: Vec<Job>,
    seconds: Vec<i64>,
    metres: Vec<i64>,
    pub steps: Vec<[u64; 3]>,
    /// Where the entries of sections 1 to 6 begin and end, in words.
    pub spans: Vec<(usize, usize)>,
}

impl Sheet {
    pub fn n(&self) -> usize {
        self.nodes.len()
    }
    /// How many vans the day has, 1 to 8.
    pub fn v(&self) -> usize {
        self.vans.len()
    }
    pub fn van(&self, van: usize) -> &Van {
        &self.vans[if slips::on(slips::LIMITS_OF_THE_FIRST_VAN) { 0 } else { van }]
    }
    /// What the van that takes most can take.
    pub fn largest_capacity(&self) -> i64 {
        let capacities = self.vans.iter().map(|van| van.capacity);
        let asked = if slips::on(slips::CAPACITY_OF_THE_FIRST_VAN_FOR_6) {
            capacities.take(1).max()
        } else if slips::on(slips::SMALLEST_CAPACITY_FOR_6) {
            capacities.min()
        } else if slips::on(slips::CAPACITIES_TOGETHER_FOR_6) {
            Some(capacities.sum())
        } else {
            capacities.max()
        };
        asked.expect("a sheet has a van")
    }
    pub fn seconds(&self, from: usize, to: usize) -> i64 {
        self.seconds[from * self.n() + to]
    }
    pub fn metres(&self, from: usize, to: usize) -> i64 {
        self.metres[from * self.n() + to]
    }
    /// May the van come to the node?
    pub fn admits(&self, node: usize, van: usize) -> bool {
        self.nodes[node].classes & self.vans[van].bit != 0
    }
    /// The last moment to start at a node: latest less service. Below 0 where the service alone
    /// takes longer than that.
    pub fn last_moment(&self, node: usize) -> i64 {
        let last = self.nodes[node].latest - self.nodes[node].service;
        if slips::on(slips::LAST_MOMENT_CUT_AT_0) {
            return last.max(0);
        }
        last
    }
    /// The other node of the transfer that x has an end of.
    pub fn partner(&self, x: usize) -> Option<usize> {
        let job = self.jobs.iter().find(|j| j.kind == 3 && (j.a == x || j.b == x))?;
        Some(if job.a == x { job.b } else { job.a })
    }
}

pub const PROGRAM_BYTES: usize = 60_396;
pub const MILLION: i64 = 1_000_000;

pub fn words(bytes: &[u8]) -> Vec<i64> {
    bytes.chunks_exact(4).map(|c| i64::from(u32::from_le_bytes([c[0], c[1], c[2], c[3]]))).collect()
}

/// Count, then shortness; hands back where the entries are and moves behind them.
pub fn section(w: &[i64], at: &mut usize, low: i64, high: i64, width: usize) -> Result<(usize, usize), u64> {
    let count = *w.get(*at).ok_or(1u64)?;
    if count < low || count > high {
        return Err(2);
    }
    let begin = *at + 1;
    let end = begin + count as usize * width;
    if end > w.len() {
        return Err(1);
    }
    *at = end;
    Ok((begin, end))
}

pub fn within(value: i64, low: i64, high: i64) -> Result<i64, u64> {
    if value < low || value > high {
        return Err(3);
    }
    Ok(value)
}

fn node(w: &[i64]) -> Result<Node, u64> {
    let least = i64::from(!slips::on(slips::CLASS_SET_0_TAKEN));
    let most = 255 + i64::from(slips::on(slips::CLASS_SET_256_TAKEN));
    let mut node = Node {
        earliest: within(w[0], 0, MILLION)?,
        latest: within(w[1], 0, MILLION)?,
        service: within(w[2], 0, MILLION)?,
        classes: within(w[3], least, most)?,
    };
    if node.earliest > node.latest {
        return Err(3);
    }
    if slips::on(slips::CLASSES_FROM_THE_SERVICE) {
        node.classes = node.service;
    }
    Ok(node)
}

fn job(w: &[i64], n: i64) -> Result<Job, u64> {
    let kind = within(w[0], 1, 3)?;
    let a = within(w[1], 1, n - 2)? as usize;
    let b = if kind == 3 { within(w[2], 1, n - 2)? } else { within(w[2], 0, 0)? } as usize;
    if a == b {
        return Err(3);
    }
    let load = within(w[3], 1, 1000)?;
    Ok(Job { kind, a, b, load })
}

fn table(w: &[i64]) -> Result<Vec<i64>, u64> {
    w.iter().map(|&v| within(v, 0, MILLION)).collect()
}

/// A sheet that 1 to 4, 6 and 7 let pass; the triangles (5) are judged elsewhere, by opening alone.
pub fn read(bytes: &[u8]) -> Result<Sheet, u64> {
    read_unless([slips::NONE; 2], bytes)
}

/// The same for a call that, by one of these slips, would not ask 6 or would not ask 7.
pub fn read_unless(slips: [u64; 2], bytes: &[u8]) -> Result<Sheet, u64> {
    let sheet = read_unjudged(bytes)?;
    whole::judge(&sheet, slips)?;
    Ok(sheet)
}

/// A sheet that 1 to 4 let pass.
pub fn read_unjudged(bytes: &[u8]) -> Result<Sheet, u64> {
    let sheet = read_values(bytes)?;
    if slips::on(slips::SIX_BEFORE_4) && whole::never_rides(&sheet) {
        return Err(6);
    }
    if whole::doubled(&sheet.jobs) {
        return Err(4);
    }
    Ok(sheet)
}

/// A sheet that 1 to 3 let pass.
pub fn read_values(bytes: &[u8]) -> Result<Sheet, u64> {
    if bytes.len() % 4 != 0 {
        return Err(1);
    }
    let w = words(bytes);
    let mut at = 0;
    let Limits { span, vans, profile } = limits::read(&w, &mut at)?;
    let of_nodes = section(&w, &mut at, 2, 64, 4)?;
    let nodes: Vec<Node> = w[of_nodes.0..of_nodes.1].chunks(4).map(node).collect::<Result<_, _>>()?;
    let n = nodes.len() as i64;
    let of_jobs = section(&w, &mut at, 0, 155, 4)?;
    let jobs: Vec<Job> = w[of_jobs.0..of_jobs.1].chunks(4).map(|c| job(c, n)).collect::<Result<_, _>>()?;
    let of_seconds = section(&w, &mut at, n * n, n * n, 1)?;
    let seconds = table(&w[of_seconds.0..of_seconds.1])?;
    let of_metres = section(&w, &mut at, n * n, n * n, 1)?;
    let metres = table(&w[of_metres.0..of_metres.1])?;
    let of_steps = section(&w, &mut at, 0, 2000, 3)?;
    let steps =
        w[of_steps.0..of_steps.1].chunks(3).map(|c| [c[0] as u64, c[1] as u64, c[2] as u64]).collect();
    if at != w.len() {
        return Err(1);
    }
    let spans = vec![span, of_nodes, of_jobs, of_seconds, of_metres, of_steps];
    Ok(Sheet { vans, profile, nodes, jobs, seconds, metres, steps, spans })
}

/// The bytes of one section's entries.
pub fn stretch(bytes: &[u8], number: u64) -> &[u8] {
    if !(1..=6).contains(&number) {
        return &[];
    }
    match read_unless([slips::SECTION_DOES_NOT_ASK_6, slips::SECTION_DOES_NOT_ASK_7], bytes) {
        Ok(sheet) => {
            let (begin, end) = sheet.spans[number as usize - 1];
            &bytes[4 * begin..4 * end]
        }
        Err(_) => &[],
    }
}
