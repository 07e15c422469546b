//! Test records: their words, and the line that answers one.

use crate::{ask, findings, judge, Asked, Judged, Listed, Refusal};

pub const ASK: u32 = 3;
pub const JUDGE: u32 = 4;
pub const FINDINGS: u32 = 5;

#[derive(Clone, Debug, PartialEq, Eq, Default)]
pub struct Record {
    pub call: u32,
    pub k: u32,
    pub program: Vec<u32>,
    pub lemmas: Vec<u32>,
    /// Lengths of the lent lists (0 for Ask).
    pub graph: u32,
    /// For Findings that of the findings list.
    pub path: u32,
}

impl Record {
    pub fn words(&self) -> Vec<u32> {
        let count = 6 + self.program.len() + self.lemmas.len();
        let mut words = vec![
            count as u32,
            self.call,
            self.k,
            self.program.len() as u32,
            self.lemmas.len() as u32,
            self.graph,
            self.path,
        ];
        words.extend(&self.program);
        words.extend(&self.lemmas);
        words
    }
}

/// The records of a run of words, or what is wrong with it.
pub fn decode(words: &[u32]) -> Result<Vec<Record>, String> {
    let mut records = Vec::new();
    let mut rest = words;
    while !rest.is_empty() {
        let number = records.len();
        if rest.len() < 7 {
            return Err(format!("record {number}: the header is cut"));
        }
        let (header, body) = rest[1..].split_at(6);
        let (n, m) = (header[2] as usize, header[3] as usize);
        if body.len() < n || body.len() - n < m {
            return Err(format!("record {number}: the words are cut"));
        }
        if ![ASK, JUDGE, FINDINGS].contains(&header[0]) {
            return Err(format!("record {number}: call {}", header[0]));
        }
        records.push(Record {
            call: header[0],
            k: header[1],
            program: body[..n].to_vec(),
            lemmas: body[n..n + m].to_vec(),
            graph: header[4],
            path: header[5],
        });
        rest = &body[n + m..];
    }
    Ok(records)
}

pub fn lent_graph(length: u32) -> Vec<u32> {
    (0..length).map(|i| 0xA500_0000u32.wrapping_add(i)).collect()
}

pub fn lent_path(length: u32) -> Vec<u32> {
    (0..length).map(|i| 0x5A00_0000u32.wrapping_add(i)).collect()
}

/// h starts at 0, and for each word w in order h = (h * 1,000,003 + w + 1) mod 4,294,967,291, a prime.
pub fn digest(words: &[u32]) -> u64 {
    words.iter().fold(0, |h, w| (h * 1_000_003 + u64::from(*w) + 1) % 4_294_967_291)
}

fn refused(refusal: Refusal) -> String {
    format!("REFUSED {} AT {}", refusal.number, refusal.value)
}

pub fn verdict(judged: Judged) -> String {
    match judged {
        Judged::Safe { nodes, edges } => format!("SAFE nodes {nodes} edges {edges}"),
        Judged::MayForbid { node, bad, nodes, edges } => {
            format!("FORBID node {node} bad {bad} nodes {nodes} edges {edges}")
        }
        Judged::MayRunOff { node, action, variable, high, nodes, edges } => {
            let end = if high { "high" } else { "low" };
            format!("RUNOFF node {node} action {action} variable {variable} {end} nodes {nodes} edges {edges}")
        }
        Judged::Refused(refusal) => refused(refusal),
    }
}

fn ask_line(record: &Record) -> String {
    match ask(&record.program, &record.lemmas, record.k as usize) {
        Asked::Accepted => "ACCEPTED".to_string(),
        Asked::NotAccepted => "NOT ACCEPTED".to_string(),
        Asked::Refused(refusal) => refused(refusal),
    }
}

fn judge_line(record: &Record) -> String {
    let mut graph = lent_graph(record.graph);
    let mut path = lent_path(record.path);
    let judged = judge(&record.program, &record.lemmas, &mut graph, &mut path);
    format!("{} GRAPH {} PATH {}", verdict(judged), digest(&graph), digest(&path))
}

/// The findings list is lent with the pattern of a path list.
fn findings_line(record: &Record) -> String {
    let mut graph = lent_graph(record.graph);
    let mut list = lent_path(record.path);
    let answer = match findings(&record.program, &record.lemmas, &mut graph, &mut list) {
        Listed::Listed(count) => format!("FINDINGS {count}"),
        Listed::Refused(refusal) => refused(refusal),
    };
    format!("{answer} GRAPH {} LIST {}", digest(&graph), digest(&list))
}

/// The line that answers a record.
pub fn answer(record: &Record) -> String {
    match record.call {
        ASK => ask_line(record),
        FINDINGS => findings_line(record),
        _ => judge_line(record),
    }
}
