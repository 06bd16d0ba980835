// The table as words: number 7 and the exact layout.
use super::base::*;

pub struct Table {
    pub k: usize,
    pub ends: Vec<u64>,
    pub rows: Vec<(usize, usize, Step, u64)>, // from, to, what it does, weight
}

const MOST_WEIGHT: u64 = 1_000_000;

impl Table {
    pub fn words(&self) -> Vec<u64> {
        let mut words = vec![self.ends.len() as u64, self.k as u64, self.rows.len() as u64];
        words.extend(&self.ends);
        for &(from, to, step, weight) in &self.rows {
            let (kind, argument) = match step {
                Step::Read(lo, hi) => (0, lo as u64 * 256 + hi as u64),
                Step::Open(v) => (1, v as u64),
                Step::Close(v) => (2, v as u64),
            };
            words.extend([from as u64, to as u64, kind, argument, weight]);
        }
        words
    }

    /// The table that the words hold, unless they break a rule or are too few.
    pub fn from_words(words: &[u64]) -> Result<Table, Refusal> {
        parse(words).ok_or(Refusal(7, 0))
    }
}

fn parse(words: &[u64]) -> Option<Table> {
    let (s, k, r) = (*words.first()?, *words.get(1)?, *words.get(2)?);
    let good = (1..=32).contains(&s) && k <= 3 && r <= 1024;
    if !good || (words.len() as u64) < 3 + s + 5 * r {
        return None;
    }
    let ends = words[3..][..s as usize].to_vec();
    if ends.iter().any(|&e| e > MOST_WEIGHT && e != MARK) {
        return None;
    }
    let rows = words[3 + s as usize..].chunks(5).take(r as usize);
    let rows: Option<Vec<_>> = rows.map(|row| parse_row(row, s, k)).collect();
    Some(Table { k: k as usize, ends, rows: rows? })
}

fn parse_row(row: &[u64], s: u64, k: u64) -> Option<(usize, usize, Step, u64)> {
    let &[from, to, kind, argument, weight] = row else { return None };
    let (lo, hi) = (argument / 256, argument % 256);
    let variable = 1 <= argument && argument <= k;
    let step = match kind {
        0 if lo <= hi && lo <= 255 => Step::Read(lo as u8, hi as u8),
        1 if variable => Step::Open(argument as usize),
        2 if variable => Step::Close(argument as usize),
        _ => return None,
    };
    let good = from < s && to < s && weight <= MOST_WEIGHT;
    good.then_some((from as usize, to as usize, step, weight))
}
