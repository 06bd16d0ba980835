// The words of 01 that every part of the oracle shares.

/// "no run"
pub const MARK: u64 = 4_294_967_295;
pub const LONGEST_LINE: usize = 1024;
pub const LONGEST_PATTERN: usize = 255;
pub const MOST_NESTING: usize = 16;
pub const MOST_STEPS: usize = 31;
pub const PROGRAM_ROOM: u64 = 4995;

/// s1,e1,s2,e2,s3,e3; 0 where unused or not yet marked.
pub type Spans = [u64; 6];

/// A number of 01's table of refusals and its place.
#[derive(Clone, Copy, Debug, PartialEq, Eq)]
pub struct Refusal(pub u32, pub u64);

#[derive(Clone, Copy, Debug, PartialEq, Eq)]
pub enum Answer {
    Found(u64, Spans),
    None,
    Refused(Refusal),
}

/// What one step does: reads a byte from lo to hi, opens or closes a variable.
#[derive(Clone, Copy, Debug, PartialEq, Eq)]
pub enum Step {
    Read(u8, u8),
    Open(usize),
    Close(usize),
}

/// Where a derivation or a run stands in a line. All that it has done is in here.
#[derive(Clone, Copy, Debug)]
pub struct Stand {
    pub at: u64, // position, from 1
    pub weight: u64,
    pub spans: Spans,
    pub steps: u64,
}

impl Stand {
    pub fn start() -> Stand {
        Stand { at: 1, weight: 0, spans: [0; 6], steps: 0 }
    }

    /// The stand after one more step, or nothing where the line does not allow the
    /// step or no valid run could go on from it.
    pub fn after(mut self, step: Step, line: &[u8]) -> Option<Stand> {
        self.steps += 1;
        match step {
            Step::Read(lo, hi) => {
                let byte = *line.get(self.at as usize - 1)?;
                self.at += 1;
                (lo <= byte && byte <= hi).then_some(self)
            }
            Step::Open(v) => {
                let fresh = self.spans[2 * v - 2] == 0 && self.spans[2 * v - 1] == 0;
                self.spans[2 * v - 2] = self.at;
                fresh.then_some(self)
            }
            Step::Close(v) => {
                let open = self.spans[2 * v - 2] != 0 && self.spans[2 * v - 1] == 0;
                self.spans[2 * v - 1] = self.at;
                open.then_some(self)
            }
        }
    }

    /// The whole line is read and variables 1 to k are all shut.
    pub fn is_whole(&self, k: usize, line: &[u8]) -> bool {
        self.at == line.len() as u64 + 1 && (1..=k).all(|v| self.spans[2 * v - 1] != 0)
    }
}

/// Is this a set of spans of a line of n bytes?
pub fn is_set(set: &Spans, k: usize, n: usize) -> bool {
    (1..=3).all(|v| {
        let (s, e) = (set[2 * v - 2], set[2 * v - 1]);
        if v <= k { 1 <= s && s <= e && e <= n as u64 + 1 } else { s == 0 && e == 0 }
    })
}
