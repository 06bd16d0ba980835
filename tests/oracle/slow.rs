// 01 from its definitions, by enumeration: every derivation of a text, every run of a
// table. Nothing is shared between two of them, so only small inputs are feasible;
// TooLarge says that the budget ran out.
use super::base::*;
use super::grammar::{Pattern, Tree};
use super::table::Table;
use std::collections::BTreeMap;

pub struct TooLarge;

/// Every set that some derivation or run marks, with its least weight.
pub type Weights = BTreeMap<Spans, u64>;

const BUDGET: u64 = 5_000_000;

// ---- derivations

/// What is done along a derivation. `step` may end it; `steps` tells null passes.
trait Walk {
    type At: Copy;
    fn step(&mut self, at: Self::At, p: usize) -> Option<Self::At>;
    fn charge(&mut self, at: Self::At, n: u64) -> Self::At;
    fn steps(&self, at: Self::At) -> u64;
    fn most_passes(&self) -> u64;
    fn spend(&mut self) -> bool;
}

/// Calls `then` at the end of every derivation of `tree` that starts at `at`.
/// A pass of a star that takes no step is left out: without it the same steps are
/// taken and no more is charged.
fn derive<W: Walk>(w: &mut W, tree: &Tree, at: W::At, then: &mut dyn FnMut(&mut W, W::At)) {
    if !w.spend() {
        return;
    }
    match tree {
        Tree::Nothing => then(w, at),
        Tree::Step(p) => {
            if let Some(at) = w.step(at, *p) {
                then(w, at)
            }
        }
        Tree::Group(t) => derive(w, t, at, then),
        Tree::Charged(t, n) => derive(w, t, at, &mut |w, at| {
            let at = w.charge(at, *n);
            then(w, at)
        }),
        Tree::Capture(open, t, close) => {
            if let Some(at) = w.step(at, *open) {
                derive(w, t, at, &mut |w, at| {
                    if let Some(at) = w.step(at, *close) {
                        then(w, at)
                    }
                })
            }
        }
        Tree::Alt(ts) => ts.iter().for_each(|t| derive(w, t, at, then)),
        Tree::Cat(ts) => derive_all(w, ts, at, then),
        Tree::Star(t) => passes(w, t, at, 0, then),
    }
}

fn derive_all<W: Walk>(w: &mut W, ts: &[Tree], at: W::At, then: &mut dyn FnMut(&mut W, W::At)) {
    match ts {
        [] => then(w, at),
        [t, rest @ ..] => derive(w, t, at, &mut |w, at| derive_all(w, rest, at, then)),
    }
}

fn passes<W: Walk>(w: &mut W, t: &Tree, at: W::At, done: u64, then: &mut dyn FnMut(&mut W, W::At)) {
    then(w, at);
    if done < w.most_passes() && w.spend() {
        derive(w, t, at, &mut |w, next| {
            if w.steps(next) > w.steps(at) {
                passes(w, t, next, done + 1, then)
            }
        })
    }
}

/// Derivations of one line.
struct OfLine<'a> {
    steps: &'a [Step],
    line: &'a [u8],
    left: u64,
}

impl Walk for OfLine<'_> {
    type At = Stand;
    fn step(&mut self, at: Stand, p: usize) -> Option<Stand> {
        at.after(self.steps[p - 1], self.line)
    }
    fn charge(&mut self, at: Stand, n: u64) -> Stand {
        Stand { weight: at.weight + n, ..at }
    }
    fn steps(&self, at: Stand) -> u64 {
        at.steps
    }
    fn most_passes(&self) -> u64 {
        u64::MAX
    }
    fn spend(&mut self) -> bool {
        self.left = self.left.saturating_sub(1);
        self.left > 0
    }
}

/// The weight of a pattern for a line, for every set that has one.
pub fn weights_of_text(k: usize, pattern: &Pattern, line: &[u8]) -> Result<Weights, TooLarge> {
    let mut walk = OfLine { steps: &pattern.steps, line, left: BUDGET };
    let mut all = Weights::new();
    derive(&mut walk, &pattern.tree, Stand::start(), &mut |_, end| {
        if end.is_whole(k, line) {
            note(&mut all, end.spans, end.weight);
        }
    });
    if walk.left > 0 { Ok(all) } else { Err(TooLarge) }
}

/// Derivations of no line in particular, for the gaps between their steps.
struct Gaps {
    rows: BTreeMap<(usize, usize), u64>,
    ends: BTreeMap<usize, u64>,
    left: u64,
}

#[derive(Clone, Copy)]
struct Gap {
    last: usize,
    charged: u64,
    steps: u64,
}

impl Walk for Gaps {
    type At = Gap;
    fn step(&mut self, at: Gap, q: usize) -> Option<Gap> {
        least(&mut self.rows, (at.last, q), at.charged);
        Some(Gap { last: q, charged: 0, steps: at.steps + 1 })
    }
    fn charge(&mut self, at: Gap, n: u64) -> Gap {
        Gap { charged: at.charged + n, ..at }
    }
    fn steps(&self, at: Gap) -> u64 {
        at.steps
    }
    /// Two steps that follow one another lie in at most two passes of each star.
    fn most_passes(&self) -> u64 {
        2
    }
    fn spend(&mut self) -> bool {
        self.left = self.left.saturating_sub(1);
        self.left > 0
    }
}

fn least<Key: Ord>(map: &mut BTreeMap<Key, u64>, key: Key, weight: u64) {
    let held = map.entry(key).or_insert(weight);
    *held = weight.min(*held);
}

fn note(all: &mut Weights, set: Spans, weight: u64) {
    least(all, set, weight);
}

/// The compiled table, from the gaps of all derivations.
pub fn table_of(k: usize, pattern: &Pattern) -> Result<Table, TooLarge> {
    let mut gaps = Gaps { rows: BTreeMap::new(), ends: BTreeMap::new(), left: BUDGET };
    let start = Gap { last: 0, charged: 0, steps: 0 };
    derive(&mut gaps, &pattern.tree, start, &mut |w, end| least(&mut w.ends, end.last, end.charged));
    if gaps.left == 0 {
        return Err(TooLarge);
    }
    let ends = (0..=pattern.steps.len()).map(|p| *gaps.ends.get(&p).unwrap_or(&MARK)).collect();
    let rows = gaps.rows.into_iter().map(|((p, q), w)| (p, q, pattern.steps[q - 1], w)).collect();
    Ok(Table { k, ends, rows })
}

// ---- runs

/// The least weight of a valid run, for every set that has one.
pub fn weights_of_table(table: &Table, line: &[u8]) -> Result<Weights, TooLarge> {
    let mut all = Weights::new();
    let mut left = BUDGET;
    runs(table, line, 0, Stand::start(), &mut all, &mut left);
    if left > 0 { Ok(all) } else { Err(TooLarge) }
}

fn runs(table: &Table, line: &[u8], state: usize, at: Stand, all: &mut Weights, left: &mut u64) {
    if table.ends[state] != MARK && at.is_whole(table.k, line) {
        note(all, at.spans, at.weight + table.ends[state]);
    }
    for &(from, to, step, weight) in &table.rows {
        *left = left.saturating_sub(1);
        if *left == 0 {
            return;
        }
        if from == state {
            if let Some(next) = at.after(step, line) {
                runs(table, line, to, Stand { weight: next.weight + weight, ..next }, all, left);
            }
        }
    }
}

/// The least weight over all sets; of several, the first set in the printed order.
pub fn best(all: &Weights) -> Answer {
    match all.iter().map(|(set, weight)| (*weight, *set)).min() {
        Some((weight, set)) => Answer::Found(weight, set),
        None => Answer::None,
    }
}
