// The same answers for large inputs, by other methods than the enumeration: a graph
// with arrows that read nothing for the table, cells over the line for the readings.
use super::base::*;
use super::grammar::{Pattern, Tree};
use super::table::Table;

// ---- the table

/// Places between which one moves by steps, or for a charge without a step.
struct Graph {
    free: Vec<(usize, usize, u64)>, // from, to, charged
    steps: Vec<(usize, usize)>,     // step p leads from steps[p - 1].0 to steps[p - 1].1
    places: usize,
}

impl Graph {
    fn place(&mut self) -> usize {
        self.places += 1;
        self.places - 1
    }

    fn step(&mut self, from: usize, p: usize) -> usize {
        let to = self.place();
        assert_eq!(self.steps.len() + 1, p);
        self.steps.push((from, to));
        to
    }

    /// Adds the tree from a place on; the place where it is left.
    fn add(&mut self, tree: &Tree, from: usize) -> usize {
        match tree {
            Tree::Nothing => from,
            Tree::Step(p) => self.step(from, *p),
            Tree::Group(t) => self.add(t, from),
            Tree::Cat(ts) => ts.iter().fold(from, |at, t| self.add(t, at)),
            Tree::Capture(open, t, close) => {
                let inside = self.step(from, *open);
                let end = self.add(t, inside);
                self.step(end, *close)
            }
            Tree::Charged(t, n) => {
                let end = self.add(t, from);
                let to = self.place();
                self.free.push((end, to, *n));
                to
            }
            Tree::Alt(ts) => {
                let to = self.place();
                for t in ts {
                    let start = self.place();
                    self.free.push((from, start, 0));
                    let end = self.add(t, start);
                    self.free.push((end, to, 0));
                }
                to
            }
            Tree::Star(t) => {
                let hub = self.place();
                self.free.push((from, hub, 0));
                let start = self.place();
                self.free.push((hub, start, 0));
                let end = self.add(t, start);
                self.free.push((end, hub, 0));
                let to = self.place();
                self.free.push((hub, to, 0));
                to
            }
        }
    }

    /// The least charge from a place to every other without a step.
    fn charges(&self, from: usize) -> Vec<u64> {
        let mut least = vec![MARK; self.places];
        least[from] = 0;
        loop {
            let mut moved = false;
            for &(a, b, n) in &self.free {
                if least[a] != MARK && least[a] + n < least[b] {
                    least[b] = least[a] + n;
                    moved = true;
                }
            }
            if !moved {
                return least;
            }
        }
    }
}

pub fn table_of(k: usize, pattern: &Pattern) -> Table {
    let mut graph = Graph { free: vec![], steps: vec![], places: 1 };
    let end = graph.add(&pattern.tree, 0);
    let mut table = Table { k, ends: vec![], rows: vec![] };
    for p in 0..=pattern.steps.len() {
        let least = graph.charges(if p == 0 { 0 } else { graph.steps[p - 1].1 });
        table.ends.push(least[end]);
        for (i, &step) in pattern.steps.iter().enumerate() {
            let weight = least[graph.steps[i].0];
            if weight != MARK {
                table.rows.push((p, i + 1, step, weight));
            }
        }
    }
    table
}

// ---- readings

/// The lightest way to a state and setting, and the first set among the lightest. Two
/// ways to one cell have marked the same ends of spans, so the order between them stays.
type Cell = Option<(u64, Spans)>;

fn lighten(cell: &mut Cell, new: (u64, Spans)) -> bool {
    let better = match *cell {
        None => true,
        Some(old) => new < old,
    };
    if better {
        *cell = Some(new);
    }
    better
}

/// Base three, variable 1 lowest: untouched 0, open 1, shut 2.
fn setting(spans: &Spans) -> usize {
    let digit = |v: usize| (spans[2 * v] != 0) as usize + (spans[2 * v + 1] != 0) as usize;
    digit(0) + 3 * digit(1) + 9 * digit(2)
}

/// The best reading; with a set given, among the runs that mark it.
pub fn best(table: &Table, line: &[u8], set: Option<&Spans>) -> Answer {
    let states = table.ends.len();
    let mut cells: Vec<Cell> = vec![None; states * 27];
    cells[0] = Some((0, [0; 6]));
    for at in 1..=line.len() as u64 + 1 {
        while mark_here(table, line, at, set, &mut cells) {}
        if at <= line.len() as u64 {
            cells = read_here(table, line, at, &cells);
        }
    }
    let full = [0, 2, 8, 26][table.k];
    let ends = (0..states).filter(|&q| table.ends[q] != MARK);
    let all = ends.filter_map(|q| cells[q * 27 + full].map(|(w, spans)| (w + table.ends[q], spans)));
    match all.min() {
        Some((weight, spans)) => Answer::Found(weight, spans),
        None => Answer::None,
    }
}

fn mark_here(table: &Table, line: &[u8], at: u64, set: Option<&Spans>, cells: &mut [Cell]) -> bool {
    let mut moved = false;
    for &(from, to, step, w) in &table.rows {
        let here = match step {
            Step::Read(..) => continue,
            Step::Open(v) => 2 * v - 2,
            Step::Close(v) => 2 * v - 1,
        };
        if set.is_some_and(|set| set[here] != at) {
            continue;
        }
        for u in 0..27 {
            let Some((weight, spans)) = cells[from * 27 + u] else { continue };
            let stand = Stand { at, weight, spans, steps: 0 };
            if let Some(next) = stand.after(step, line) {
                let cell = &mut cells[to * 27 + setting(&next.spans)];
                moved |= lighten(cell, (weight + w, next.spans));
            }
        }
    }
    moved
}

fn read_here(table: &Table, line: &[u8], at: u64, cells: &[Cell]) -> Vec<Cell> {
    let byte = line[at as usize - 1];
    let mut next = vec![None; cells.len()];
    for &(from, to, step, w) in &table.rows {
        let Step::Read(lo, hi) = step else { continue };
        if lo <= byte && byte <= hi {
            for u in 0..27 {
                if let Some((weight, spans)) = cells[from * 27 + u] {
                    lighten(&mut next[to * 27 + u], (weight + w, spans));
                }
            }
        }
    }
    next
}
