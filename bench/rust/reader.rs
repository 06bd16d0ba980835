// The reader's pass in ordinary safe Rust, to be timed beside it. The same cells and the
// same order of work: from the line's end to its start, a byte step over all rows, then a
// closing under the marker rows from the highest setting down; empty cells are passed over;
// a layer by value each byte. A byte costs rows + (rows that read it + marker rows) x 3^K cells.

const STATES: usize = 32;
const SETTINGS: usize = 27;
const MARK: u32 = u32::MAX;
/// A set's six positions are the digits of its key.
const BASE: u64 = 1026;

#[derive(Clone, Copy)]
struct Cell {
    weight: u32,
    key: u64,
}

impl Cell {
    const NONE: Cell = Cell { weight: MARK, key: 0 };

    fn lighter(self, other: Cell) -> Cell {
        if self.weight < other.weight {
            return self;
        }
        if other.weight < self.weight {
            return other;
        }
        if self.weight == MARK {
            return Cell::NONE;
        }
        if self.key < other.key { self } else { other }
    }

    /// A key that would pass 64 bits carries into the weight.
    fn sum(self, other: Cell) -> Cell {
        if MARK - self.weight <= other.weight {
            return Cell::NONE;
        }
        let weight = self.weight + other.weight;
        match self.key.overflowing_add(other.key) {
            (key, false) => Cell { weight, key },
            (_, true) if weight == MARK - 1 => Cell::NONE,
            (key, true) => Cell { weight: weight + 1, key },
        }
    }
}

#[derive(Clone, Copy)]
struct Row {
    from: usize,
    to: usize,
    kind: u32,
    argument: u32,
    weight: u32,
}

fn row_at(table: &[u32], at: usize) -> Row {
    Row {
        from: table[at] as usize,
        to: table[at + 1] as usize,
        kind: table[at + 2],
        argument: table[at + 3],
        weight: table[at + 4],
    }
}

struct Layer {
    weights: [u32; STATES * SETTINGS],
    keys: [u64; STATES * SETTINGS],
}

impl Layer {
    fn empty() -> Layer {
        Layer { weights: [MARK; STATES * SETTINGS], keys: [0; STATES * SETTINGS] }
    }

    fn cell(&self, state: usize, setting: usize) -> Cell {
        let i = state * SETTINGS + setting;
        Cell { weight: self.weights[i], key: self.keys[i] }
    }

    fn lighten(&mut self, state: usize, setting: usize, cell: Cell) {
        let lighter = self.cell(state, setting).lighter(cell);
        let i = state * SETTINGS + setting;
        self.weights[i] = lighter.weight;
        self.keys[i] = lighter.key;
    }
}

/// Settings in base three, variable 1 lowest: untouched 0, open 1, shut 2. Marker 2v - 2
/// opens variable v, marker 2v - 1 closes it. SETTINGS stands where it may not.
fn moves() -> [[usize; 6]; SETTINGS] {
    let mut moves = [[SETTINGS; 6]; SETTINGS];
    for setting in 0..SETTINGS {
        for marker in 0..6 {
            let place = [1, 3, 9][marker / 2];
            if setting / place % 3 == marker % 2 {
                moves[setting][marker] = setting + place;
            }
        }
    }
    moves
}

/// What a line's sweep holds on to: the table, its marker rows, the moves.
struct Sweep<'a> {
    table: &'a [u32],
    markers: Vec<Row>,
    moves: [[usize; 6]; SETTINGS],
    low: usize, // unused variables count as shut
}

impl Sweep<'_> {
    fn rows(table: &[u32]) -> impl Iterator<Item = Row> + '_ {
        let first = 3 + table[0] as usize;
        (0..table[2] as usize).map(move |i| row_at(table, first + 5 * i))
    }

    fn new(table: &[u32]) -> Sweep<'_> {
        let markers = Sweep::rows(table).filter(|r| r.kind != 0).collect();
        let low = SETTINGS - 3usize.pow(table[1]);
        Sweep { table, markers, moves: moves(), low }
    }

    fn relax(&self, byte: u8, old: &Layer, new: &mut Layer) {
        for r in Sweep::rows(self.table) {
            let byte = byte as u32;
            if r.kind == 0 && r.argument / 256 <= byte && byte <= r.argument % 256 {
                let price = Cell { weight: r.weight, key: 0 };
                for u in self.low..SETTINGS {
                    let far = old.cell(r.to, u);
                    if far.weight != MARK {
                        new.lighten(r.from, u, price.sum(far));
                    }
                }
            }
        }
    }

    fn close(&self, position: usize, layer: &mut Layer) {
        let tolls = [0, 1, 2, 3, 4, 5].map(|marker| position as u64 * BASE.pow(5 - marker));
        for u in (self.low..SETTINGS).rev() {
            for r in &self.markers {
                let marker = (2 * r.argument + r.kind - 3) as usize;
                let d = self.moves[u][marker];
                if d == SETTINGS {
                    continue;
                }
                let far = layer.cell(r.to, d);
                if far.weight != MARK {
                    let price = Cell { weight: r.weight, key: tolls[marker] };
                    layer.lighten(r.from, u, price.sum(far));
                }
            }
        }
    }

    fn last(&self, position: usize) -> Layer {
        let mut layer = Layer::empty();
        for state in 0..self.table[0] as usize {
            layer.weights[state * SETTINGS + SETTINGS - 1] = self.table[3 + state];
        }
        self.close(position, &mut layer);
        layer
    }

    fn step(&self, position: usize, byte: u8, old: Layer) -> Layer {
        let mut new = Layer::empty();
        self.relax(byte, &old, &mut new);
        self.close(position, &mut new);
        new
    }
}

/// The best reading's weight and the key of its set, of a legal table and line.
pub fn best(table: &[u32], line: &[u8]) -> (u32, u64) {
    let sweep = Sweep::new(table);
    let mut layer = sweep.last(line.len() + 1);
    for i in (0..line.len()).rev() {
        layer = sweep.step(i + 1, line[i], layer);
    }
    let best = layer.cell(0, sweep.low);
    (best.weight, best.key)
}
