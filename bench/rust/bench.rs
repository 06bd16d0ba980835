// Times the reader's pass: Rust (reader.rs) and, compiled with --cfg rattle and linked with
// the archive, Rattle beside it in the same run. bench/run.sh builds and runs it.
#[path = "../../tests/oracle/lib.rs"]
#[allow(dead_code)]
mod oracle;
mod reader;

use oracle::answers::{best_reading, compile, read_card, Way};
use oracle::base::Answer;
use oracle::table::Table;
use std::time::Instant;

#[cfg(rattle)]
extern "C" {
    /// Words as four bytes each, low byte first. The weight; 2^32 and more for no reading.
    fn bench_best(table: *const u8, table_len: usize, line: *const u8, line_len: usize) -> u64;
}

const MARK: u32 = u32::MAX;
const ROUNDS: usize = 15;
const BYTES_A_ROUND: usize = 1 << 14;

// ---- what is timed

fn rust(table: &[u32], line: &[u8]) -> Option<u32> {
    Some(reader::best(table, line).0).filter(|&weight| weight != MARK)
}

#[cfg(rattle)]
fn rattle(bytes: &[u8], line: &[u8]) -> Option<u32> {
    let answer = unsafe { bench_best(bytes.as_ptr(), bytes.len(), line.as_ptr(), line.len()) };
    u32::try_from(answer).ok()
}

/// The Rust pass gives what the oracle gives, so the same work is timed.
fn check(table: &[u32], line: &[u8]) {
    let words: Vec<u64> = table.iter().map(|&w| w as u64).collect();
    let table_read = Table::from_words(&words).expect("a legal table");
    let expected = match best_reading(Way::Fast, &table_read, line) {
        Ok(Answer::Found(weight, spans)) => (weight as u32, spans.iter().fold(0, |key, p| key * 1026 + p)),
        _ => (MARK, 0),
    };
    assert_eq!(reader::best(table, line), expected);
}

type Pass<'a> = Box<dyn Fn(&[u8]) -> Option<u32> + 'a>;

/// Nanoseconds a byte of each pass, the best of some rounds; the passes take turns, so that
/// a busy moment of the machine does not hit one alone.
fn time(calls: usize, lines: &[Vec<u8>], passes: &[Pass]) -> Vec<f64> {
    let bytes: usize = lines.iter().map(Vec::len).sum();
    let mut best = vec![f64::INFINITY; passes.len()];
    for _ in 0..ROUNDS {
        for (pass, best) in passes.iter().zip(&mut best) {
            let start = Instant::now();
            for _ in 0..calls {
                for line in lines {
                    std::hint::black_box(pass(line));
                }
            }
            *best = best.min(start.elapsed().as_nanos() as f64 / (calls * bytes) as f64);
        }
    }
    best
}

fn measure(title: &str, table: &[u32], lines: &[Vec<u8>]) {
    lines.iter().for_each(|line| check(table, line));
    let bytes: usize = lines.iter().map(Vec::len).sum();
    // large tables take microseconds a byte, so fewer passes do
    let calls = (BYTES_A_ROUND / bytes / (1 + table[2] as usize / 100)).max(1);
    #[allow(unused_mut)]
    let mut passes: Vec<Pass> = vec![Box::new(|line| rust(table, line))];
    #[cfg(rattle)]
    let words: Vec<u8> = table.iter().flat_map(|w| w.to_le_bytes()).collect();
    #[cfg(rattle)]
    passes.push(Box::new(move |line| rattle(&words, line)));
    let best = time(calls, lines, &passes);
    print!("{title:<44} {:>10.0}", best[0]);
    if let [in_rust, in_rattle] = best[..] {
        let same = lines.iter().all(|line| passes[0](line) == passes[1](line));
        print!(" {in_rattle:>10.0} {:>6.2} {}", in_rattle / in_rust, if same { "" } else { "ANSWERS DIFFER" });
    }
    println!();
}

// ---- inputs

/// Numbers that look random and are the same in every run.
struct Numbers(u64);

impl Numbers {
    fn below(&mut self, n: u32) -> u32 {
        self.0 = self.0.wrapping_mul(6364136223846793005).wrapping_add(1442695040888963407);
        (self.0 >> 33) as u32 % n
    }
}

/// A table of the form of compiled ones: state q is entered by step q. The first 2K steps are
/// the markers, the others read any byte; rows go from every state to every step, and of
/// them the first `rows`, taken in an order that spreads them over the states.
fn full_table(states: u32, k: u32, rows: usize) -> Vec<u32> {
    let mut numbers = Numbers(7);
    let steps = states - 1;
    let mut all = Vec::new();
    for shift in 0..steps {
        for from in 0..states {
            let to = 1 + (from + shift) % steps;
            let (kind, argument) = if to <= 2 * k { (1 + (to - 1) % 2, 1 + (to - 1) / 2) } else { (0, 255) };
            all.push([from, to, kind, argument, numbers.below(1000)]);
        }
    }
    let mut rows = all[..rows].to_vec();
    rows.sort();
    let mut words = vec![states, k, rows.len() as u32];
    words.extend((0..states).map(|_| 0));
    words.extend(rows.concat());
    words
}

fn bytes(n: usize) -> Vec<u8> {
    let mut numbers = Numbers(n as u64);
    (0..n).map(|_| numbers.below(256) as u8).collect()
}

fn card_table(card: &[u8]) -> Vec<u32> {
    let (k, text, _) = read_card(card).expect("a card");
    let Ok(Ok((_, table))) = compile(Way::Fast, k, text, u64::MAX) else { panic!("a card that compiles") };
    table.words().iter().map(|&w| w as u32).collect()
}

/// A log's lines, filled up to 80 bytes as by a logger that prints more fields.
fn lines_of_80(log: &str) -> Vec<Vec<u8>> {
    let fill = " P=2.41 bar Q=118 l/h STATUS ok SEQ 000417 BATT 3.6 V";
    log.lines().map(|line| format!("{line}{fill}").into_bytes()[..80].to_vec()).collect()
}

/// A log's first line behind as much of other text as makes n bytes.
fn stretched(log: &str, n: usize) -> Vec<u8> {
    let line = log.lines().next().expect("a line");
    let text = "GW 12 SEQ 000417 BATT 3.6 V ".repeat(n / 28 + 1) + line;
    text.into_bytes().split_off(n / 28 * 28 + 28 + line.len() - n)
}

fn main() {
    let samples = std::env::args().nth(1).expect("the folder of samples");
    let read = |name: &str| std::fs::read_to_string(format!("{samples}/{name}")).expect("a sample");
    let beside = if cfg!(rattle) { "     Rattle  ratio" } else { "" };
    println!("{:<44} {:>10}{beside}", "ns a byte", "Rust");
    let limit = full_table(32, 3, 992);
    measure("limit: K=3 S=32 R=992, line of 1024", &limit, &[bytes(1024)]);
    let ec = card_table(read("ec.card").as_bytes());
    let title = format!("ec card: K={} S={} R={}, lines of 80", ec[1], ec[0], ec[2]);
    measure(&title, &ec, &lines_of_80(&read("ec.log")));
    for n in [64, 128, 256, 512, 1024] {
        measure(&format!("by length: ec card, line of {n}"), &ec, &[stretched(&read("ec.log"), n)]);
    }
    for rows in [0, 31, 62, 124, 248, 496, 992] {
        measure(&format!("by rows: K=1 S=32 R={rows}, line of 256"), &full_table(32, 1, rows), &[bytes(256)]);
    }
    for k in 0..=3 {
        measure(&format!("by K: K={k} S=32 R=248, line of 256"), &full_table(32, k, 248), &[bytes(256)]);
    }
}
