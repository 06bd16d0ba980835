// An independent implementation of 01, made from the definitions, to compare with.
// Build:  rustc --edition 2021 -O -o oracle tests/oracle/oracle.rs
//
//   oracle reading [--fast] < input           the program `reading`
//   oracle compile [--fast] K ROOM < pattern  the words, or `refused NUMBER PLACE`
//   oracle table [--fast] < tests             three lines a test: words; line in hex; set.
//                                             Answered on one line: weight of the set | best
//
// Without --fast all derivations and runs are enumerated, and a text and its table are
// held to agree on every set; an input too large for that ends with status 3, a test of a
// table with the answer `too large`.
#[path = "lib.rs"]
mod oracle;

use oracle::answers::{best_reading, compile, reading, weight_of_set, Way};
use oracle::base::{Answer, Refusal, Spans};
use oracle::slow::TooLarge;
use oracle::table::Table;
use std::io::{Read, Write};

/// The enumeration goes as deep as the line is long.
const STACK: usize = 1 << 30;

fn main() {
    std::thread::Builder::new().stack_size(STACK).spawn(run).unwrap().join().unwrap()
}

fn run() {
    let mut args: Vec<String> = std::env::args().skip(1).collect();
    let fast = args.iter().position(|a| a == "--fast").map(|i| args.remove(i));
    let way = if fast.is_some() { Way::Fast } else { Way::Slow };
    let mut input = Vec::new();
    std::io::stdin().read_to_end(&mut input).unwrap();
    let output = match args.iter().map(String::as_str).collect::<Vec<_>>()[..] {
        ["reading"] => reading(way, &input),
        ["compile", k, room] => compile_answer(way, k.parse().unwrap(), room.parse().unwrap(), &input),
        ["table"] => Ok(tables(way, std::str::from_utf8(&input).unwrap()).into_bytes()),
        _ => panic!("reading | compile K ROOM | table, and --fast; see the top of oracle.rs"),
    };
    match output {
        Ok(out) => std::io::stdout().write_all(&out).unwrap(),
        Err(TooLarge) => {
            eprintln!("too large to enumerate; use --fast");
            std::process::exit(3);
        }
    }
}

fn compile_answer(way: Way, k: u64, room: u64, text: &[u8]) -> Result<Vec<u8>, TooLarge> {
    Ok(match compile(way, k, text, room)? {
        Ok((_, table)) => format!("{}\n", commas(&table.words())),
        Err(refusal) => refused(refusal) + "\n",
    }
    .into_bytes())
}

fn tables(way: Way, tests: &str) -> String {
    let lines: Vec<&str> = tests.lines().collect();
    let mut out = String::new();
    for test in lines.chunks(3) {
        let set: Spans = numbers(test[2]).try_into().expect("six numbers");
        match table_answer(way, &numbers(test[0]), &bytes(test[1]), &set) {
            Ok(answer) => out += &answer,
            Err(TooLarge) => out += "too large\n",
        }
    }
    out
}

fn table_answer(way: Way, words: &[u64], line: &[u8], set: &Spans) -> Result<String, TooLarge> {
    let table = match Table::from_words(words) {
        Ok(table) => table,
        Err(refusal) => return Ok(format!("{0} | {0}\n", refused(refusal))),
    };
    let weight = match weight_of_set(way, &table, line, set)? {
        Ok(weight) => format!("weight {weight}"),
        Err(refusal) => refused(refusal),
    };
    let best = match best_reading(way, &table, line)? {
        Answer::Found(weight, spans) => format!("found {weight} {}", commas(&spans)),
        Answer::None => "none".to_string(),
        Answer::Refused(refusal) => refused(refusal),
    };
    Ok(format!("{weight} | {best}\n"))
}

fn refused(Refusal(number, place): Refusal) -> String {
    format!("refused {number} {place}")
}

fn commas(words: &[u64]) -> String {
    words.iter().map(u64::to_string).collect::<Vec<_>>().join(",")
}

fn numbers(text: &str) -> Vec<u64> {
    let words = text.split([',', ' ']).filter(|w| !w.is_empty());
    words.map(|w| w.parse().expect("a number")).collect()
}

fn bytes(hex: &str) -> Vec<u8> {
    (0..hex.len()).step_by(2).map(|i| u8::from_str_radix(&hex[i..i + 2], 16).expect("hex")).collect()
}
