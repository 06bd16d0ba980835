// The exhaustive small world: every short card, times every short line, a reader compared
// with the oracle's enumeration. world.sh builds and runs it.
//   world READER BYTES PIECES PARTS
// READER is a program that takes a card and lines on standard input, or --fast for the
// oracle's other way. Cards are all texts of up to BYTES bytes, of up to PIECES pieces and
// of up to PARTS larger parts. A text that no longer begins a text of the grammar is tried
// and not gone on from: all that begin with it have the same answer by definition.
#[path = "../oracle/lib.rs"]
#[allow(dead_code)]
mod oracle;

use oracle::answers::{reading, Way};
use oracle::base::Refusal;
use oracle::grammar::read_pattern;
use std::io::{Read, Write};
use std::process::{Command, Stdio};

const BYTES: &[&str] =
    &["|", "*", "#", "(", ")", "[", "]", "{", "}", "\\", ".", "~", "a", "0", "1", "-", ":"];
const PIECES: &[&str] =
    &["|", "*", "#001", "#002", "(", ")", "[0-9]", "{1:", "{2:", "}", "\\*", ".", "~", "a", "1"];
/// Where several readings of one weight or several orders of markers are likely.
const PARTS: &[&str] = &[
    ".*", "a#001", "~#002", "(", ")", ")*", "|", "{1:", "{2:", "}", "{1:.*}", "{2:.*}", "{3:.*}", "{1:~}", "{3:a#001*}",
];
const LINES: &[u8] = b"a1*";
const LONGEST: usize = 3;
const MOST_SHOWN: u64 = 10;

struct World {
    reader: String,
    lines: Vec<u8>, // every short line, each ended by LF
    count: u64,     // of lines
    cards: u64,
    refused: u64,
    cases: u64,
    differences: u64,
}

fn every_line() -> (Vec<u8>, u64) {
    let mut all: Vec<Vec<u8>> = vec![vec![]];
    let mut from = 0;
    for _ in 0..LONGEST {
        let upto = all.len();
        for i in from..upto {
            all.extend(LINES.iter().map(|&b| [&all[i][..], &[b]].concat()).collect::<Vec<_>>());
        }
        from = upto;
    }
    let count = all.len() as u64;
    (all.iter().flat_map(|line| [&line[..], b"\n"].concat()).collect(), count)
}

fn first_difference(got: &[u8], expected: &[u8]) -> String {
    let answers = |out: &[u8]| -> Vec<String> {
        let text = String::from_utf8_lossy(out).replace('\n', " ");
        text.split("line=").map(str::to_string).collect()
    };
    let (got, expected) = (answers(got), answers(expected));
    let same = got.iter().zip(&expected).take_while(|(g, e)| g == e).count();
    let at = |all: &[String]| all.get(same).map_or("nothing".to_string(), |answer| format!("line={answer}"));
    format!("got {}, expected {}", at(&got), at(&expected))
}

impl World {
    fn answer(&self, input: &[u8]) -> Vec<u8> {
        if self.reader == "--fast" {
            return reading(Way::Fast, input).ok().unwrap();
        }
        let mut child = Command::new(&self.reader)
            .stdin(Stdio::piped())
            .stdout(Stdio::piped())
            .spawn()
            .expect("the reader starts");
        // a reader that refuses the card may leave the rest unread
        let _ = child.stdin.take().unwrap().write_all(input);
        let mut out = Vec::new();
        child.stdout.take().unwrap().read_to_end(&mut out).unwrap();
        child.wait().unwrap();
        out
    }

    fn try_card(&mut self, k: u64, text: &str, refused: bool) {
        let input = [format!("vars={k}\npattern={text}\n").as_bytes(), &self.lines].concat();
        let expected = reading(Way::Slow, &input).ok().expect("small enough to enumerate");
        self.cards += 1;
        self.refused += refused as u64;
        self.cases += if refused { 1 } else { self.count };
        let got = self.answer(&input);
        if got != expected {
            self.differences += 1;
            if self.differences <= MOST_SHOWN {
                println!("K={k} pattern {text}: {}", first_difference(&got, &expected));
            }
        }
    }

    /// Tries the text and all that begin with it and have up to `more` further pieces.
    fn grow(&mut self, k: u64, pieces: &[&str], text: &mut String, more: usize) {
        let refusal = read_pattern(k, text.as_bytes()).err();
        self.try_card(k, text, refusal.is_some());
        let dead = matches!(refusal, Some(Refusal(3, place)) if place < text.len() as u64);
        if dead || more == 0 {
            return;
        }
        for piece in pieces {
            let length = text.len();
            text.push_str(piece);
            self.grow(k, pieces, text, more - 1);
            text.truncate(length);
        }
    }
}

fn main() {
    let args: Vec<String> = std::env::args().collect();
    let depth = |i: usize| args[i].parse().expect("a number");
    let (lines, count) = every_line();
    let worlds = [("bytes", BYTES, 2, depth(2)), ("pieces", PIECES, 2, depth(3)), ("parts", PARTS, 3, depth(4))];
    let mut differences = 0;
    for (title, pieces, most_k, more) in worlds {
        let mut world = World {
            reader: args[1].clone(),
            lines: lines.clone(),
            count,
            cards: 0,
            refused: 0,
            cases: 0,
            differences: 0,
        };
        (0..=most_k).for_each(|k| world.grow(k, pieces, &mut String::new(), more));
        println!(
            "{title} up to {more}, K up to {most_k}: {} cards, {} of them refused, {} cases, {} differences",
            world.cards, world.refused, world.cases, world.differences
        );
        differences += world.differences;
    }
    std::process::exit((differences > 0) as i32);
}
