// The three questions of 01 and the program, each in two ways (see slow.rs, fast.rs).
use super::base::*;
use super::fast;
use super::grammar::{read_pattern, Pattern};
use super::slow::{self, TooLarge};
use super::table::Table;
use std::io::Write;

#[derive(Clone, Copy, PartialEq)]
pub enum Way {
    Slow,
    Fast,
}

/// A refusal is an answer too; the outer result is only about the oracle's own budget.
pub type Compiled = Result<Result<(Pattern, Table), Refusal>, TooLarge>;

pub fn compile(way: Way, k: u64, text: &[u8], room: u64) -> Compiled {
    let pattern = match read_pattern(k, text) {
        Ok(pattern) => pattern,
        Err(refusal) => return Ok(Err(refusal)),
    };
    let table = match way {
        Way::Slow => slow::table_of(k as usize, &pattern)?,
        Way::Fast => fast::table_of(k as usize, &pattern),
    };
    let needed = table.words().len() as u64;
    Ok(if room < needed { Err(Refusal(6, needed)) } else { Ok((pattern, table)) })
}

pub fn best_reading(way: Way, table: &Table, line: &[u8]) -> Result<Answer, TooLarge> {
    if line.len() > LONGEST_LINE {
        return Ok(Answer::Refused(Refusal(8, 0)));
    }
    match way {
        Way::Slow => Ok(slow::best(&slow::weights_of_table(table, line)?)),
        Way::Fast => Ok(fast::best(table, line, None)),
    }
}

pub fn weight_of_set(way: Way, table: &Table, line: &[u8], set: &Spans) -> Result<Result<u64, Refusal>, TooLarge> {
    if line.len() > LONGEST_LINE {
        return Ok(Err(Refusal(8, 0)));
    }
    if !is_set(set, table.k, line.len()) {
        return Ok(Err(Refusal(9, 0)));
    }
    Ok(Ok(match way {
        Way::Slow => *slow::weights_of_table(table, line)?.get(set).unwrap_or(&MARK),
        Way::Fast => match fast::best(table, line, Some(set)) {
            Answer::Found(weight, _) => weight,
            _ => MARK,
        },
    }))
}

/// The answer to a line of a card. The slow way takes it from the derivations of the
/// text, and holds that the runs of the table give every set the same weight.
fn answer(way: Way, pattern: &Pattern, table: &Table, line: &[u8]) -> Result<Answer, TooLarge> {
    if way == Way::Slow && line.len() <= LONGEST_LINE {
        let text = slow::weights_of_text(table.k, pattern, line)?;
        assert_eq!(text, slow::weights_of_table(table, line)?, "text and table differ");
        return Ok(slow::best(&text));
    }
    best_reading(way, table, line)
}

// ---- the card and the program

const MOST_LINES: usize = 1_000_000;

/// K, the pattern, and what follows the card; or number 10.
pub fn read_card(input: &[u8]) -> Result<(u64, &[u8], &[u8]), Refusal> {
    let line_end = |s: &[u8]| s.iter().position(|&b| b == b'\n');
    let one = line_end(input).ok_or(Refusal(10, 1))?;
    let k = match input[..one] {
        [b'v', b'a', b'r', b's', b'=', d @ b'0'..=b'9'] => (d - b'0') as u64,
        _ => return Err(Refusal(10, 1)),
    };
    let rest = &input[one + 1..];
    let two = line_end(rest).ok_or(Refusal(10, 2))?;
    let text = rest[..two].strip_prefix(b"pattern=").ok_or(Refusal(10, 2))?;
    Ok((k, text, &rest[two + 1..]))
}

fn print(out: &mut Vec<u8>, number: usize, k: usize, answer: &Answer) {
    writeln!(out, "line={number}").unwrap();
    match answer {
        Answer::None => writeln!(out, "answer=none").unwrap(),
        Answer::Refused(Refusal(code, place)) => {
            writeln!(out, "answer=refused\ncode={code}\nplace={place}").unwrap()
        }
        Answer::Found(weight, spans) => {
            writeln!(out, "answer=found\nweight={weight}").unwrap();
            for v in 1..=k {
                writeln!(out, "v{v}={},{}", spans[2 * v - 2], spans[2 * v - 1]).unwrap();
            }
        }
    }
}

/// The program `reading`: all of standard input to all of standard output.
pub fn reading(way: Way, input: &[u8]) -> Result<Vec<u8>, TooLarge> {
    let mut out = Vec::new();
    let refused = |refusal| {
        let mut out = Vec::new();
        print(&mut out, 0, 0, &Answer::Refused(refusal));
        Ok(out)
    };
    let (k, text, rest) = match read_card(input) {
        Ok(card) => card,
        Err(refusal) => return refused(refusal),
    };
    let (pattern, table) = match compile(way, k, text, PROGRAM_ROOM)? {
        Ok(compiled) => compiled,
        Err(refusal) => return refused(refusal),
    };
    let mut lines: Vec<&[u8]> = rest.split(|&b| b == b'\n').collect();
    if lines.last().is_some_and(|last| last.is_empty()) {
        lines.pop();
    }
    for (i, line) in lines.iter().take(MOST_LINES).enumerate() {
        print(&mut out, i + 1, table.k, &answer(way, &pattern, &table, line)?);
    }
    Ok(out)
}
