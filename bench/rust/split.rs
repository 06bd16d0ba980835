// Splits a card and lines on standard input as the program `reading` does, in ordinary safe
// Rust, to be timed beside it: pieces of 64 KiB, of a line across pieces 1,025 bytes held, a
// line over 1,024 bytes refused, answers out before each read. There is no kernel here: a
// line that could be read ends the run. bench/split.sh builds and runs it.
use std::io::{self, Read, Write};

const PIECE: usize = 1 << 16;
const MOST: usize = 1024;

struct Session {
    card: usize, // lines of the card that are still to come
    lines: u32,
    held: Vec<u8>, // the start of a line that a piece ends in
    out: Vec<u8>,
}

impl Session {
    fn line(&mut self, length: usize) {
        if self.card > 0 {
            self.card -= 1;
            return;
        }
        assert!(length > MOST, "a line that is not refused");
        self.lines += 1;
        writeln!(self.out, "line={}\nanswer=refused\ncode=8\nplace=0", self.lines).expect("memory");
    }

    fn hold(&mut self, rest: &[u8]) {
        let room = MOST + 1 - self.held.len();
        self.held.extend_from_slice(&rest[..rest.len().min(room)]);
    }

    fn feed(&mut self, mut piece: &[u8]) {
        while let Some(end) = piece.iter().position(|&byte| byte == b'\n') {
            let length = if self.held.is_empty() {
                end
            } else {
                self.hold(&piece[..end]);
                self.held.len()
            };
            self.line(length);
            self.held.clear();
            piece = &piece[end + 1..];
        }
        self.hold(piece);
    }
}

fn main() -> io::Result<()> {
    let (mut from, mut to) = (io::stdin().lock(), io::stdout().lock());
    let mut piece = vec![0; PIECE];
    let mut session = Session { card: 2, lines: 0, held: Vec::new(), out: Vec::with_capacity(PIECE) };
    loop {
        let n = from.read(&mut piece)?;
        if n == 0 && !session.held.is_empty() {
            session.line(session.held.len());
        }
        session.feed(&piece[..n]);
        to.write_all(&session.out)?;
        session.out.clear();
        if n == 0 {
            return to.flush();
        }
    }
}
