// The pattern on the card: which texts there are, and the tree of each.
// The place of number 3 comes from the productions alone: all leftmost derivations
// are followed at once, so a prefix begins some text exactly when one is left.
// The tree comes from a second, separate reading that lists every parse.
use super::base::*;

pub enum Tree {
    Step(usize), // its number; what it does stands in the pattern's steps
    Nothing,
    Group(Box<Tree>),
    Capture(usize, Box<Tree>, usize), // step of `{`, inside, step of `}`
    Star(Box<Tree>),
    Charged(Box<Tree>, u64),
    Cat(Vec<Tree>),
    Alt(Vec<Tree>),
}

pub struct Pattern {
    pub tree: Tree,
    pub steps: Vec<Step>, // step p is steps[p - 1]
}

/// Numbers 1 to 5, in their order.
pub fn read_pattern(k: u64, text: &[u8]) -> Result<Pattern, Refusal> {
    if k > 3 {
        return Err(Refusal(1, 0));
    }
    if text.len() > LONGEST_PATTERN {
        return Err(Refusal(2, 0));
    }
    let k = k as usize;
    let place = first_wrong(k, text);
    let parses = Parser { k, text }.pattern(0);
    let mut whole: Vec<Raw> = parses.into_iter().filter(|p| p.1 == text.len()).map(|p| p.0).collect();
    assert_eq!(whole.len(), place.is_none() as usize, "one tree exactly when in the grammar");
    if let Some(p) = place {
        return Err(Refusal(3, p as u64));
    }
    let raw = whole.pop().unwrap();
    if nesting(&raw) > MOST_NESTING {
        return Err(Refusal(4, 0));
    }
    let mut steps = Vec::new();
    let tree = number(&raw, &mut steps);
    if steps.len() > MOST_STEPS {
        return Err(Refusal(5, 0));
    }
    Ok(Pattern { tree, steps })
}

// ---- the productions, and the place of number 3

#[derive(Clone, Copy, PartialEq)]
enum Sym {
    Pattern,
    MoreTerms, // nothing, or `|` and a pattern
    Term,
    MoreFactors, // nothing, or a term
    Posts,
    Atom,
    Byte(u8, u8), // one byte from lo to hi
}

const SPECIAL: &[u8] = b"|*#()[]{}\\.~";

fn productions(sym: Sym, k: usize) -> Vec<Vec<Sym>> {
    use Sym::*;
    let is = |b: u8| Byte(b, b);
    match sym {
        Pattern => vec![vec![Term, MoreTerms]],
        MoreTerms => vec![vec![], vec![is(b'|'), Pattern]],
        Term => vec![vec![Atom, Posts, MoreFactors]],
        MoreFactors => vec![vec![], vec![Term]],
        Posts => {
            let digit = Byte(b'0', b'9');
            vec![vec![], vec![is(b'*'), Posts], vec![is(b'#'), digit, digit, digit, Posts]]
        }
        Atom => {
            let mut all = vec![
                vec![is(b'\\'), Byte(0x20, 0x7e)],
                vec![is(b'.')],
                vec![is(b'~')],
                vec![is(b'('), Pattern, is(b')')],
            ];
            all.extend((0x20..=0x7e).filter(|b| !SPECIAL.contains(b)).map(|b| vec![is(b)]));
            all.extend((0x20..=0x7e).map(|lo| vec![is(b'['), is(lo), is(b'-'), Byte(lo, 0x7e), is(b']')]));
            all.extend((1..=k as u8).map(|v| vec![is(b'{'), is(b'0' + v), is(b':'), Pattern, is(b'}')]));
            all
        }
        Byte(..) => vec![],
    }
}

/// The stacks of symbols still to come (top last) after one more byte.
fn advance(stacks: &[Vec<Sym>], byte: u8, k: usize) -> Vec<Vec<Sym>> {
    let mut open: Vec<Vec<Sym>> = stacks.to_vec();
    let mut after: Vec<Vec<Sym>> = Vec::new();
    while let Some(mut stack) = open.pop() {
        match stack.pop() {
            None => {}
            Some(Sym::Byte(lo, hi)) => {
                if lo <= byte && byte <= hi && !after.contains(&stack) {
                    after.push(stack);
                }
            }
            Some(sym) => {
                for body in productions(sym, k) {
                    if let Some(&Sym::Byte(lo, hi)) = body.first() {
                        if byte < lo || hi < byte {
                            continue;
                        }
                    }
                    let mut next = stack.clone();
                    next.extend(body.iter().rev());
                    open.push(next);
                }
            }
        }
    }
    after
}

/// None if the text is in the grammar, else the place of number 3. Every symbol has
/// some text, so a stack that is left can always be finished.
fn first_wrong(k: usize, text: &[u8]) -> Option<usize> {
    let mut stacks = vec![vec![Sym::Pattern]];
    for (p, &byte) in text.iter().enumerate() {
        stacks = advance(&stacks, byte, k);
        if stacks.is_empty() {
            return Some(p);
        }
    }
    let can_stop = |s: &Vec<Sym>| s.iter().all(|x| matches!(x, Sym::MoreTerms | Sym::MoreFactors | Sym::Posts));
    if stacks.iter().any(can_stop) { None } else { Some(text.len()) }
}

// ---- the tree: every parse of every prefix

#[derive(Clone)]
enum Raw {
    Read(u8, u8),
    Nothing,
    Group(Box<Raw>),
    Capture(usize, Box<Raw>),
    Star(Box<Raw>),
    Charged(Box<Raw>, u64),
    Cat(Vec<Raw>),
    Alt(Vec<Raw>),
}

struct Parser<'a> {
    k: usize,
    text: &'a [u8],
}

/// Trees with the place after each.
type Parses = Vec<(Raw, usize)>;

fn printable(b: u8) -> bool {
    (0x20..=0x7e).contains(&b)
}

impl Parser<'_> {
    fn has(&self, at: usize, byte: u8) -> bool {
        self.text.get(at) == Some(&byte)
    }

    fn pattern(&self, at: usize) -> Parses {
        let mut all = Vec::new();
        for (term, i) in self.term(at) {
            if self.has(i, b'|') {
                for (rest, j) in self.pattern(i + 1) {
                    let Raw::Alt(mut terms) = rest else { unreachable!() };
                    terms.insert(0, term.clone());
                    all.push((Raw::Alt(terms), j));
                }
            }
            all.push((Raw::Alt(vec![term]), i));
        }
        all
    }

    fn term(&self, at: usize) -> Parses {
        let mut all = Vec::new();
        for (factor, i) in self.factor(at) {
            for (rest, j) in self.term(i) {
                let Raw::Cat(mut factors) = rest else { unreachable!() };
                factors.insert(0, factor.clone());
                all.push((Raw::Cat(factors), j));
            }
            all.push((Raw::Cat(vec![factor]), i));
        }
        all
    }

    fn factor(&self, at: usize) -> Parses {
        let mut all = self.atom(at);
        let mut seen = 0;
        while seen < all.len() {
            let (tree, i) = all[seen].clone();
            seen += 1;
            if self.has(i, b'*') {
                all.push((Raw::Star(Box::new(tree)), i + 1));
            } else if self.has(i, b'#') && self.text.len() >= i + 4 {
                let digits = &self.text[i + 1..i + 4];
                if digits.iter().all(u8::is_ascii_digit) {
                    let charge = digits.iter().fold(0, |n, d| n * 10 + (d - b'0') as u64);
                    all.push((Raw::Charged(Box::new(tree), charge), i + 4));
                }
            }
        }
        all
    }

    fn atom(&self, at: usize) -> Parses {
        let rest = &self.text[at..];
        match *rest {
            [b'.', ..] => vec![(Raw::Read(0, 255), at + 1)],
            [b'~', ..] => vec![(Raw::Nothing, at + 1)],
            [b'\\', b, ..] if printable(b) => vec![(Raw::Read(b, b), at + 2)],
            [b'[', lo, b'-', hi, b']', ..] if printable(lo) && printable(hi) && lo <= hi => {
                vec![(Raw::Read(lo, hi), at + 5)]
            }
            [b'(', ..] => {
                let inside = self.pattern(at + 1).into_iter().filter(|p| self.has(p.1, b')'));
                inside.map(|(t, i)| (Raw::Group(Box::new(t)), i + 1)).collect()
            }
            [b'{', d @ b'1'..=b'3', b':', ..] if (d - b'0') as usize <= self.k => {
                let v = (d - b'0') as usize;
                let inside = self.pattern(at + 3).into_iter().filter(|p| self.has(p.1, b'}'));
                inside.map(|(t, i)| (Raw::Capture(v, Box::new(t)), i + 1)).collect()
            }
            [b, ..] if printable(b) && !SPECIAL.contains(&b) => vec![(Raw::Read(b, b), at + 1)],
            _ => vec![],
        }
    }
}

/// The most `(` and `{` open at once.
fn nesting(raw: &Raw) -> usize {
    match raw {
        Raw::Read(..) | Raw::Nothing => 0,
        Raw::Group(t) | Raw::Capture(_, t) => 1 + nesting(t),
        Raw::Star(t) | Raw::Charged(t, _) => nesting(t),
        Raw::Cat(ts) | Raw::Alt(ts) => ts.iter().map(nesting).max().unwrap(),
    }
}

/// Gives each step its number, in the order of the text.
fn number(raw: &Raw, steps: &mut Vec<Step>) -> Tree {
    let mut many = |ts: &Vec<Raw>| ts.iter().map(|t| number(t, steps)).collect();
    match raw {
        Raw::Cat(ts) => Tree::Cat(many(ts)),
        Raw::Alt(ts) => Tree::Alt(many(ts)),
        Raw::Nothing => Tree::Nothing,
        Raw::Group(t) => Tree::Group(Box::new(number(t, steps))),
        Raw::Star(t) => Tree::Star(Box::new(number(t, steps))),
        Raw::Charged(t, charge) => Tree::Charged(Box::new(number(t, steps)), *charge),
        Raw::Read(lo, hi) => {
            steps.push(Step::Read(*lo, *hi));
            Tree::Step(steps.len())
        }
        Raw::Capture(v, t) => {
            steps.push(Step::Open(*v));
            let open = steps.len();
            let inside = Box::new(number(t, steps));
            steps.push(Step::Close(*v));
            Tree::Capture(open, inside, steps.len())
        }
    }
}
