//! The rules once more, written from docs/RULES.md and from nothing else: patterns are parsed into a tree, in which an interval
//! stands as it is written, and copied from there into a tree without intervals, whose letters are the positions. These get their sets
//! by plain sets of numbers, links are counted in a table, readings are enumerated one by one, and the verdict is decided by strongly
//! connected components. Ways through the tree as it is written, which know neither positions nor copies, are counted besides, short
//! texts of a pattern are listed from that tree, and a pattern's intervals can be written out as text. How many letters of an answer are
//! taken is found from its end. A shortest text is found by going through the texts, of those that lead to the same states in as many ways
//! one, or through every one. Nothing here is shared with the program under test, neither code nor idea.

use std::collections::{BTreeSet, HashSet};
use std::ops::Range;

#[derive(Clone, Debug)]
pub enum Part {
    Letter(usize),
    Either(Vec<Part>),
    Joined(Vec<Part>),
    Repeat(u8, Box<Part>),
    Interval(Bounds, Box<Part>),
}

/// `{m}` and `{m,n}` have an upper bound, `{m,}` has none.
#[derive(Clone, Copy, Debug)]
pub struct Bounds {
    pub lower: usize,
    pub upper: Option<usize>,
}

#[derive(Clone, Debug)]
pub struct Position {
    pub letters: BTreeSet<u8>,
    pub credit: i64,
    /// the bytes of the pattern that are its credit, if it has one
    pub written: Range<usize>,
}

#[derive(Clone, Debug)]
pub struct Pattern {
    /// as it is written: the letters are the atoms
    pub tree: Part,
    /// atom i is entry i - 1
    pub atoms: Vec<Position>,
    /// position i is entry i - 1
    pub positions: Vec<Position>,
    pub empty: bool,
    pub firsts: BTreeSet<usize>,
    pub lasts: BTreeSet<usize>,
    /// entry a, b: how many links lead from position a to position b
    pub links: Links,
}

pub type Links = Vec<Vec<u64>>;

type Table = Vec<Vec<u128>>;

/// Entry n: texts of n letters.
type Texts = Vec<BTreeSet<Vec<u8>>>;

/// What a text does. Entry u: in how many ways it leads from state 0 to state u, up to a limit. A way is a list of steps.
type Ways = Vec<u64>;

/// A reading's step: the position, and which of the links from the position before leads there. They are numbered from 0, and so
/// is the one that leads to a first.
#[derive(Clone, Copy, Debug, PartialEq, Eq)]
pub struct Step {
    pub position: usize,
    pub link: u64,
}

const SPECIAL: &[u8] = b"|*+?()[]{}^$.\\=";
const CLASS_SPECIAL: &[u8] = b"[]\\^-";

pub fn is_letter(b: u8) -> bool {
    matches!(b, 32..=126 | 160..=255)
}

/// All letters, from the lowest on.
pub fn letters() -> impl Iterator<Item = u8> {
    (0..=255).filter(|b| is_letter(*b))
}

/// The letters up to code 126 in the order in which a verdict shows them.
const SHOWN: &[u8] = b"abcdefghijklmnopqrstuvwxyzABCDEFGHIJKLMNOPQRSTUVWXYZ0123456789 !\"#$%&'()*+,-./:;<=>?@[\\]^_`{|}~";

/// All letters in that order: those from code 160 on come last, by code.
pub fn letters_as_shown() -> impl Iterator<Item = u8> {
    SHOWN.iter().copied().chain(160..=255)
}

/// A text of at most `longest` of these letters that passes a test, if there is one, and of those that do a shortest: all are tried, the
/// shorter ones before the longer ones.
pub fn first_text(letters: &[u8], longest: usize, passes: impl Fn(&[u8]) -> bool) -> Option<Vec<u8>> {
    let mut texts: Vec<Vec<u8>> = vec![Vec::new()];
    for _ in 0..longest {
        if let Some(text) = texts.iter().find(|s| passes(s)) {
            return Some(text.clone());
        }
        texts = texts.iter().flat_map(|s| letters.iter().map(move |b| [&s[..], &[*b]].concat())).collect();
    }
    texts.into_iter().find(|s| passes(s))
}

struct Parser<'a> {
    text: &'a [u8],
    at: usize,
    atoms: Vec<Position>,
    reversed: bool,
    hollow: bool,
    misbounded: bool,
}

/// The grammar is broken.
struct Broken;

/// One to three decimal digits.
fn bound(digits: &[u8]) -> Result<usize, Broken> {
    if !(1..=3).contains(&digits.len()) || !digits.iter().all(u8::is_ascii_digit) {
        return Err(Broken);
    }
    std::str::from_utf8(digits).ok().and_then(|d| d.parse().ok()).ok_or(Broken)
}

impl Parser<'_> {
    fn peek(&self) -> Option<u8> {
        self.text.get(self.at).copied()
    }

    fn take(&mut self, b: u8) -> bool {
        let yes = self.peek() == Some(b);
        if yes {
            self.at += 1;
        }
        yes
    }

    fn pattern(&mut self) -> Result<Part, Broken> {
        let mut branches = vec![self.branch()?];
        while self.take(b'|') {
            branches.push(self.branch()?);
        }
        Ok(if branches.len() == 1 { branches.pop().unwrap() } else { Part::Either(branches) })
    }

    fn branch(&mut self) -> Result<Part, Broken> {
        let mut pieces = vec![self.piece()?];
        while !matches!(self.peek(), None | Some(b'|') | Some(b')')) {
            pieces.push(self.piece()?);
        }
        Ok(if pieces.len() == 1 { pieces.pop().unwrap() } else { Part::Joined(pieces) })
    }

    fn piece(&mut self) -> Result<Part, Broken> {
        let atom = if self.take(b'(') {
            let inner = self.pattern()?;
            if !self.take(b')') {
                return Err(Broken);
            }
            inner
        } else {
            self.lettered()?
        };
        match self.peek() {
            Some(k @ (b'*' | b'+' | b'?')) => {
                self.at += 1;
                Ok(Part::Repeat(k, Box::new(atom)))
            }
            Some(b'{') => {
                let bounds = self.bounds()?;
                self.misbounded |= bounds.lower > 255 || bounds.upper.is_some_and(|n| n == 0 || n < bounds.lower || n > 255);
                Ok(Part::Interval(bounds, Box::new(atom)))
            }
            _ => Ok(atom),
        }
    }

    /// What stands from `{` to the next `}`: one number, or one and `,`, or two with `,` between them.
    fn bounds(&mut self) -> Result<Bounds, Broken> {
        let rest = &self.text[self.at + 1..];
        let inner = &rest[..rest.iter().position(|b| *b == b'}').ok_or(Broken)?];
        self.at += inner.len() + 2;
        let numbers: Vec<&[u8]> = inner.split(|b| *b == b',').collect();
        match numbers[..] {
            [m] => Ok(Bounds { lower: bound(m)?, upper: Some(bound(m)?) }),
            [m, b""] => Ok(Bounds { lower: bound(m)?, upper: None }),
            [m, n] => Ok(Bounds { lower: bound(m)?, upper: Some(bound(n)?) }),
            _ => Err(Broken),
        }
    }

    fn lettered(&mut self) -> Result<Part, Broken> {
        let b = self.peek().ok_or(Broken)?;
        self.at += 1;
        let letters: BTreeSet<u8> = match b {
            b'[' => self.class()?,
            b'.' => letters().collect(),
            b'\\' => {
                let c = self.peek().filter(|c| SPECIAL.contains(c)).ok_or(Broken)?;
                self.at += 1;
                BTreeSet::from([c])
            }
            _ if SPECIAL.contains(&b) => return Err(Broken),
            _ => BTreeSet::from([b]),
        };
        let from = self.at;
        let credit = self.credit()?;
        self.hollow |= letters.is_empty();
        self.atoms.push(Position { letters, credit, written: from..self.at });
        Ok(Part::Letter(self.atoms.len()))
    }

    /// `=`, perhaps `-`, and one digit from 1 to 9; 0 where there is none.
    fn credit(&mut self) -> Result<i64, Broken> {
        if !self.take(b'=') {
            return Ok(0);
        }
        let sign = if self.take(b'-') { -1 } else { 1 };
        let d = self.peek().filter(|d| (b'1'..=b'9').contains(d)).ok_or(Broken)?;
        self.at += 1;
        Ok(sign * i64::from(d - b'0'))
    }

    fn class_letter(&mut self) -> Option<u8> {
        let b = self.peek()?;
        if b == b'\\' {
            let c = *self.text.get(self.at + 1)?;
            if !CLASS_SPECIAL.contains(&c) {
                return None;
            }
            self.at += 2;
            return Some(c);
        }
        if CLASS_SPECIAL.contains(&b) {
            return None;
        }
        self.at += 1;
        Some(b)
    }

    fn class(&mut self) -> Result<BTreeSet<u8>, Broken> {
        let others = self.take(b'^');
        let mut named = BTreeSet::new();
        let mut items = 0;
        while let Some(a) = self.class_letter() {
            let mut b = a;
            if self.take(b'-') {
                b = self.class_letter().ok_or(Broken)?;
            }
            self.reversed |= a > b;
            named.extend((a..=b).filter(|c| is_letter(*c)));
            items += 1;
        }
        if items == 0 || !self.take(b']') {
            return Err(Broken);
        }
        Ok(if others { letters().filter(|c| !named.contains(c)).collect() } else { named })
    }
}

/// How many positions a part has, each copy counted; more than 60 may be told as any number above.
fn positions(part: &Part) -> usize {
    let n = match part {
        Part::Letter(_) => 1,
        Part::Either(parts) | Part::Joined(parts) => parts.iter().map(positions).sum(),
        Part::Repeat(_, p) => positions(p),
        Part::Interval(b, p) => b.upper.unwrap_or(b.lower.max(1)) * positions(p),
    };
    n.min(1000)
}

/// The part without intervals, each copy of an atom a position of its own, numbered from the left: which atom each is goes to the list.
fn copied(part: &Part, list: &mut Vec<usize>) -> Part {
    let repeat = |k: u8, p: Part| Part::Repeat(k, Box::new(p));
    match part {
        Part::Letter(i) => {
            list.push(*i);
            Part::Letter(list.len())
        }
        Part::Either(parts) => Part::Either(parts.iter().map(|p| copied(p, list)).collect()),
        Part::Joined(parts) => Part::Joined(parts.iter().map(|p| copied(p, list)).collect()),
        Part::Repeat(k, p) => repeat(*k, copied(p, list)),
        Part::Interval(b, p) => {
            let copies = b.upper.unwrap_or(b.lower.max(1));
            let mut all: Vec<Part> = (0..copies).map(|_| copied(p, list)).collect();
            if b.upper.is_none() {
                let last = all.pop().unwrap();
                all.push(repeat(if b.lower == 0 { b'*' } else { b'+' }, last));
            }
            // each optional copy has the one after it inside
            let optional = all.split_off(if b.upper.is_none() { copies } else { b.lower });
            let inside = optional.into_iter().rev().reduce(|inner, p| Part::Joined(vec![p, repeat(b'?', inner)]));
            all.extend(inside.map(|p| repeat(b'?', p)));
            Part::Joined(all)
        }
    }
}

/// The text of the same pattern without an interval: the bytes of an atom stand there as often as its interval has copies, with `(` and
/// `)?` around those that are optional. Nothing where there would be more than `most` bytes. For a pattern that follows the grammar and
/// that refusal 11 does not name.
pub fn written_out(text: &[u8], most: usize) -> Option<Vec<u8>> {
    let mut out: Vec<u8> = Vec::new();
    let mut open = Vec::new(); // where each bracket that is open begins
    let mut atom = 0; // and where the last atom does
    let mut rest = text;
    while let Some(b) = rest.first() {
        let mut taken = 1;
        match b {
            b'(' => open.push(out.len()),
            b')' => atom = open.pop()?,
            b'|' | b'*' | b'+' | b'?' => {}
            b'=' => taken = if rest[1] == b'-' { 3 } else { 2 },
            b'{' => {
                let inner: &[u8] = rest[1..].split(|b| *b == b'}').next()?;
                rest = &rest[inner.len() + 2..];
                let copy = out.split_off(atom);
                let number = |digits: &[u8]| digits.iter().fold(0, |n, d| 10 * n + usize::from(d - b'0'));
                let (lower, upper) = match inner.iter().position(|b| *b == b',') {
                    None => (number(inner), Some(number(inner))),
                    Some(k) if k + 1 == inner.len() => (number(&inner[..k]), None),
                    Some(k) => (number(&inner[..k]), Some(number(&inner[k + 1..]))),
                };
                if out.len() + upper.unwrap_or(lower).max(1) * (copy.len() + 3) > most {
                    return None;
                }
                match upper {
                    None if lower == 0 => out.extend([&copy[..], b"*"].concat()),
                    None => out.extend([&copy.repeat(lower)[..], b"+"].concat()),
                    Some(n) => {
                        out.extend(copy.repeat(lower));
                        out.extend([b"(", &copy[..]].concat().repeat(n - lower));
                        out.extend(b")?".repeat(n - lower));
                    }
                }
                continue;
            }
            _ => {
                atom = out.len();
                taken = match b {
                    b'\\' => 2,
                    b'[' => class_len(rest),
                    _ => 1,
                };
            }
        }
        out.extend(&rest[..taken]);
        rest = &rest[taken..];
    }
    (out.len() <= most).then_some(out)
}

/// How many bytes the class has that a text begins with.
fn class_len(text: &[u8]) -> usize {
    let mut at = 1;
    while text[at] != b']' {
        at += if text[at] == b'\\' { 2 } else { 1 };
    }
    at + 1
}

/// What the rules say of each part.
struct Facts {
    empty: bool,
    firsts: BTreeSet<usize>,
    lasts: BTreeSet<usize>,
}

/// A joining or a repeat that lets each of some positions follow each of others: one link more for each two.
fn link(from: &BTreeSet<usize>, to: &BTreeSet<usize>, links: &mut Links) {
    for a in from {
        for b in to {
            links[*a][*b] += 1;
        }
    }
}

fn facts(part: &Part, links: &mut Links) -> Facts {
    match part {
        Part::Letter(i) => Facts { empty: false, firsts: BTreeSet::from([*i]), lasts: BTreeSet::from([*i]) },
        Part::Either(parts) => {
            let mut all = Facts { empty: false, firsts: BTreeSet::new(), lasts: BTreeSet::new() };
            for p in parts {
                let f = facts(p, links);
                all.empty |= f.empty;
                all.firsts.extend(f.firsts);
                all.lasts.extend(f.lasts);
            }
            all
        }
        Part::Joined(parts) => {
            let mut a = facts(&parts[0], links);
            for p in &parts[1..] {
                let b = facts(p, links);
                link(&a.lasts, &b.firsts, links);
                if a.empty {
                    a.firsts.extend(b.firsts);
                }
                a.lasts = if b.empty { a.lasts.union(&b.lasts).copied().collect() } else { b.lasts };
                a.empty &= b.empty;
            }
            a
        }
        Part::Repeat(k, p) => {
            let mut f = facts(p, links);
            if *k != b'?' {
                link(&f.lasts, &f.firsts, links);
            }
            f.empty |= *k != b'+';
            f
        }
        Part::Interval(..) => unreachable!("intervals are written out"),
    }
}

/// The pattern, or its refusal: 3 to 7, 11 or 8.
pub fn read(text: &[u8]) -> Result<Pattern, u8> {
    if text.len() > 512 {
        return Err(3);
    }
    read_any_length(text)
}

/// The same where the pattern may be longer.
pub fn read_any_length(text: &[u8]) -> Result<Pattern, u8> {
    if text.iter().any(|b| !is_letter(*b)) {
        return Err(4);
    }
    let mut parser = Parser { text, at: 0, atoms: Vec::new(), reversed: false, hollow: false, misbounded: false };
    let tree = match parser.pattern() {
        Ok(tree) if parser.at == text.len() => tree,
        _ => return Err(5),
    };
    if parser.reversed {
        return Err(6);
    }
    if parser.hollow {
        return Err(7);
    }
    if parser.misbounded {
        return Err(11);
    }
    if positions(&tree) > 60 {
        return Err(8);
    }
    let atoms = parser.atoms;
    let mut list = Vec::new();
    let whole = copied(&tree, &mut list);
    let mut links = vec![vec![0; list.len() + 1]; list.len() + 1];
    let f = facts(&whole, &mut links);
    let positions = list.into_iter().map(|i| atoms[i - 1].clone()).collect();
    Ok(Pattern { tree, atoms, positions, empty: f.empty, firsts: f.firsts, lasts: f.lasts, links })
}

impl Pattern {
    pub fn holds(&self, i: usize, letter: u8) -> bool {
        self.positions[i - 1].letters.contains(&letter)
    }

    /// The pattern's text without its credits.
    pub fn without_credits(&self, text: &[u8]) -> Vec<u8> {
        let credit = |k: usize| self.atoms.iter().any(|i| i.written.contains(&k));
        (0..text.len()).filter(|k| !credit(*k)).map(|k| text[k]).collect()
    }

    /// The letter shown for two positions side by side, or for one that is given twice: the first that both hold.
    pub fn shown(&self, a: usize, b: usize) -> Option<u8> {
        letters_as_shown().find(|c| self.holds(a, *c) && self.holds(b, *c))
    }

    fn follows(&self, a: usize, b: usize) -> bool {
        self.links[a][b] > 0
    }

    /// Is this list of steps a reading of the answer: sentence by sentence.
    pub fn is_reading(&self, answer: &[u8], list: &[Step]) -> bool {
        if answer.len() != list.len() {
            return false;
        }
        let (Some(first), Some(last)) = (list.first(), list.last()) else {
            return self.empty;
        };
        self.firsts.contains(&first.position)
            && first.link == 0
            && self.lasts.contains(&last.position)
            && list.windows(2).all(|w| w[1].link < self.links[w[0].position][w[1].position])
            && list.iter().zip(answer).all(|(s, b)| self.holds(s.position, *b))
    }

    /// The steps that may come after some others.
    fn next_steps(&self, list: &[Step]) -> Vec<Step> {
        let links = |i: usize| match list.last() {
            None => u64::from(self.firsts.contains(&i)),
            Some(s) => self.links[s.position][i],
        };
        (1..=self.positions.len()).flat_map(|position| (0..links(position)).map(move |link| Step { position, link })).collect()
    }

    /// All lists of steps that go along with the letters, from a first on, wherever they end, as long as there are no more than `most`.
    fn lists(&self, letters: &[u8], most: usize) -> Option<Vec<Vec<Step>>> {
        let mut lists: Vec<Vec<Step>> = vec![Vec::new()];
        for b in letters {
            let mut longer = Vec::new();
            for list in &lists {
                for step in self.next_steps(list).into_iter().filter(|s| self.holds(s.position, *b)) {
                    if longer.len() == most {
                        return None;
                    }
                    longer.push([&list[..], &[step]].concat());
                }
            }
            lists = longer;
        }
        Some(lists)
    }

    /// All readings, one by one, as long as there are no more than `most` lists.
    pub fn readings(&self, answer: &[u8], most: usize) -> Option<Vec<Vec<Step>>> {
        let mut lists = self.lists(answer, most)?;
        lists.retain(|l| self.is_reading(answer, l));
        Some(lists)
    }

    /// The letters taken, word by word: the least number of letters, below the answer's length, with which no list goes along; else that
    /// length. As long as there are no more than `most` lists.
    pub fn taken_by_lists(&self, answer: &[u8], most: usize) -> Option<usize> {
        for n in 0..answer.len() {
            if self.lists(&answer[..n], most)?.is_empty() {
                return Some(n);
            }
        }
        Some(answer.len())
    }

    /// With how many of an answer's letters some list of positions goes along, by going through it from its end: how many of the letters
    /// that are left can be read from each state, and at the first letter from state 0.
    pub fn along(&self, answer: &[u8]) -> usize {
        let p = self.positions.len();
        let mut left = vec![0; p + 1];
        for k in (0..answer.len()).rev() {
            let next = |u: usize, i: usize| if k == 0 { self.firsts.contains(&i) } else { self.follows(u, i) };
            let held: Vec<usize> = (1..=p).filter(|i| self.holds(*i, answer[k])).collect();
            let from = |u: usize| held.iter().filter(|i| next(u, **i)).map(|i| 1 + left[*i]).max().unwrap_or(0);
            left = (0..=p).map(from).collect();
        }
        left[0]
    }

    /// The letters taken: those with which a list goes along, and the one at which none does, if there is one.
    pub fn taken(&self, answer: &[u8]) -> usize {
        (self.along(answer) + 1).min(answer.len())
    }

    pub fn credit(&self, list: &[Step]) -> i64 {
        list.iter().map(|s| self.positions[s.position - 1].credit).sum()
    }

    /// The most that one of some readings earns. Nothing where there is none.
    pub fn best(&self, lists: &[Vec<Step>]) -> Option<i64> {
        lists.iter().map(|l| self.credit(l)).max()
    }

    /// The number of readings of a long answer, up to a limit, and the most that one of them earns, by going through it from its
    /// end. Nothing where there is no reading.
    pub fn from_the_end(&self, answer: &[u8], limit: u128) -> Option<(u128, i64)> {
        let p = self.positions.len();
        if answer.is_empty() {
            return self.empty.then_some((1, 0));
        }
        let mut after: Vec<Option<(u128, i64)>> = (0..=p).map(|i| self.lasts.contains(&i).then_some((1, 0))).collect();
        for k in (0..answer.len()).rev() {
            let links = |a: usize, i: usize| if k == 0 { u64::from(self.firsts.contains(&i)) } else { self.links[a][i] };
            let from = |a: usize| {
                let ways = (1..=p).filter(|i| links(a, *i) > 0 && self.holds(*i, answer[k]));
                let each = ways.filter_map(|i| after[i].map(|(n, m)| (n * u128::from(links(a, i)), m + self.positions[i - 1].credit)));
                each.reduce(|x, y| ((x.0 + y.0).min(limit), x.1.max(y.1))).map(|(n, m)| (n.min(limit), m))
            };
            after = (0..=p).map(from).collect();
        }
        after[0]
    }

    pub fn count_from_the_end(&self, answer: &[u8], limit: u128) -> u128 {
        self.from_the_end(answer, limit).map_or(0, |r| r.0)
    }

    /// The number of ways through the tree that read the answer, up to a limit: which branch is taken, where a piece of a branch
    /// ends, and where each round of a repeat ends. A round of `*` or `+` reads one letter or more, and what is empty is so in one way.
    /// An interval has its rounds one after the other: those that it must have, and then as many more as it may have, of which one
    /// is begun only if there is a letter left to read.
    pub fn ways(&self, answer: &[u8], limit: u128) -> u128 {
        self.ways_of(&self.tree, answer, limit)[0][answer.len()]
    }

    /// Entry i, j: the number of ways in which the part reads the letters from i to before j.
    fn ways_of(&self, part: &Part, answer: &[u8], limit: u128) -> Table {
        let n = answer.len();
        let sum = |terms: &mut dyn Iterator<Item = u128>| terms.fold(0, u128::saturating_add).min(limit);
        let table = |entry: &dyn Fn(usize, usize) -> u128| -> Table {
            (0..=n).map(|i| (0..=n).map(|j| if i <= j { entry(i, j) } else { 0 }).collect()).collect()
        };
        let then = |a: Table, b: Table| table(&|i, j| sum(&mut (i..=j).map(|k| a[i][k].saturating_mul(b[k][j]))));
        // one round or more
        let rounds = |once: Table| {
            let mut t = once.clone();
            for i in (0..n).rev() {
                for j in i + 1..=n {
                    t[i][j] = sum(&mut (i + 1..=j).map(|k| once[i][k].saturating_mul(if k == j { 1 } else { t[k][j] })));
                }
            }
            t
        };
        match part {
            Part::Letter(p) => table(&|i, j| u128::from(i + 1 == j && self.atoms[*p - 1].letters.contains(&answer[i]))),
            Part::Either(parts) => {
                let all: Vec<_> = parts.iter().map(|p| self.ways_of(p, answer, limit)).collect();
                table(&|i, j| sum(&mut all.iter().map(|t| t[i][j])).min(if i == j { 1 } else { limit }))
            }
            Part::Joined(parts) => {
                let all = parts.iter().map(|p| self.ways_of(p, answer, limit));
                all.reduce(then).unwrap()
            }
            Part::Repeat(k, p) => {
                let once = self.ways_of(p, answer, limit);
                let t = if *k == b'?' { once } else { rounds(once) };
                table(&|i, j| if i == j { t[i][j] | u128::from(*k != b'+') } else { t[i][j] })
            }
            Part::Interval(b, p) => {
                let once = self.ways_of(p, answer, limit);
                let nothing = table(&|i, j| u128::from(i == j));
                let or_nothing = |t: Table| table(&|i, j| if i == j { 1 } else { t[i][j] });
                let (must, rest) = match b.upper {
                    Some(n) => (b.lower, (b.lower..n).fold(nothing, |t, _| or_nothing(then(once.clone(), t)))),
                    None if b.lower == 0 => (0, or_nothing(rounds(once.clone()))),
                    None => (b.lower - 1, rounds(once.clone())),
                };
                (0..must).fold(rest, |t, _| then(once.clone(), t))
            }
        }
    }

    /// The pattern's texts of at most `most` letters, those alone that are made of these letters. From the tree as it is written, by
    /// what POSIX says that alternation, joining and repetition mean.
    pub fn texts(&self, letters: &[u8], most: usize) -> Vec<Vec<u8>> {
        self.texts_of(&self.tree, letters, most).into_iter().flatten().collect()
    }

    fn texts_of(&self, part: &Part, letters: &[u8], most: usize) -> Texts {
        let none = || vec![BTreeSet::new(); most + 1];
        let or_nothing = |mut t: Texts| {
            t[0].insert(Vec::new());
            t
        };
        let then = |a: &Texts, b: &Texts| {
            let mut t = none();
            for (i, j) in (0..=most).flat_map(|i| (0..=most - i).map(move |j| (i, j))) {
                t[i + j].extend(a[i].iter().flat_map(|x| b[j].iter().map(move |y| [&x[..], y].concat())));
            }
            t
        };
        // so many times at most; `most` rounds of one letter or more are all that there is room for
        let rounds = |once: &Texts, n: usize| (0..n).fold(or_nothing(none()), |t, _| or_nothing(then(once, &t)));
        match part {
            Part::Letter(i) => {
                let mut t = none();
                t[1].extend(letters.iter().filter(|b| self.atoms[*i - 1].letters.contains(b)).map(|b| vec![*b]));
                t
            }
            Part::Either(parts) => {
                let mut t = none();
                for texts in parts.iter().map(|p| self.texts_of(p, letters, most)) {
                    t.iter_mut().zip(texts).for_each(|(all, more)| all.extend(more));
                }
                t
            }
            Part::Joined(parts) => {
                let all = parts.iter().map(|p| self.texts_of(p, letters, most));
                all.reduce(|a, b| then(&a, &b)).unwrap()
            }
            Part::Repeat(k, p) => {
                let once = self.texts_of(p, letters, most);
                match k {
                    b'?' => or_nothing(once),
                    b'*' => rounds(&once, most),
                    _ => then(&once, &rounds(&once, most)),
                }
            }
            Part::Interval(b, p) => {
                let once = self.texts_of(p, letters, most);
                let more = rounds(&once, b.upper.map_or(most, |n| n - b.lower));
                (0..b.lower).fold(more, |t, _| then(&once, &t))
            }
        }
    }

    /// A letter for each set of positions, the first that these hold and no others, with the set. Letters that no position holds are left
    /// out.
    pub fn letters_apart(&self) -> Vec<(u8, Vec<usize>)> {
        let mut holders: Vec<Vec<usize>> = vec![Vec::new(); 256];
        for (k, position) in self.positions.iter().enumerate() {
            position.letters.iter().for_each(|b| holders[usize::from(*b)].push(k + 1));
        }
        let mut met = HashSet::from([Vec::new()]);
        let each = letters_as_shown().map(|b| (b, holders[usize::from(b)].clone()));
        each.filter(|(_, held)| met.insert(held.clone())).collect()
    }

    /// What a text does with one letter more, which these positions hold.
    fn letter_on(&self, ways: &Ways, held: &[usize], limit: u64) -> Ways {
        let links = |u: usize, i: usize| if u == 0 { u64::from(self.firsts.contains(&i)) } else { self.links[u][i] };
        let from: Vec<usize> = (0..ways.len()).filter(|u| ways[*u] > 0).collect();
        let mut on = vec![0; ways.len()];
        for i in held {
            on[*i] = from.iter().map(|u| ways[*u] * links(*u, *i)).sum::<u64>().min(limit);
        }
        on
    }

    /// A shortest text that does what passes the test, if there is one. The texts are gone through letter by letter, those of one length
    /// before the longer ones. Of texts that do the same only one is made longer: with the same letters after them they do the same again.
    /// As long as there are no more than `most` that do different things.
    fn shortest(&self, limit: u64, most: usize, passes: impl Fn(&Ways) -> bool) -> Option<Option<Vec<u8>>> {
        let letters = self.letters_apart();
        let before: Ways = (0..=self.positions.len()).map(|u| u64::from(u == 0)).collect();
        let mut met = HashSet::from([before.clone()]);
        let mut texts = vec![(Vec::new(), before)];
        while !texts.is_empty() {
            if let Some((text, _)) = texts.iter().find(|(_, ways)| passes(ways)) {
                return Some(Some(text.clone()));
            }
            let mut longer = Vec::new();
            for (text, ways) in &texts {
                for (b, held) in &letters {
                    let on = self.letter_on(ways, held, limit);
                    if met.insert(on.clone()) {
                        longer.push(([&text[..], &[*b]].concat(), on));
                    }
                }
                if met.len() > most {
                    return None;
                }
            }
            texts = longer;
        }
        Some(None)
    }

    /// A shortest text with two readings, if there is one.
    pub fn shortest_with_two(&self, most: usize) -> Option<Option<Vec<u8>>> {
        let ends: Vec<usize> = self.lasts.iter().copied().chain(self.empty.then_some(0)).collect();
        self.shortest(2, most, |ways| ends.iter().map(|u| ways[*u]).sum::<u64>() >= 2)
    }

    /// A shortest text after which a position is possible, if there is one.
    pub fn shortest_to(&self, position: usize, most: usize) -> Option<Option<Vec<u8>>> {
        self.shortest(1, most, |ways| ways[position] > 0)
    }

    /// Has the text two readings, by all its lists of steps.
    pub fn has_two(&self, text: &[u8]) -> bool {
        self.readings(text, usize::MAX).is_some_and(|all| all.len() >= 2)
    }

    /// Does one of the text's lists of steps end at the position.
    pub fn leads_to(&self, text: &[u8], position: usize) -> bool {
        let lists = self.lists(text, usize::MAX).unwrap_or_default();
        lists.iter().any(|l| l.last().is_some_and(|s| s.position == position))
    }

    fn share(&self, a: usize, b: usize) -> bool {
        self.positions[a - 1].letters.intersection(&self.positions[b - 1].letters).next().is_some()
    }

    /// 0 single, 1 steady, 2 runaway. Two paths part at a pair of different positions, or between (v, v) and (a, a) where two links
    /// or more lead from v to a. Runaway: they part in one strongly connected component with a pair (q, q). Ambiguous: where they part
    /// is reached from a pair of firsts and leads to a pair of lasts.
    pub fn verdict(&self) -> u8 {
        let p = self.positions.len();
        let id = |a: usize, b: usize| (a - 1) * p + (b - 1);
        let mut out: Vec<Vec<usize>> = vec![Vec::new(); p * p];
        let mut back: Vec<Vec<usize>> = vec![Vec::new(); p * p];
        let next: Vec<Vec<usize>> = (1..=p).map(|a| (1..=p).filter(|b| self.follows(a, *b)).collect()).collect();
        for a in 1..=p {
            for b in 1..=p {
                for c in &next[a - 1] {
                    for d in &next[b - 1] {
                        if self.share(*c, *d) {
                            out[id(a, b)].push(id(*c, *d));
                            back[id(*c, *d)].push(id(a, b));
                        }
                    }
                }
            }
        }
        let from = |starts: Vec<usize>, edges: &Vec<Vec<usize>>| {
            let mut seen = vec![false; p * p];
            let mut stack = starts;
            while let Some(n) = stack.pop() {
                if !seen[n] {
                    seen[n] = true;
                    stack.extend(&edges[n]);
                }
            }
            seen
        };
        let part = |there: &[bool], on: &[bool]| {
            let different = |a: usize, b: usize| a != b && there[id(a, b)] && on[id(a, b)];
            let by_links = |v: usize, a: usize| self.links[v][a] >= 2 && there[id(v, v)] && on[id(a, a)];
            (1..=p).any(|a| (1..=p).any(|b| different(a, b) || by_links(a, b)))
        };
        for q in 1..=p {
            let there = from(vec![id(q, q)], &out);
            let again = from(vec![id(q, q)], &back);
            if part(&there, &again) {
                return 2;
            }
        }
        let pairs = |set: &BTreeSet<usize>| {
            let mut l = Vec::new();
            for a in set {
                for b in set {
                    l.push((*a, *b));
                }
            }
            l
        };
        let starts = pairs(&self.firsts).into_iter().filter(|(a, b)| self.share(*a, *b)).map(|(a, b)| id(a, b)).collect();
        let ends = pairs(&self.lasts).into_iter().map(|(a, b)| id(a, b)).collect();
        let there = from(starts, &out);
        let on = from(ends, &back);
        u8::from(part(&there, &on))
    }

    /// The first position with two different loops over one text, or 0.
    pub fn first_pivot(&self) -> usize {
        let p = self.positions.len();
        for q in 1..=p {
            // pairs with whether the paths have parted
            let mut seen = HashSet::new();
            let mut stack = vec![(q, q, false)];
            while let Some((a, b, parted)) = stack.pop() {
                for c in 1..=p {
                    for d in 1..=p {
                        if self.follows(a, c) && self.follows(b, d) && self.share(c, d) {
                            let by_links = a == b && c == d && self.links[a][c] >= 2;
                            let n = (c, d, parted || c != d || by_links);
                            if n == (q, q, true) {
                                return q;
                            }
                            if seen.insert(n) {
                                stack.push(n);
                            }
                        }
                    }
                }
            }
        }
        0
    }
}
