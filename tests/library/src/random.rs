//! Random patterns and answers, from a seed that is printed.

use crate::model::{self, letters, Part, Pattern};

/// xorshift64*
pub struct Random(u64);

impl Random {
    pub fn new(seed: u64) -> Self {
        Random(seed.wrapping_mul(0x9e37_79b9_7f4a_7c15) | 1)
    }

    pub fn next(&mut self) -> u64 {
        self.0 ^= self.0 >> 12;
        self.0 ^= self.0 << 25;
        self.0 ^= self.0 >> 27;
        self.0.wrapping_mul(0x2545_f491_4f6c_dd1d)
    }

    pub fn below(&mut self, n: usize) -> usize {
        (self.next() >> 33) as usize % n
    }

    pub fn chance(&mut self, percent: usize) -> bool {
        self.below(100) < percent
    }

    pub fn pick<'a, T>(&mut self, of: &'a [T]) -> &'a T {
        &of[self.below(of.len())]
    }
}

/// What a random pattern is made of: `wild` ones often break the grammar, `accented` ones have letters above code 159 too, `counted`
/// ones have intervals, and where there is something in `mixed`, classes are made of that.
#[derive(Clone, Copy)]
struct Kind {
    wild: bool,
    accented: bool,
    counted: bool,
    mixed: &'static [&'static [u8]],
}

/// The letters that most random patterns are made of: few, so that sets overlap.
const LETTERS: &[u8] = b"aabbc";
const CLASSES: &[&[u8]] =
    &[b"[ab]", b"[a-c]", b"[bc]", b"[^a]", b"[^ab]", b"[c-b]", b"[^ -\xff]", b"[a\\-]", b"[\\]b]", b"[-a]", b"[]", b"[^]", b"[a-]", b"[ -~]"];
const ESCAPES: &[&[u8]] = &[b"\\*", b"\\.", b"\\(", b"\\\\", b"\\=", b"\\a", b"\\"];

/// The same for accented patterns, and what only wild ones have.
const ACCENTED: &[u8] = b"\xe9\xe9\xe9\xf1\xa0\xff";
const ACCENTED_CLASSES: &[&[u8]] =
    &[b"[a\xe9]", b"[\xe0-\xff]", b"[\xa0-\xe9]", b"[b-\xe9]", b"[~-\xa0]", b"[^ -~]", b"[^\xe9]", b"[^a-\xe9]", b"[^\xe9-\xff]", b"[^b\xf1]"];
const ACCENTED_WILD: &[&[u8]] =
    &[b"[ -\xff]", b"[^ -\xff]", b"[\xe9-a]", b"[\xff-\xe9]", b"[z-\x9f]", b"[\x7f-\xe9]", b"[a\x80]", b"[\xe9-]", b"[\\\xe9]", b"\\\xe9"];

/// What classes of several kinds of letters are made of, four of each kind: small ones, capitals, digits, others to code 126, from 160 on.
const ITEMS: &[&[u8]] = &[
    b"a", b"z", b"b-y", b"a-z",
    b"A", b"Z", b"B-Y", b"A-Z",
    b"0", b"9", b"1-8", b"0-9",
    b" ", b"!-/", b":-@", b"\\[-`~",
    b"\xa0", b"\xe9", b"\xff", b"\xe0-\xff",
];

/// What a wild pattern may have for a credit. The grammar is broken, unless a digit comes right after `=` or `=-`.
const NO_CREDITS: &[&[u8]] = &[b"=0", b"=", b"=-", b"=-0", b"=+1", b"=--1", b"=-1=1", b"=1=-1", b"=- 1", b"*=-1"];

/// What a wild pattern may have for an interval, and breaks the grammar by that, most of them wherever they stand.
const NO_INTERVALS: &[&[u8]] = &[
    b"{}", b"{,}", b"{,3}", b"{ 1}", b"{1 }", b"{1;2}", b"{-1}", b"{1,2,3}", b"{1,,2}", b"{1", b"{1,", b"{1,2", b"{", b"1}", b"{a}", b"{0001}", b"{1000}",
    b"{1,1000}", b"{0001,}", b"{2}{2}", b"{2}*", b"*{2}", b"+{1,}", b"?{0,1}", b"{1}+", b"{1,2}?", b"{2}=1", b"{=1}",
];

/// What is refused for its bounds, or for too many positions.
const BAD_BOUNDS: &[&[u8]] =
    &[b"{0}", b"{0,0}", b"{00}", b"{3,2}", b"{1,0}", b"{999,1}", b"{256}", b"{256,}", b"{2,256}", b"{0,999}", b"{61}", b"{255}", b"{0,255}"];

/// An interval, mostly of few copies.
fn interval(r: &mut Random, out: &mut Vec<u8>, wild: bool) {
    if wild && r.chance(15) {
        out.extend(*r.pick(NO_INTERVALS));
        return;
    }
    if r.chance(if wild { 15 } else { 2 }) {
        out.extend(*r.pick(BAD_BOUNDS));
        return;
    }
    let most = if r.chance(5) { 20 } else { 3 };
    let (lower, more) = (r.below(most), r.below(most));
    let zeros = if r.chance(10) { "0" } else { "" };
    let text = match r.below(5) {
        0 => format!("{{{zeros}{lower},}}"),
        1 | 2 => format!("{{{zeros}{}}}", lower.max(1)),
        _ => format!("{{{zeros}{lower},{}}}", (lower + more).max(1)),
    };
    out.extend(text.bytes());
}

/// One of some repeats, or an interval where the pattern has them.
fn repeat(r: &mut Random, out: &mut Vec<u8>, marks: &[u8], kind: Kind) {
    if kind.counted && r.chance(50) {
        interval(r, out, kind.wild);
    } else {
        out.push(*r.pick(marks));
    }
}

/// A range of any two letters, perhaps with `^`; a wild one may be reversed.
fn range(r: &mut Random, out: &mut Vec<u8>, wild: bool) {
    let all: Vec<u8> = letters().collect();
    let (a, b) = (*r.pick(&all), *r.pick(&all));
    let ends = if wild && r.chance(20) { [a, b] } else { [a.min(b), a.max(b)] };
    out.extend(if r.chance(30) { &b"[^"[..] } else { b"[" });
    for (k, c) in ends.into_iter().enumerate() {
        if k == 1 {
            out.push(b'-');
        }
        if b"[]\\^-".contains(&c) {
            out.push(b'\\');
        }
        out.push(c);
    }
    out.push(b']');
}

/// A class of one to four of these, perhaps with `^`.
fn class_of(r: &mut Random, out: &mut Vec<u8>, items: &[&[u8]]) {
    out.extend(if r.chance(15) { &b"[^"[..] } else { b"[" });
    for _ in 0..1 + r.below(4) {
        out.extend(*r.pick(items));
    }
    out.push(b']');
}

fn lettered(r: &mut Random, out: &mut Vec<u8>, kind: Kind) {
    let wild = kind.wild;
    if !kind.mixed.is_empty() && r.chance(85) {
        class_of(r, out, kind.mixed);
    } else if kind.accented && r.chance(50) {
        match r.below(if wild { 8 } else { 6 }) {
            0..=2 => out.push(*r.pick(ACCENTED)),
            3 | 4 => out.extend(*r.pick(ACCENTED_CLASSES)),
            5 => range(r, out, wild),
            _ => out.extend(*r.pick(ACCENTED_WILD)),
        }
    } else {
        match r.below(if wild { 12 } else { 9 }) {
            0..=5 => out.push(*r.pick(LETTERS)),
            6 => out.push(b'.'),
            7 | 8 => out.extend(*r.pick(&CLASSES[..if wild { CLASSES.len() } else { 5 }])),
            9 => out.extend(*r.pick(ESCAPES)),
            10 => out.push(*r.pick(b"dxyz~ -059")),
            _ => out.push(*r.pick(b"|*+?()[]{}^$.\\=-")),
        }
    }
    if r.chance(25) {
        if wild && r.chance(10) {
            out.extend(*r.pick(NO_CREDITS));
        } else {
            out.extend(if r.chance(50) { &b"=-"[..] } else { b"=" });
            out.push(b'1' + r.below(9) as u8);
        }
    }
}

/// A pattern with one to three brackets around it, now and then up to thirty, most of them with a repeat.
fn nested(r: &mut Random, out: &mut Vec<u8>, depth: usize, kind: Kind) {
    let most = if r.chance(4) { 30 } else { 3 };
    let times = 1 + r.below(most);
    out.extend(vec![b'('; times]);
    pattern_into(r, out, depth, kind);
    for _ in 0..times {
        out.push(b')');
        if r.chance(90) {
            repeat(r, out, b"***++?", kind);
        }
    }
}

fn piece(r: &mut Random, out: &mut Vec<u8>, depth: usize, kind: Kind) {
    if depth > 0 && r.chance(12) {
        nested(r, out, depth - 1, kind);
        return;
    }
    if depth > 0 && r.chance(35) {
        out.push(b'(');
        pattern_into(r, out, depth - 1, kind);
        out.push(b')');
    } else {
        lettered(r, out, kind);
    }
    if r.chance(45) {
        repeat(r, out, b"**+?", kind);
        if kind.wild && r.chance(4) {
            repeat(r, out, b"*+?", kind);
        }
    }
}

fn pattern_into(r: &mut Random, out: &mut Vec<u8>, depth: usize, kind: Kind) {
    for k in 0..1 + r.below(3) {
        if k > 0 {
            out.push(b'|');
        }
        for _ in 0..1 + r.below(3) {
            piece(r, out, depth, kind);
        }
    }
}

/// A pattern that follows the grammar, most of the time; `wild` ones often do not. A fifth are accented, and two fifths have intervals.
pub fn pattern(r: &mut Random, wild: bool) -> Vec<u8> {
    let mut out = Vec::new();
    let kind = Kind { wild, accented: r.chance(20), counted: r.chance(40), mixed: &[] };
    let depth = r.below(if kind.counted { 3 } else { 4 });
    pattern_into(r, &mut out, depth, kind);
    out.truncate(520);
    if wild && r.chance(30) && !out.is_empty() {
        let at = r.below(out.len());
        match r.below(3) {
            0 => out[at] = r.next() as u8,
            1 => {
                out.remove(at);
            }
            _ => out.insert(at, *r.pick(b"|*+?()[]{}^$.\\=-a\xe9,1")),
        }
    }
    out
}

/// A pattern in which most atoms are classes of several kinds of letters: of all kinds, or of the last ones.
pub fn classes(r: &mut Random) -> Vec<u8> {
    let mut out = Vec::new();
    let kind = Kind { wild: false, accented: false, counted: r.chance(30), mixed: &ITEMS[4 * r.below(5)..] };
    let depth = r.below(3);
    pattern_into(r, &mut out, depth, kind);
    out
}

/// Repeats in repeats around a pattern, so that an answer may have many rounds.
pub fn rounds(r: &mut Random) -> Vec<u8> {
    let mut out = vec![b'('];
    let kind = Kind { wild: false, accented: r.chance(20), counted: r.chance(30), mixed: &[] };
    let depth = r.below(2);
    nested(r, &mut out, depth, kind);
    out.extend(b")*");
    out
}

/// As many copies of a small pattern as there are positions for, or some less, or one copy too many; in one interval or in two, one in the
/// other, perhaps with a repeat around, and letters after it up to the last position.
pub fn copies(r: &mut Random) -> Vec<u8> {
    let kind = Kind { wild: false, accented: r.chance(20), counted: r.chance(40), mixed: &[] };
    let mut small = Vec::new();
    let depth = r.below(2);
    pattern_into(r, &mut small, depth, kind);
    if r.chance(25) {
        small.extend(b"[abcdefghijklmnopqrstuvwxyz0123456789]"); // in copies more than 512 bytes
    }
    let each = model::read(&small).map_or(60, |p| p.positions.len());
    let room = 60 / each;
    let inner = if r.chance(40) { 1 + r.below(room.min(5)) } else { 1 };
    let copies = match room / inner {
        n if r.chance(15) => n + 1,
        n if r.chance(30) => 1 + r.below(n),
        n => n,
    };
    let left = 60usize.saturating_sub(each * inner * copies);
    let bounds = |r: &mut Random, n: usize| match r.below(4) {
        0 => format!("{{{n}}}"),
        1 => format!("{{{n},}}"),
        2 => format!("{{{},{n}}}", r.below(n + 1)),
        _ => format!("{{{},{n}}}", n.saturating_sub(r.below(3))),
    };
    let mut out = [b"(", &small[..], b")"].concat();
    if inner > 1 {
        out = [b"(", &out[..], bounds(r, inner).as_bytes(), b")"].concat();
    }
    out.extend(bounds(r, copies).bytes());
    if r.chance(20) {
        out = [b"(", &out[..], b")", *r.pick(&[&b"*"[..], b"+", b"?"])].concat();
    }
    if r.chance(40) {
        out.extend(vec![b'a'; left + r.below(2)]);
    }
    out
}

/// Pieces of which a text has two readings, by positions or by links, at once or after some letters, or none has.
const TWICE: &[&[u8]] = &[
    b"(a|a)",
    b"a?a?",
    b"a*a*",
    b"(a|ab)b?",
    b"a{2,3}a{2,3}",
    b"((ab)*|(aba)*)",
    b"((aa)+|(aaa)+)",
    b"(a|a)*",
    b"(a*)*",
    b"(a?b?)*",
    b"((ab)*)*",
    b"(ab|a|b)+",
    b"(a*b)*",
    b"a",
];

/// Some letters, perhaps in alternatives of several lengths, perhaps left out, gone round or in copies.
fn detour(r: &mut Random, out: &mut Vec<u8>) {
    out.push(b'(');
    for k in 0..1 + r.below(3) {
        if k > 0 {
            out.push(b'|');
        }
        for _ in 0..1 + r.below(5) {
            out.push(b'a' + r.below(8) as u8);
        }
    }
    out.push(b')');
    if r.chance(40) {
        out.extend(*r.pick(&[&b"?"[..], b"*", b"+", b"{2}", b"{1,2}"]));
    }
}

/// One to three branches, each with such a piece, and before it and after it ways of several lengths.
pub fn detours(r: &mut Random) -> Vec<u8> {
    let mut out = Vec::new();
    for k in 0..1 + r.below(3) {
        if k > 0 {
            out.push(b'|');
        }
        for _ in 0..r.below(3) {
            detour(r, &mut out);
        }
        out.extend(*r.pick(TWICE));
        for _ in 0..r.below(3) {
            detour(r, &mut out);
        }
    }
    out
}

/// A text of the part, or of some prefix of a walk through it; `left` is how many parts the walk may still enter.
fn walk(r: &mut Random, p: &Pattern, part: &Part, out: &mut Vec<u8>, left: &mut usize) {
    if *left == 0 {
        return;
    }
    *left -= 1;
    match part {
        Part::Letter(i) => {
            let set: Vec<u8> = p.atoms[*i - 1].letters.iter().copied().collect();
            if !set.is_empty() {
                // mostly a low one, so that others hold it too
                let among = if r.chance(20) { set.len() } else { set.len().min(4) };
                out.push(*r.pick(&set[..among]));
            }
        }
        Part::Either(parts) => {
            let q = r.pick(parts);
            walk(r, p, q, out, left);
        }
        Part::Joined(parts) => {
            for q in parts {
                walk(r, p, q, out, left);
            }
        }
        Part::Repeat(k, q) => {
            let n = match k {
                b'?' => r.below(2),
                b'*' => r.below(4),
                _ => 1 + r.below(3),
            };
            for _ in 0..n {
                walk(r, p, q, out, left);
            }
        }
        Part::Interval(b, q) => {
            for _ in 0..b.lower + r.below(b.upper.map_or(3, |n| n - b.lower + 1)) {
                walk(r, p, q, out, left);
            }
        }
    }
}

/// An answer that belongs to the pattern's texts, mostly; sometimes damaged, sometimes plain noise.
pub fn answer(r: &mut Random, p: &Pattern) -> Vec<u8> {
    let mut out = Vec::new();
    if r.chance(15) {
        for _ in 0..r.below(6) {
            out.push(*r.pick(b"abcabc\xe9"));
        }
        return out;
    }
    walk(r, p, &p.tree, &mut out, &mut 1000);
    out.truncate(if p.atoms.len() < p.positions.len() { 70 } else { 10 });
    if r.chance(20) && !out.is_empty() {
        let at = r.below(out.len());
        out[at] = *r.pick(b"abc~ \xa0\xe9\xff");
    }
    if r.chance(2) {
        out.push(*r.pick(&[10u8, 127, 31, 128, 159, 0]));
    }
    out
}

/// An answer with a letter put in for another, the first, the last or any of them, or after the last, so that it may go wrong there.
pub fn damaged(r: &mut Random, answer: &[u8]) -> Vec<u8> {
    let n = answer.len();
    let at = match r.below(5) {
        0 => 0,
        1 => n.saturating_sub(1),
        2 => n,
        _ => r.below(n + 1),
    };
    let rest = answer.get(at + 1..).unwrap_or_default();
    [&answer[..at], &[*r.pick(b"abc~  \xa0\xa0\xe9\xff\xff")], rest].concat()
}

/// An answer of about so many letters: one text of the pattern after another, which together are one if the pattern is a repeat.
pub fn long_answer(r: &mut Random, p: &Pattern, letters: usize) -> Vec<u8> {
    let mut out = Vec::new();
    for _ in 0..letters {
        if out.len() < letters {
            walk(r, p, &p.tree, &mut out, &mut 200);
        }
    }
    out
}
