//! Tests of the library against the rules: specimens, every byte in patterns and in answers, French and Spanish texts, points taken
//! off, every byte in a credit, intervals with every bound and every byte in them and beside the same patterns written out, edges of every
//! refusal, the last positions and the first past them, links by the hundred and counts at 2^63 by links, the letters that a verdict shows,
//! that no text is shorter than what it shows, answers short and long, where an answer goes wrong, calls one after another, lent scratch,
//! threads, what the pages claim, and random patterns and answers against an independent model. The last line is 'N passed, M failed'.
//! Arguments: how many random patterns, and a seed.

mod library;
mod model;
mod pages;
mod posix;
mod random;

use library::{mark, mark_bits, vet, vet_in, Marked, Vetted, SCRATCH};
use random::Random;
use std::collections::BTreeSet;

struct Tally {
    passed: u64,
    failed: u64,
    /// how many random answers went wrong at the first letter, between the first and the last, at the last, and nowhere
    wrong: [usize; 4],
    /// for how many patterns the model went through the texts for a shortest one, by verdict, and for how many it gave up
    searched: [usize; 3],
    given_up: usize,
}

impl Tally {
    fn check(&mut self, right: bool, what: impl Fn() -> String) {
        if right {
            self.passed += 1;
        } else {
            self.failed += 1;
            if self.failed <= 20 {
                println!("FAILED: {}", what());
            }
        }
    }

    /// Notes where a random answer goes wrong, unless it is empty or refused.
    fn note(&mut self, p: &model::Pattern, answer: &[u8]) {
        if answer.is_empty() || answer.iter().any(|b| !model::is_letter(*b)) {
            return;
        }
        let along = p.along(answer);
        let class = match answer.len() {
            n if n == along => 3,
            _ if along == 0 => 0,
            n if n == along + 1 => 2,
            _ => 1,
        };
        self.wrong[class] += 1;
    }

    /// Each kind came often enough since the last time, for so many patterns.
    fn noted(&mut self, patterns: usize, what: &str) {
        let wrong = std::mem::take(&mut self.wrong);
        let least = (patterns / 20).saturating_sub(5);
        println!("{what}: wrong at the first letter {}, between {}, at the last {}, nowhere {}", wrong[0], wrong[1], wrong[2], wrong[3]);
        self.check(wrong.iter().all(|n| *n >= least), || format!("{what}: too few answers of a kind, {wrong:?}"));
    }

    /// The text that a verdict shows has as many letters as a shortest one in the model; for single there is none. Not where the model
    /// gave up.
    fn as_short(&mut self, pattern: &[u8], verdict: u8, text: Option<&[u8]>, shortest: Option<Option<Vec<u8>>>) {
        let Some(shortest) = shortest else {
            self.given_up += 1;
            return;
        };
        self.searched[usize::from(verdict)] += 1;
        let told = |s: Option<&[u8]>| s.map_or("none".into(), |s| format!("{}, {} letters", show(s), s.len()));
        let both = || format!("shows {}; a shortest one is {}", told(text), told(shortest.as_deref()));
        self.check(text.map(<[u8]>::len) == shortest.as_ref().map(Vec::len), || format!("vet {}: {}", show(pattern), both()));
    }

    /// A shortest text was looked for often enough since the last time, for steady patterns and for runaway ones, and few were given up.
    fn all_searched(&mut self, least: usize, what: &str) {
        let ([single, steady, runaway], given_up) = (std::mem::take(&mut self.searched), std::mem::take(&mut self.given_up));
        println!("{what}: shortest texts looked for, single {single}, steady {steady}, runaway {runaway}, given up {given_up}");
        self.check(steady.min(runaway) >= least, || format!("{what}: too few shortest texts, {steady} and {runaway}"));
        self.check(given_up <= 2 + (single + steady + runaway) / 100, || format!("{what}: {given_up} patterns given up"));
    }

    fn same<T: PartialEq + std::fmt::Debug>(&mut self, got: T, want: T, what: &str) {
        self.check(got == want, || format!("{what}: got {got:?}, want {want:?}"));
    }
}

/// A text in ISO 8859-1 to be printed.
fn show(b: &[u8]) -> String {
    b.iter().map(|b| char::from(*b)).collect()
}

const EVIDENCE: usize = 4096;
const MOST: u64 = 1 << 63;

/// How many texts that do different things the model goes through for a shortest one.
const TEXTS: usize = 20_000;

fn refuses(t: &mut Tally, pattern: &[u8], refusal: u8) {
    let name = format!("{} ({} bytes)", show(&pattern[..pattern.len().min(40)]), pattern.len());
    t.same(vet(pattern, EVIDENCE, 7), Ok(Vetted::Refused(refusal)), &format!("vet {name}"));
    t.same(mark(pattern, b""), Ok(Marked::Refused(refusal)), &format!("mark {name}"));
}

fn verdict_is(t: &mut Tally, pattern: &[u8], verdict: u8) {
    let got = vet(pattern, EVIDENCE, 3);
    let found = match &got {
        Ok(Vetted::Verdict { verdict, .. }) => *verdict,
        _ => 99,
    };
    t.check(found == verdict, || format!("vet {}: {got:?}, want verdict {verdict}", show(pattern)));
    if let Ok(p) = model::read(pattern) {
        evidence(t, pattern, &p, verdict);
    }
}

fn marks(t: &mut Tally, pattern: &[u8], answer: &[u8], count: u64, best: i32) {
    match model::read(pattern) {
        Ok(p) => marks_and_takes(t, pattern, answer, count, best, p.taken(answer)),
        Err(refusal) => t.check(false, || format!("the model refuses {}: {refusal}", show(pattern))),
    }
}

fn marks_and_takes(t: &mut Tally, pattern: &[u8], answer: &[u8], count: u64, best: i32, taken: usize) {
    let name = format!("mark {} on {} letters {}", show(pattern), answer.len(), show(&answer[..answer.len().min(20)]));
    t.same(mark(pattern, answer), Ok(Marked::Answer { count, mark: best, taken }), &name);
}

/// What a verdict shows, checked by counting readings in the model.
fn evidence(t: &mut Tally, pattern: &[u8], p: &model::Pattern, verdict: u8) {
    let n = p.positions.len();
    let seed = pattern.len() as u8;
    let vetted = vet(pattern, EVIDENCE, seed);
    let elsewhere = vet_in(pattern, EVIDENCE, SCRATCH, seed.wrapping_add(101));
    t.check(elsewhere == vetted, || format!("vet {}: not the same in other evidence and lent scratch", show(pattern)));
    let Ok(Vetted::Verdict { verdict: got, positions, texts }) = vetted else {
        t.check(false, || format!("vet {}: no verdict", show(pattern)));
        return;
    };
    t.check(got == verdict && positions == n, || format!("vet {}: verdict {got} and {positions}, want {verdict} and {n}", show(pattern)));
    let most = (n * n + n).min(4096);
    let [x, y, z] = &texts[..] else { unreachable!() };
    t.check(texts.concat().iter().all(|b| model::is_letter(*b)), || format!("vet {}: evidence is no text", show(pattern)));
    match verdict {
        0 => {
            t.check(x.is_empty() && y.is_empty() && z.is_empty(), || format!("vet {}: evidence for single", show(pattern)));
            t.as_short(pattern, 0, None, p.shortest_with_two(TEXTS));
        }
        1 => {
            t.check(x.len() <= most && y.is_empty() && z.is_empty(), || format!("vet {}: lengths", show(pattern)));
            t.check(p.count_from_the_end(x, 2) >= 2, || format!("vet {}: {} has no two readings", show(pattern), show(x)));
            first_for_two(t, pattern, p, 0, x, &[], &[]);
            t.as_short(pattern, 1, Some(x), p.shortest_with_two(TEXTS));
        }
        _ => {
            t.check(x.len() <= n && !x.is_empty() && z.len() <= n && !y.is_empty() && y.len() <= most, || format!("vet {}: lengths", show(pattern)));
            let mut text = x.clone();
            for k in 0..=8u32 {
                let whole = [text.clone(), z.clone()].concat();
                t.check(p.count_from_the_end(&whole, 1 << 40) >= 1 << k, || format!("vet {}: fewer than 2^{k} readings", show(pattern)));
                text.extend(y);
            }
            let pivot = p.first_pivot();
            first_for_two(t, pattern, p, pivot, x, y, z);
            t.as_short(pattern, 2, Some(x), p.shortest_to(pivot, TEXTS));
        }
    }
}

/// There are two different readings over x y z, along which each letter is the first, in the order of letters shown, that both sets hold; for
/// a runaway pattern both are at the first pivot, which is given, after x and after y, and are one path in x and in z.
fn first_for_two(t: &mut Tally, pattern: &[u8], p: &model::Pattern, pivot: usize, x: &[u8], y: &[u8], z: &[u8]) {
    let text = [x, y, z].concat();
    let Some(all) = p.readings(&text, 3000) else { return };
    let (from, to) = (x.len(), x.len() + y.len());
    let at_pivot = |a: &[model::Step], i: usize| a[i - 1].position == pivot;
    let fits = |a: &Vec<model::Step>, b: &Vec<model::Step>| {
        a != b
            && (0..text.len()).all(|i| p.shown(a[i].position, b[i].position) == Some(text[i]))
            && (pivot == 0 || (a[..from] == b[..from] && a[to..] == b[to..] && at_pivot(a, from) && at_pivot(a, to) && at_pivot(b, to)))
    };
    t.check(all.iter().any(|a| all.iter().any(|b| fits(a, b))), || format!("vet {}: no two such readings of {}", show(pattern), show(&text)));
}

fn specimens(t: &mut Tally) {
    verdict_is(t, b"(a|a)b", 1);
    marks(t, b"(a|a)b", b"ab", 2, 0);
    marks(t, b"(a|a)b", b"b", 0, 0);
    verdict_is(t, b"a*a*", 1);
    marks(t, b"a*a*", b"aaa", 4, 0);
    verdict_is(t, b"(a|a)*", 2);
    marks(t, b"(a|a)*", b"aaa", 8, 0);
    for (n, count) in [(62, 1 << 62), (63, MOST), (64, MOST), (4096, MOST)] {
        marks(t, b"(a|a)*", &vec![b'a'; n], count, 0);
    }
    let links: [(&[u8], u8, &[u8], u64); 14] = [
        (b"(a*)*", 2, b"aaa", 4),
        (b"(a+)+", 2, b"aaa", 4),
        (b"(a*)+", 2, b"aaa", 4),
        (b"((a*)*)*", 2, b"aaa", 9),
        (b"(a*b?)*", 2, b"aab", 4),
        (b"(a*|b)*", 2, b"aab", 2),
        (b"(a?b?)*", 2, b"abab", 4),
        (b"(a*b*)*", 2, b"aabb", 8),
        (b"([a-z]+ ?)+", 2, b"go on", 4),
        (b"((ab)*)*", 2, b"ababab", 4),
        (b"(ab*)*", 0, b"abbab", 1),
        (b"(a?)*", 0, b"aaa", 1),
        (b"(a?)+", 0, b"aaa", 1),
        (b"((a?)?)?", 0, b"a", 1),
    ];
    for (pattern, verdict, answer, count) in links {
        verdict_is(t, pattern, verdict);
        marks(t, pattern, answer, count, 0);
    }
    verdict_is(t, b"[a-l]*[m-z]*", 0);
    marks(t, b"[a-l]*[m-z]*", b"am", 1, 0);
    verdict_is(t, b"[a-m]*[m-z]*", 1);
    marks(t, b"[a-m]*[m-z]*", b"m", 2, 0);
    marks(t, b"a=2b|ab=3", b"ab", 2, 3);
    marks(t, b"(a=1|a)*", b"aaa", 8, 3);
    marks(t, b"a?", b"", 1, 0);
    for p in [&b""[..], b"()", b"a**"] {
        refuses(t, p, 5);
    }
    refuses(t, b"[z-a]", 6);
    refuses(t, b"[^ -\xff]", 7);
    verdict_is(t, &[b'a'; 60], 0);
    refuses(t, &[b'a'; 61], 8);
    let class = |n: usize| [&b"["[..], &vec![b'a'; n], b"]"].concat();
    verdict_is(t, &class(510), 0);
    refuses(t, &class(511), 3);
    marks(t, b"a*", &[b'a'; 4096], 1, 0);
    marks(t, b"a=9*", &[b'a'; 4096], 1, 9 * 4096);
    t.same(mark(b"a*", &[b'a'; 4097]), Ok(Marked::Refused(9)), "4,097 letters");
    t.same(vet(b"a", 4095, 1), Ok(Vetted::Refused(1)), "4,095 bytes of evidence");
    t.same(vet(b"a", 0, 1), Ok(Vetted::Refused(1)), "no evidence");
    for (p, v) in [(&b"colou?r"[..], 0), (b"(a|b|ab)*c", 2), (b"(a*a)*", 2), (b".*.*", 1), (b"(a|b)*abb", 0)] {
        verdict_is(t, p, v);
    }
    refuses(t, b"a)", 5);
}

/// The texts that a verdict shows; none where there is a refusal.
fn shown(pattern: &[u8]) -> Vec<Vec<u8>> {
    match vet(pattern, EVIDENCE, 4) {
        Ok(Vetted::Verdict { texts, .. }) => texts,
        _ => Vec::new(),
    }
}

/// A verdict shows exactly this: one text for a steady pattern, or x, y and z.
fn shows(t: &mut Tally, pattern: &[u8], want: [&[u8]; 3]) {
    let got: Vec<String> = shown(pattern).iter().map(|b| show(b)).collect();
    t.same(got, want.map(show).to_vec(), &format!("vet {}, the texts shown", show(pattern)));
}

/// A letter as a class writes it.
fn in_class(letter: u8) -> Vec<u8> {
    if b"[]\\^-".contains(&letter) {
        vec![b'\\', letter]
    } else {
        vec![letter]
    }
}

/// The letters that a verdict shows: of those that serve the first of `a` to `z`, of `A` to `Z`, of `0` to `9`, and then of the others by
/// code. For two paths side by side, in a steady text and in y, those that both sets hold; along one path, in x and z, those of its set.
fn letters_shown(t: &mut Tally) {
    // two sets side by side, in a text of one letter
    let side_by_side: [(&[u8], u8); 70] = [
        (b".|.", b'a'),
        (b".*.*", b'a'),
        (b".?.?", b'a'),
        (b"[ -~]|.", b'a'),
        (b"[a-z]|.", b'a'),
        (b"[z~]|.", b'z'),
        (b"[zA]|.", b'z'),
        (b"[z0]|.", b'z'),
        (b"[z ]|.", b'z'),
        (b"[z\xe9]|.", b'z'),
        (b"[^a]|.", b'b'),
        (b"[^a-y]|.", b'z'),
        // no small letter
        (b"[A-Z]|.", b'A'),
        (b"[A-Z0-9]|.", b'A'),
        (b"[^a-z]|.", b'A'),
        (b"[ -Z]|.", b'A'),
        (b"[@-\\[]|.", b'A'),
        (b"[Z0]|.", b'Z'),
        (b"[Z9!]|.", b'Z'),
        (b"[Z ]|.", b'Z'),
        (b"[Z\\[]|.", b'Z'),
        (b"[Z\xe9]|.", b'Z'),
        (b"[^a-zA-Y]|.", b'Z'),
        // nor a capital
        (b"[0-9]|.", b'0'),
        (b"[0-9 ]|.", b'0'),
        (b"[!-9]|.", b'0'),
        (b"[ -@]|.", b'0'),
        (b"[^a-zA-Z]|.", b'0'),
        (b"[9 ]|.", b'9'),
        (b"[9!]|.", b'9'),
        (b"[9:]|.", b'9'),
        (b"[9~]|.", b'9'),
        (b"[9\xa0]|.", b'9'),
        (b"[^a-zA-Z0-8]|.", b'9'),
        // nor a digit
        (b"[^a-zA-Z0-9]|.", b' '),
        (b"[ !]|.", b' '),
        (b"[ \xe9]|.", b' '),
        (b"[^a-zA-Z0-9 ]|.", b'!'),
        (b"[!-/]|.", b'!'),
        (b"[/:]|.", b'/'),
        (b"[:-@]|.", b':'),
        (b"[@\\[]|.", b'@'),
        (b"[\\[-`]|.", b'['),
        (b"[`{]|.", b'`'),
        (b"[{-~]|.", b'{'),
        (b"[\\]\\\\]|.", b'\\'),
        (b"[\\^_]|.", b'^'),
        (b"[.\\-]|.", b'-'),
        // letters with accents, and the other codes from 160 on
        (b"[~\xa0]|.", b'~'),
        (b"[\xe9~]|.", b'~'),
        (b"[\xe9\xe8]|.", 0xe8),
        (b"[\xe9\xc9]|.", 0xc9),
        (b"[\xe0-\xff]|.", 0xe0),
        (b"[\xff\xbf]|.", 0xbf),
        (b"[\xc0\xbf]|.", 0xbf),
        (b"[^ -~]|.", 0xa0),
        (b"[^ -~\xa0]|.", 0xa1),
        // two sets of which neither is all
        (b"[A-m]|[ -Z]", b'A'),
        (b"[a-m ]|[n-z ]", b' '),
        (b"[a-m]|[m-z]", b'm'),
        (b"[a-m5!]|[n-z5!]", b'5'),
        (b"[a-mZ5]|[n-zZ5]", b'Z'),
        (b"[^a]|[^b]", b'c'),
        (b"[^a-y]|[^z]", b'A'),
        (b"[^A-Z]|[^a-z]", b'0'),
        (b"[^0-9]|[!-@]", b'!'),
        (b"[ -z]|[z-\xff]", b'z'),
        (b"[ -Z]|[Z-\xff]", b'Z'),
        (b"[ -9]|[9-@]", b'9'),
        (b"[a-\xe9]|[\xe0-\xff]", 0xe0),
    ];
    for (pattern, letter) in side_by_side {
        verdict_is(t, pattern, 1);
        shows(t, pattern, [&[letter], b"", b""]);
    }
    // longer ones: where both readings are at one position, its set alone decides
    let steady: [(&[u8], &[u8]); 10] = [
        (b"(.|.)b", b"ab"),
        (b".*.*x", b"ax"),
        (b".(b|b)", b"ab"),
        (b"[^a-z](b|b)[0-9!]", b"Ab0"),
        (b"[A-Z0-9]{2}([0-9!]|[ -9])", b"AA0"),
        (b"[ -/](b|b)[^ -~]", b" b\xa0"),
        (b".*[0-9].*", b"00"),
        (b".*[A-Z][0-9].*", b"A0A0"),
        (b".*[ -/].*", b"  "),
        (b".*because=3.*", b"becausebecause"),
    ];
    for (pattern, text) in steady {
        verdict_is(t, pattern, 1);
        shows(t, pattern, [text, b"", b""]);
    }
    // y may have another letter than x and z
    let runaway: [(&[u8], &[u8], &[u8], &[u8]); 23] = [
        (b"(.*)*", b"a", b"a", b""),
        (b"(.*.*)*", b"a", b"a", b""),
        (b"(.|.)*", b"a", b"aa", b""),
        (b"(.|..)*", b"a", b"aaa", b""),
        (b"(.*!)*", b"a", b"!a", b"!"),
        (b"(.* )*", b"a", b" a", b" "),
        (b"(.*[0-9])*", b"a", b"0a", b"0"),
        (b"(.*because.*)*", b"a", b"becausea", b"because"),
        (b"([^ ]+ ?)+", b"a", b"a", b""),
        (b"([a-z]+ ?)+", b"a", b"a", b""),
        (b"([^a-z]*)*", b"A", b"A", b""),
        (b"([A-Z0-9]+ ?)+", b"A", b"A", b""),
        (b"([0-9 ]+)+", b"0", b"0", b""),
        (b"([!-/]+)+", b"!", b"!", b""),
        (b"([\xe9\xe8~]+)+", b"~", b"~", b""),
        (b"([^ -~]+)+", b"\xa0", b"\xa0", b""),
        (b"([A-m]|[ -Z])*", b"a", b"Aa", b""),
        (b"([a-m ]|[n-z ])*", b"a", b" a", b""),
        (b"([^a]|[^b])*", b"b", b"cb", b""),
        (b"([!-9]|[ -/])*", b"0", b"!0", b""),
        (b"[0-9 ](b|b)*[Z0]", b"0b", b"bb", b"Z"),
        (b"[^a-z](b|b)*[^a-zA-Z]", b"Ab", b"bb", b"0"),
        (b"[z~][Z9!](b|b)*[9 ][\xe9~]", b"zZb", b"bb", b"9~"),
    ];
    for (pattern, x, y, z) in runaway {
        verdict_is(t, pattern, 2);
        shows(t, pattern, [x, y, z]);
    }
}

/// Every class of two letters, every range, what two ranges share, and all letters from each on in the order: the letter shown, for two
/// paths and along one.
fn every_letter_shown(t: &mut Tally) {
    let order: Vec<u8> = model::letters_as_shown().collect();
    t.same(order.iter().copied().collect::<BTreeSet<u8>>(), model::letters().collect(), "the order has every letter");
    t.same(order.len(), 191, "and each of them once");
    t.same(show(&order[..64]), ('a'..='z').chain('A'..='Z').chain('0'..='9').chain([' ', '!']).collect(), "how it begins");
    t.check(order[62..].windows(2).all(|w| w[0] < w[1]), || "the others are by code".into());
    let first = |serves: &dyn Fn(u8) -> bool| *order.iter().find(|b| serves(**b)).unwrap();
    let all: Vec<u8> = model::letters().collect();
    let one_path = |t: &mut Tally, class: &[u8], b: u8| shows(t, &[class, b"(a|a)*", class].concat(), [&[b, b'a'], b"aa", &[b]]);
    for (k, c) in all.iter().enumerate() {
        for d in &all[k..] {
            let (from, to) = (in_class(*c), in_class(*d));
            // two letters
            let b = first(&|b| b == *c || b == *d);
            let class = [b"[", &to[..], &from, b"]"].concat();
            shows(t, &[b"(", &class[..], b"|", &class, b")"].concat(), [&[b], b"", b""]);
            one_path(t, &class, b);
            // a range, and two that share it
            let (b, alone) = (first(&|b| *c <= b && b <= *d), first(&|b| *c <= b));
            one_path(t, &[b"[", &from[..], b"-", &to, b"]"].concat(), b);
            let two = [b"[", &from[..], b"-\xff]|[ -", &to, b"]"].concat();
            shows(t, &two, [&[b], b"", b""]);
            shows(t, &[b"(", &two[..], b")*"].concat(), [&[alone], &[b, alone], b""]);
        }
    }
    // all letters from one on in the order
    for (k, b) in order.iter().enumerate() {
        let list = |letters: &[u8]| letters.iter().flat_map(|c| in_class(*c)).collect::<Vec<u8>>();
        let from = [b"[", &list(&order[k..])[..], b"]"].concat();
        let but = [b"[^", &list(&order[..k])[..], b"]"].concat();
        for class in [from, if k == 0 { b".".to_vec() } else { but }] {
            shows(t, &[b".|", &class[..]].concat(), [&[*b], b"", b""]);
            shows(t, &[b"(", &class[..], b"*)*"].concat(), [&[*b], &[*b], b""]);
        }
    }
}

/// The text shown for a steady pattern, or x for a runaway one, has so many letters, in lent scratch too.
fn letters_are(t: &mut Tally, pattern: &[u8], verdict: u8, letters: usize) {
    verdict_is(t, pattern, verdict);
    for got in [vet(pattern, EVIDENCE, 6), vet_in(pattern, EVIDENCE, SCRATCH, 8)] {
        let found = match got {
            Ok(Vetted::Verdict { texts, .. }) => texts[0].len(),
            _ => 0,
        };
        t.same(found, letters, &format!("vet {}, the letters of the text or of x", show(pattern)));
    }
}

/// No text with two readings is shorter than the one shown, and none that leads to the first pivot is shorter than x. The lengths are worked
/// out by hand. Among the patterns are many in which a search comes to a longer text if it goes deep first, or to the nearest place where two
/// readings part and from there to the nearest end, or if it takes two that have parted for two that have not.
fn shortest_texts(t: &mut Tally) {
    let steady: [(&[u8], usize); 67] = [
        // a long way by low positions and a short one by high ones, or the other way round
        (b"abcdef(g|g)|h(i|i)", 2),
        (b"h(i|i)|abcdef(g|g)", 2),
        (b"(abcdef|g)(h|h)", 2),
        (b"(g|abcdef)(h|h)", 2),
        (b"(abcd|e)(fghi|j)(k|k)(lmn|o)", 4),
        (b"(e|abcd)(j|fghi)(k|k)(o|lmn)", 4),
        (b"a?b?c?d?e?(f|f)", 1),
        (b"(f|f)a?b?c?d?e?", 1),
        (b"a*b*c*d*(e|e)", 1),
        (b"a+b+c+d+(e|e)|(f|f)", 1),
        (b"(f|f)|a+b+c+d+(e|e)", 1),
        (b"(a(b(c(d)?)?)?)?(e|e)(f(g(h)?)?)?", 1),
        (b"a{3,9}(b|b)c{2,8}", 6),
        (b"(a{9}|b{2})(c|c)(d{2}|e{9})", 5),
        (b"(a{50}|b)(c|c)", 2),
        (b"(b|a{50})(c|c)", 2),
        // the readings part early and the end is far, or they part late and it is near
        (b"(a|a)bcdefg|hij(k|k)", 4),
        (b"hij(k|k)|(a|a)bcdefg", 4),
        (b"abcdef(g|g)|(h|h)ij", 3),
        (b"(h|h)ij|abcdef(g|g)", 3),
        (b"ab(c|c)de|(f|f)ghijk|lmnop(q|q)", 5),
        (b"lmnop(q|q)|(f|f)ghijk|ab(c|c)de", 5),
        (b"(a|a)(bcdef|g)", 2),
        (b"(a|a)(g|bcdef)", 2),
        (b"(a|a)(b(c(d)?)?)?", 1),
        // they part, and come together at a position where one reading alone comes sooner
        (b"(c|(a|a)b)d|eeee(f|f)", 3),
        (b"eeee(f|f)|(c|(a|a)b)d", 3),
        (b"((a|a)bc|d)e|ffff(g|g)", 4),
        (b"(a|bc|(d|d)ef)g|h{5}(i|i)", 4),
        (b"(a|a)b(c|c)", 3),
        // one text cut in two ways
        (b"(a|ab)(c|bc)", 3),
        (b"(ab|a)(bc|c)", 3),
        (b"(a|ab)(bcd|cd)(e|de)", 5),
        (b"a{2,3}a{2,3}", 5),
        (b"a{3,}a{3,}", 7),
        (b"a{4,7}a{5,6}", 10),
        (b"(a{2,3}){3}", 7),
        (b"(a{1,2}){10}", 11),
        (b"(a{5,6}){9}", 46),
        (b"[a-c]{1,3}[c-e]{1,3}", 3),
        (b".{0,5}a.{0,5}", 2),
        (b"(.*,){2}.*", 3),
        // branches with repeats
        (b"abcd*e|abcf*e", 4),
        (b"abc*d|ab?d", 3),
        (b"abcd*e|ab(c|f)d?e|g(h|h)ijk", 4),
        (b"abcd+e|abcdd?de|f{6}(g|g)", 6),
        // two readings only after rounds of a repeat
        (b"(aa)*|(aaa)*", 6),
        (b"(aaa)*|(aa)*", 6),
        (b"(aa)+|(aaa)+", 6),
        (b"(ab)*a|(aba)*", 3),
        (b"(ab)*|(abc)*|(abab)?", 4),
        (b"(ab)*(abababc|c)", 7),
        (b"(abc)*(abcabcabd|abd)", 9),
        (b"(a{3})*a|(a{5})*aa", 7),
        (b"(a{3})*b|(a{4})*b", 1),
        (b"(a{3})+b|(a{4})+b", 13),
        (b"(a{2})*|(a{3})*|(a{5})*", 6),
        (b"(a{4})*|(a{6})*", 12),
        (b"(a{7})*|(a{11})*", 77),
        (b"(a{29})*|(a{31})*", 899),
        // the empty answer has one reading, however many parts can be empty
        (b"a*|b*|a", 1),
        (b"(a?)(a?)", 1),
        (b"(a?b?)?(c|c)?", 1),
        (b"(a*)?(a?)?", 1),
        (b"(a?b?c?){2}", 1),
        (b"(a{0,3}|b*)(a|c)?", 1),
        (b"(a*|b*)(c*|d*)|(ac|bd)?", 2),
    ];
    let runaway: [(&[u8], usize); 39] = [
        // a long way by low positions and a short one by high ones, or the other way round
        (b"(abcdef|g)(h|h)*", 2),
        (b"(g|abcdef)(h|h)*", 2),
        (b"(abcd|e)(fghi|j)(k|k)*", 3),
        (b"(e|abcd)(j|fghi)(k|k)*", 3),
        (b"((abc|d)(e|fgh)|i)(j|j)*", 2),
        (b"(i|(d|abc)(fgh|e))(j|j)*", 2),
        (b"a?b?c?d?e?(f|f)*", 1),
        (b"a*b*c*(d|d)*", 1),
        (b"(a(b(c(d)?)?)?)?(e|e)*", 1),
        (b"a{5,9}(b|b)*", 6),
        (b"a{5,}(b|b)*", 6),
        (b"(a{3}|b{2}|c{4})(d|d)*", 3),
        (b"(ab{0,2}c|de{3})(f|f)*", 3),
        (b"(a{50}|b)(c|c)*", 2),
        (b"(b|a{50})(c|c)*", 2),
        (b"(ab|c)(defg|defg|h)*", 2),
        (b"(a|bc)(d(ee|ee))*", 2),
        // repeats before it, of which no round is needed, or one
        (b"(abc)*(d|d)*", 1),
        (b"(abc)+(d|d)*", 4),
        (b"((abc)+|e)(d|d)*", 2),
        (b"(e|(abc)+)(d|d)*", 2),
        (b"(a|b)*c(d|d)*", 2),
        (b"(a(bc)*d|e)(f|f)*", 2),
        (b"(a(bc)*d|efgh)(i|i)*", 3),
        // the first by its number, not the nearest
        (b"abc(d|d)*|(e|e)*", 4),
        (b"(e|e)*|abc(d|d)*", 1),
        (b"a?b(c|c)*|(d|d)*", 2),
        (b"(abc|d)ef(g|g)*|h(i|i)*", 4),
        // links doubled
        (b"(a*)*", 1),
        (b"((ab)*)*", 1),
        (b"((a|b)*c?)*", 1),
        (b"x(a?b?)*", 2),
        (b"(abc|d)(e*)*", 2),
        (b"abc?d?(e*f?)*", 3),
        (b"x{3,8}((y*)*)*", 4),
        (b"(a{7}|b)(c*)*|d(e*)*", 2),
        // as long as there are positions
        (b"a{58}(b|b)*", 59),
        (b"a{59}(b*)*", 60),
        (b"(ab){29}a(b+)+", 60),
    ];
    let given_up = t.given_up;
    for (pattern, letters) in steady {
        letters_are(t, pattern, 1, letters);
    }
    for (pattern, letters) in runaway {
        letters_are(t, pattern, 2, letters);
    }
    t.same(t.given_up - given_up, 0, "how many of these the model gives up");
    // too many texts for the model
    letters_are(t, b"[ab]*a[ab]{20}(c|c)", 1, 22);
    letters_are(t, b"[ab]*a[ab]{20}(c|c)*", 2, 22);
    t.same(t.given_up - given_up, 2, "and of those with too many texts");
}

/// A shortest text that passes a test, as the model's search has it, beside all texts of these letters up to some length, tried one by
/// one: how many letters it has.
fn as_tried(t: &mut Tally, name: &str, letters: &[u8], found: Option<Option<Vec<u8>>>, passes: impl Fn(&[u8]) -> bool) -> Option<usize> {
    t.check(found.is_some(), || format!("the model gives up {name}"));
    let found = found.flatten();
    t.check(found.iter().all(|s| passes(s)), || format!("the model: {name}, not {:?}", found.as_deref().map(show)));
    let few = |n: &u32| letters.len().checked_pow(*n).is_some_and(|texts| texts <= 300);
    let longest = (1..=12).rev().find(few).unwrap_or(1) as usize;
    let length = found.map(|s| s.len());
    let tried = model::first_text(letters, longest, passes).map(|s| s.len());
    t.same(length.filter(|n| *n <= longest), tried, &format!("the model: {name}, {longest} letters at most"));
    length
}

/// A pattern's shortest text with two readings and its shortest to the first pivot, as the model's search has them, beside all short texts:
/// how many letters they have. The texts are made of one letter for each set of positions, and it is tested that no set is left out.
fn one_by_one(t: &mut Tally, text: &[u8], p: &model::Pattern) -> [Option<usize>; 2] {
    let apart = p.letters_apart();
    let held = |b: u8| (1..=p.positions.len()).filter(|i| p.holds(*i, b)).collect::<Vec<usize>>();
    let sets: BTreeSet<Vec<usize>> = model::letters().map(held).filter(|set| !set.is_empty()).collect();
    let one_each = apart.len() == sets.len() && apart.iter().all(|(b, set)| *set == held(*b) && sets.contains(set));
    t.check(one_each, || format!("the model: {}, a letter for each set of positions", show(text)));
    let letters: Vec<u8> = apart.iter().map(|(b, _)| *b).collect();
    let (two, to_pivot) = (format!("{}, two readings", show(text)), format!("{}, to the first pivot", show(text)));
    let pivot = p.first_pivot();
    [
        as_tried(t, &two, &letters, p.shortest_with_two(TEXTS), |s| p.has_two(s)),
        if pivot == 0 { None } else { as_tried(t, &to_pivot, &letters, p.shortest_to(pivot, TEXTS), |s| p.leads_to(s, pivot)) },
    ]
}

/// The model's search for shortest texts, with two readings and to the first pivot, beside lengths worked out by hand and beside all short
/// texts.
fn shortest_in_model(t: &mut Tally, patterns: usize, seed: u64) {
    let short: [(&[u8], [Option<usize>; 2]); 28] = [
        (b"a", [None, None]),
        (b"a?", [None, None]),
        (b"a*|b*", [None, None]),
        (b"(a?)*", [None, None]),
        (b"(ab?)*", [None, None]),
        (b"[ab]*a[ab]{3}", [None, None]),
        (b"a|a", [Some(1), None]),
        (b"a*|a*", [Some(1), None]),
        (b"a?a?", [Some(1), None]),
        (b".*a.*", [Some(2), None]),
        (b"[a-m]*[m-z]*", [Some(1), None]),
        (b"(a|ab)(c|bc)", [Some(3), None]),
        (b"a{2,3}a{2,3}", [Some(5), None]),
        (b"(aa)*|(aaa)*", [Some(6), None]),
        (b"(aa)+|(aaa)+b?", [Some(6), None]),
        (b"(ab)*(ababa|a)", [Some(5), None]),
        (b"(a{3})*|(a{4})*", [Some(12), None]),
        (b"(a|a)*", [Some(1), Some(1)]),
        (b"(a*)*", [Some(2), Some(1)]),
        (b"(a?b?)*", [Some(2), Some(1)]),
        (b"((ab)*)*", [Some(4), Some(1)]),
        (b"(a|b|ab)*c", [Some(3), Some(1)]),
        (b"((a*)*)*", [Some(2), Some(1)]),
        (b"b(a*)*", [Some(3), Some(2)]),
        (b"(ab|b)(a*)*", [Some(3), Some(2)]),
        (b"aaab?(a*)*", [Some(5), Some(4)]),
        (b"(a|a)b(b|b)*", [Some(2), Some(3)]),
        (b"a{4}(b+)+|b", [Some(6), Some(5)]),
    ];
    for (pattern, lengths) in short {
        let p = model::read(pattern).expect("a good pattern");
        let got = one_by_one(t, pattern, &p);
        t.same(got, lengths, &format!("the model: {}, the lengths", show(pattern)));
    }
    let mut r = Random::new(seed ^ 0x5407);
    let (mut tried, mut found) = (0, [0; 2]);
    for _ in 0..patterns {
        let text = random::pattern(&mut r, false);
        let Ok(p) = model::read(&text) else { continue };
        if p.positions.len() <= 5 && p.letters_apart().len() <= 3 {
            let lengths = one_by_one(t, &text, &p);
            (0..2).for_each(|k| found[k] += usize::from(lengths[k].is_some()));
            tried += 1;
        }
    }
    println!("random patterns beside all short texts: {tried}, with two readings {}, with a pivot {}", found[0], found[1]);
    let least = (patterns / 100).saturating_sub(10);
    t.check(found.iter().all(|n| *n >= least), || format!("only {found:?} patterns of {patterns} beside all short texts"));
}

/// The part with so many brackets around it, one in another, each with the repeat.
fn nest(part: &str, times: usize, repeat: char) -> String {
    format!("{}{part}{}", "(".repeat(times), format!("){repeat}").repeat(times))
}

/// A count, as the rules and as the model have it.
fn counts(t: &mut Tally, pattern: &str, answer: &str, count: u128) {
    let p = model::read(pattern.as_bytes()).expect("a good pattern");
    t.same(p.count_from_the_end(answer.as_bytes(), 1 << 100), count, &format!("the model: {pattern} on {answer}"));
    marks(t, pattern.as_bytes(), answer.as_bytes(), count.min(u128::from(MOST)) as u64, 0);
}

/// Many links between two positions: 171 are the most that 512 bytes can make.
fn many_links(t: &mut Tally) {
    for times in [1, 2, 3, 15, 16, 126, 127, 128, 169, 170] {
        for repeat in ['*', '+'] {
            for (part, own) in [("a*", 1), ("a+", 1), ("a?", 0), ("a", 0)] {
                let pattern = nest(part, times, repeat);
                let links = (times + own) as u128;
                verdict_is(t, pattern.as_bytes(), if links >= 2 { 2 } else { 0 });
                for letters in 1..=12 {
                    counts(t, &pattern, &"a".repeat(letters), links.pow(letters as u32 - 1));
                }
            }
        }
    }
    let sixty = nest(&["a"; 60].join("|"), 131, '*');
    verdict_is(t, sixty.as_bytes(), 2);
    for letters in 1..=8 {
        counts(t, &sixty, &"a".repeat(letters), 60u128.pow(letters as u32) * 131u128.pow(letters as u32 - 1));
    }
    for (part, earned) in [("a=1|b=2*", 3), ("a=-1|b=2*", 1), ("a=1|b=-2*", -1), ("a=-1|b=-2*", -3)] {
        let credits = nest(part, 100, '*');
        marks(t, credits.as_bytes(), b"abba", 100 * 101 * 100, 2 * earned);
        marks(t, credits.as_bytes(), &b"ab".repeat(2048), MOST, 2048 * earned);
    }
}

/// Counts around 2^63 that are reached by links: as a sum at the end or at a letter, as a product, and from what was cut before.
fn counts_by_links(t: &mut Tally) {
    for k in (1..=5).chain(52..=66) {
        let a = "a".repeat(k);
        let two = 1u128 << k;
        // up to some letter the readings double with each, and from there on there is one
        for (pattern, count) in [("(a+)+a*", two - 1), ("(a*)*a*", two), ("(a*)*a*|a*", two + 1)] {
            counts(t, pattern, &a, count);
            counts(t, &format!("({pattern})b"), &format!("{a}b"), count);
            counts(t, &format!("({pattern})b"), &a, 0);
            // after them a step by so many links, twice
            for links in [2, 3, 7, 8, 127, 128, 150] {
                let pattern = format!("({pattern}){}", nest("b?c?", links - 1, '*'));
                counts(t, &pattern, &format!("{a}bc"), count * links as u128);
                counts(t, &pattern, &format!("{a}bcbc"), count * (links * links * (links - 1)) as u128);
            }
        }
    }
    // 2^63 - 1 is 7 times the sum of the powers of 8 from 8^0 to 8^20
    let eights = nest("a+", 7, '+');
    for (links, letters) in [(6, 21), (7, 20), (7, 21), (7, 22), (8, 21), (9, 21)] {
        let sum: u128 = (0..letters).map(|i| 1 << (3 * i)).sum();
        counts(t, &format!("{eights}a*{}", nest("b?c?", links - 1, '*')), &format!("{}bc", "a".repeat(letters)), sum * links as u128);
    }
    for (links, letters) in [(2, 63), (2, 64), (2, 65), (4, 32), (4, 33), (8, 21), (8, 22), (8, 23)] {
        counts(t, &nest("a*", links - 1, '*'), &"a".repeat(letters), (links as u128).pow(letters as u32 - 1));
    }
}

/// Long answers by patterns of 60 positions, in which all counts stop at 2^63, those of all states but the first, or none, while the credits go
/// on: as in the model.
fn counts_that_stop(t: &mut Tally) {
    let repeat = |part: &str, times: usize| format!("({})*", part.repeat(times));
    let patterns = [
        repeat("(.=1|.=-2)+", 30),
        repeat("(.=1+|.=2+|.=-3+)", 20),
        repeat("(..=5*.=-1*)+", 20),
        repeat("(.=1.=4*|..=-4*|.=2)", 12),
        repeat("((.=2|.=-9)+)+", 30),
        repeat("(.+.=1*.*)+", 20),
        format!(".=3*x?{}", repeat("(.=1|.=-2)+", 29)),
        format!(".=-3*x?{}", repeat("((.=1|.)+)+", 29)),
        format!(".*{}.=9", repeat("[a-d]=1?[c-h]=-1?", 29)),
        repeat("[a-d]=1", 30) + &repeat("(a=2|[a-h])+", 15),
        ".=1*.=-1*".repeat(30),
        repeat(&".=1*.=-1*".repeat(30), 1),
    ];
    let mut r = Random::new(0x570b);
    for pattern in patterns {
        let p = model::read(pattern.as_bytes()).expect("a pattern");
        t.same(p.positions.len(), 60, &format!("{pattern}: the number of positions"));
        for letters in [1, 20, 31, 32, 33, 62, 63, 64, 120, 300] {
            let answer: Vec<u8> = (0..letters).map(|_| b"abcdefgh"[r.below(8)]).collect();
            as_in_model(t, pattern.as_bytes(), &p, &answer, None);
        }
    }
}

/// The one-letter answers that the pattern reads are these, of all 191.
fn reads_exactly(t: &mut Tally, pattern: &[u8], want: impl IntoIterator<Item = u8>) {
    let want: Vec<u8> = want.into_iter().collect();
    let as_wanted = |b: u8| mark(pattern, &[b]) == Ok(Marked::Answer { count: u64::from(want.contains(&b)), mark: 0, taken: 1 });
    let wrong: Vec<u8> = model::letters().filter(|b| !as_wanted(*b)).collect();
    t.check(wrong.is_empty(), || format!("mark {}: wrong on {}", show(pattern), show(&wrong)));
}

/// A pattern of one atom, which is single and reads these letters.
fn one_atom(t: &mut Tally, pattern: &[u8], letters: impl IntoIterator<Item = u8>) {
    let single = Vetted::Verdict { verdict: 0, positions: 1, texts: vec![Vec::new(); 3] };
    t.same(vet(pattern, EVIDENCE, 5), Ok(single), &format!("vet {}", show(pattern)));
    reads_exactly(t, pattern, letters);
}

/// A pattern of one atom, or one that is refused, as the model has it.
fn one_atom_as_in_model(t: &mut Tally, pattern: &[u8]) {
    match model::read(pattern) {
        Err(refusal) => refuses(t, pattern, refusal),
        Ok(p) => one_atom(t, pattern, p.positions[0].letters.iter().copied()),
    }
}

/// Each of the 256 bytes as a pattern, in classes and ranges, and as an answer.
fn every_byte(t: &mut Tally) {
    let special = b"|*+?()[]{}^$.\\=";
    let letters: Vec<u8> = (32..=126).chain(160..=255).collect();
    t.same(model::letters().collect::<Vec<u8>>(), letters.clone(), "the letters of the model");
    let mut no_letters = [0; 3];
    for b in 0..=255u8 {
        if !letters.contains(&b) {
            refuses(t, &[b], 4);
        } else if !special.contains(&b) {
            one_atom(t, &[b], [b]);
        }
        // as it stands, and with a backslash
        for letter in [&[b][..], &[b'\\', b]] {
            one_atom_as_in_model(t, letter);
            for (before, after) in [(&b"["[..], &b"]"[..]), (b"[^", b"]"), (b"[ -", b"]"), (b"[", b"-\xff]"), (b"[^ -", b"]"), (b"[^", b"-\xff]")] {
                one_atom_as_in_model(t, &[before, letter, after].concat());
            }
            one_atom_as_in_model(t, &[b"[", letter, b"-", letter, b"]"].concat());
        }
        for (k, pattern) in [&b"."[..], b"[^a]", b"a*"].into_iter().enumerate() {
            let p = model::read(pattern).expect("a good pattern");
            as_in_model(t, pattern, &p, &[b], None);
            no_letters[k] += u32::from(mark(pattern, &[b]) == Ok(Marked::Refused(10)));
        }
    }
    t.same(no_letters, [65; 3], "the bytes that are no letters as an answer");
    // ranges from each edge to each, also reversed and across the gap
    let ends = [32, 33, 48, 63, 64, 65, 95, 97, 122, 125, 126, 160, 161, 190, 191, 192, 193, 223, 224, 233, 254, 255];
    for a in ends {
        for b in ends {
            one_atom_as_in_model(t, &[b'[', a, b'-', b, b']']);
            one_atom_as_in_model(t, &[b'[', b'^', a, b'-', b, b']']);
        }
    }
}

/// Letters of both halves, with codes to 126 and from 160 on, and the bytes beside them.
fn french_and_spanish(t: &mut Tally) {
    one_atom(t, b"[^ -~]", 160..=255);
    one_atom(t, b"[z-\xe9]", (b'z'..=b'~').chain(160..=233));
    one_atom(t, b"[~-\xa0]", [126, 160]);
    one_atom(t, b"[ -\xff]", model::letters());
    one_atom(t, b"[^ -~\xa1-\xff]", [160]);
    one_atom(t, b"[^ -}\xa0-\xff]", *b"~");
    one_atom(t, b"[^!-\xff]", *b" ");
    one_atom(t, b"[^ -\xfe]", [255]);
    one_atom(t, b"[\xe0\xe9\xe8]", [0xe0, 0xe8, 0xe9]);
    for p in [&b"[^ -\xff]"[..], b"[^ -~\xa0-\xff]", b"[^\xa0-\xff ~!-}]", b"a[^ -\xff]*\xe9"] {
        refuses(t, p, 7);
    }
    for p in [&b"[\xe9-e]"[..], b"[\xff-\xa0]", b"[\xa0-~]", b"[^\xe9-\xe8]", b"[a-\xff\xe9-z]"] {
        refuses(t, p, 6);
    }
    for p in [&b"\\\xe9"[..], b"[\\\xe9]", b"\xe9**", b"[\xe9-]", b"[\xe0-\xe9-\xff]", b"\xe9=0", b"(\xe9", b"\xe9|"] {
        refuses(t, p, 5);
    }
    for p in [&b"[z-\x9f]"[..], b"[\x7f-\xe9]", b"[\x80-\x9f]", b"[^\x9f]", b"(\x9f", b"\xc3\x89t\xc3\xa9"] {
        refuses(t, p, 4);
    }
    for (b, letter) in [(31, false), (32, true), (126, true), (127, false), (128, false), (159, false), (160, true), (255, true)] {
        for pattern in [&[b][..], &[b'a', b, b'*'], &[b'(', b'[', b'a', b, b']', b'|', b'b', b')'], &[b'[', b'^', b, b']', b'+']] {
            if letter {
                verdict_is(t, pattern, 0);
            } else {
                refuses(t, pattern, 4);
            }
        }
        for pattern in [&b"a.b"[..], b"a[^a]b", b"a([ -~]|[^ -~])b", b"a[ -\xff]b", b".*"] {
            let want = if letter { Marked::Answer { count: 1, mark: 0, taken: 3 } } else { Marked::Refused(10) };
            t.same(mark(pattern, &[b'a', b, b'b']), Ok(want), &format!("mark {} with byte {b} in the answer", show(pattern)));
        }
    }
    // the only text with two readings that the rules let a verdict show
    let steady: [(&[u8], &[u8]); 6] = [
        (b"(\xe9|[\xe0-\xff])b", b"\xe9b"),
        (b"([\xe0-\xff]|[a-\xe9])b", b"\xe0b"),
        (b"(.|[^ -~])b", b"\xa0b"),
        (b"([^ -~]|\xff)b", b"\xffb"),
        (b"([~\xff]|[z-\xff])\xf1", b"~\xf1"),
        (b"([^\xa0-\xe8!-~ ]|[\xa1-\xff])\xa0", b"\xe9\xa0"),
    ];
    for (pattern, text) in steady {
        verdict_is(t, pattern, 1);
        shows(t, pattern, [text, b"", b""]);
    }
    // x, y and z can have this letter alone
    for (pattern, letter) in [(&b"(\xe9|\xe9)*"[..], 0xe9), (b"([^ -~]*)*", 160), (b"([\xff\xf1]|[\xf1-\xfe])+", 0xf1), (b"([~-\xe9]+)+", b'~')] {
        verdict_is(t, pattern, 2);
        let texts = shown(pattern).concat();
        t.check(!texts.is_empty() && texts.iter().all(|b| *b == letter), || format!("vet {}: shows {}", show(pattern), show(&texts)));
    }
    for (pattern, verdict) in [
        (&b"(\xe9|\xe8|\xe9\xe8)*\xe7"[..], 2),
        (b"(ma\xf1ana?|ma[n\xf1]an)", 1),
        (b"[ -~]*[\xa0-\xff]*", 0),
        (b"[a-\xe9]*[\xe9-\xff]*", 1),
        (b"([a-\xe9]|[\xe9-\xff])*", 2),
        (b"([a-z\xdf-\xff]+ ?)+", 2),
        (b"([a-z\xdf-\xff]+ )+", 0),
        (b"([^ -~]|[a-z])*", 0),
        (b"([^ -~]|[a-\xa0])*", 2),
        (b"(\xbfd\xf3nde|\xbfcu\xe1ndo) est\xe1\\?", 0),
        (b".*\xe9.*", 1),
    ] {
        verdict_is(t, pattern, verdict);
    }
    marks(t, b"(\xe9|\xe9)t", b"\xe9t", 2, 0);
    marks(t, b"(\xe9|e)t\xe9", b"ete", 0, 0);
    marks(t, b"\xe9=2t|\xe9t=3", b"\xe9t", 2, 3);
    marks(t, b"(\xe9=1|\xe9)*", b"\xe9\xe9\xe9", 8, 3);
    marks(t, b"(\xe9*)*", b"\xe9\xe9\xe9", 4, 0);
    marks(t, b"[a-\xe9]*[\xe9-\xff]*", b"a\xe9\xff", 2, 0);
    marks(t, b"([a-z]+|[^ -~]=1)*", b"\xe9t\xe9 ", 0, 0);
    marks(t, b"([a-z]|[^ -~]=1)*", b"\xe9t\xe9", 1, 2);
    marks(t, b"\xbfd\xf3=2nde est\xe1=1(n|s)?\\?", b"\xbfd\xf3nde est\xe1s?", 1, 3);
    for (n, count) in [(62, 1 << 62), (63, MOST), (4096, MOST)] {
        marks(t, b"(\xff|\xff)*", &vec![255; n], count, 0);
    }
    marks(t, b"\xa0=9*", &[160; 4096], 1, 9 * 4096);
    t.same(mark(b"\xe9*", &[0xe9; 4097]), Ok(Marked::Refused(9)), "4,097 letters");
    verdict_is(t, &[255; 60], 0);
    refuses(t, &[255; 61], 8);
    let class = |n: usize| [&b"["[..], &vec![255; n], b"]"].concat();
    one_atom(t, &class(510), [255]);
    refuses(t, &class(511), 3);
    // every letter from 160 on at once, as positions, as one class and as its letters one by one
    let upper: Vec<u8> = (160..=255).collect();
    one_atom(t, &[b"[", &upper[..], b"]"].concat(), 160..=255);
    for sixty in [&upper[..60], &upper[36..]] {
        verdict_is(t, sixty, 0);
        marks(t, sixty, sixty, 1, 0);
        let either = [b"(", &sixty.iter().map(|c| [*c]).collect::<Vec<_>>().join(&b'|')[..], b")*"].concat();
        verdict_is(t, &either, 0);
        marks(t, &either, &sixty.repeat(60), 1, 0);
        reads_exactly(t, &either, sixty.iter().copied());
    }
}

/// A count and a mark, as the rules and as the model have them.
fn earns(t: &mut Tally, pattern: &[u8], answer: &[u8], count: u64, best: i32) {
    marks(t, pattern, answer, count, best);
    match model::read(pattern) {
        Ok(p) => as_in_model(t, pattern, &p, answer, None),
        Err(refusal) => t.check(false, || format!("the model refuses {}: {refusal}", show(pattern))),
    }
}

/// Credits below zero: the mark is the most that one reading earns, be it below zero, and 0 where there is none.
fn points_off(t: &mut Tally) {
    let short: [(&[u8], &[u8], u64, i32); 39] = [
        (b"a=-2", b"a", 1, -2),
        (b"a=-1", b"a", 1, -1),
        (b"a=-9", b"a", 1, -9),
        (b"a=-2|a=-1", b"a", 2, -1),
        (b"a=-1|a=-2", b"a", 2, -1),
        (b"a=-2|a", b"a", 2, 0),
        (b"a=-2|a=3", b"a", 2, 3),
        (b"a=-3|a=-2|a=-9", b"a", 3, -2),
        (b"(a=-5|a=-2)(b=1|b=-4)", b"ab", 4, -1),
        (b"(a=-1b=1|ab)*", b"abab", 4, 0),
        (b"(a=-1b=-1|ab=-1)*", b"abab", 4, -2),
        (b"(a=-1|b|ab=-3)*c=1", b"abc", 2, 0),
        (b"(a=-3|b=2)*", b"abba", 1, -2),
        (b"(a=-3|b=2)*", b"bbb", 1, 6),
        (b"(a=-3|b=2)*", b"aabbb", 1, 0),
        // 0 with a reading
        (b"a=-1b=1", b"ab", 1, 0),
        (b"a=1b=-1", b"ab", 1, 0),
        (b"a=-9b=4c=5", b"abc", 1, 0),
        // a path that earns more and ends nowhere
        (b"a=-5b|a=-1c", b"ab", 1, -5),
        (b"a=9b|a=-9c", b"ac", 1, -9),
        (b"(a=9b|a=-9)*", b"aab", 1, 0),
        // the empty answer
        (b"a=-5*", b"", 1, 0),
        (b"a=-5?", b"", 1, 0),
        (b"(a=-5|b=-1*)+", b"", 1, 0),
        (b"a=-5?", b"a", 1, -5),
        (b"a=-5?a=-3?", b"a", 2, -3),
        // no reading
        (b"a=-5", b"b", 0, 0),
        (b"a=-5", b"", 0, 0),
        (b"a=-5", b"aa", 0, 0),
        (b"a=-5b=-5", b"a", 0, 0),
        (b"a=-5+|b=-1", b"ab", 0, 0),
        // repeats and links
        (b"a=-1*", b"aaa", 1, -3),
        (b"a=-1+", b"aaa", 1, -3),
        (b"(a=-1*)*", b"aaa", 4, -3),
        (b"((a=-9*)*)*", b"aaa", 9, -27),
        (b"a=-1*a=-2*", b"aaa", 4, -3),
        (b"(a=-1*b=2?)*", b"aab", 4, 0),
        (b"\xe9=-2", b"\xe9", 1, -2),
        (b"(\xe9=-2|[\xe0-\xff]=-1)t=-3", b"\xe9t", 2, -4),
    ];
    for (pattern, answer, count, best) in short {
        earns(t, pattern, answer, count, best);
    }
    for (pattern, each) in [(&b"a=-9*"[..], -9), (b"a=9*", 9), (b"a=-1*", -1), (b"(a=-9)+", -9), (b"[ -\xff]=-9*", -9)] {
        for n in [1, 2, 255, 256, 4095, 4096] {
            earns(t, pattern, &vec![b'a'; n], 1, each * n as i32);
        }
    }
    // from 36,864 off to as many earned
    for off in [0, 1, 2, 1000, 2047, 2048, 2049, 4095, 4096] {
        let answer = [vec![b'a'; off], vec![b'b'; 4096 - off]].concat();
        earns(t, b"(a=-9|b=9)*", &answer, 1, 9 * (4096 - 2 * off as i32));
        earns(t, b"a=-9*b=9*", &answer, 1, 9 * (4096 - 2 * off as i32));
    }
    let power = |base: u64, n: usize| base.checked_pow(n as u32).map_or(MOST, |count| count.min(MOST));
    for n in [0, 1, 2, 3, 12, 40, 41, 62, 63, 64, 4096] {
        let answer = vec![b'a'; n];
        for (pattern, each) in [(&b"(a=-1|a=1)*"[..], 1), (b"(a=1|a=-1)*", 1), (b"(a=-1|a=-2)*", -1), (b"(a=-9|a=-9)*", -9), (b"(a=-9|a)*", 0)] {
            earns(t, pattern, &answer, power(2, n), each * n as i32);
        }
        earns(t, b"(a=-1*)*", &answer, power(2, n.saturating_sub(1)), -(n as i32));
        earns(t, b"((a=-9*)*)*", &answer, power(3, n.saturating_sub(1)), -9 * n as i32);
    }
    // one letter after another, a or b, by the binary digits of a number
    for k in 0..64 {
        let answer: Vec<u8> = (0..6).map(|i| b"ab"[k >> i & 1]).collect();
        let b = k.count_ones() as i32;
        earns(t, b"(a=-3|b=2)*", &answer, 1, 2 * b - 3 * (6 - b));
        earns(t, b"(a=-3|b=2|[ab]=-1)*", &answer, 64, 2 * b - (6 - b));
        earns(t, b"([ab]=-3|.=-2)*", &answer, 64, -12);
    }
    for n in [1, 2, 31, 62, 63, 2048] {
        let answer = b"ab".repeat(n);
        earns(t, b"(a=-1b=1|ab)*", &answer, power(2, n), 0);
        earns(t, b"(a=-1b=2|a=1b=-3)*", &answer, power(2, n), n as i32);
        earns(t, b"(a=-1b=-2|a=1b=-5)*", &answer, power(2, n), -3 * n as i32);
        earns(t, b"(a=-1b=-2|a=1b=-5)*", &answer[1..], 0, 0);
    }
    // no reading of a long answer, which goes wrong at its first letters, in the middle or at its last
    for at in [0, 1, 2, 100, 2048, 4094, 4095] {
        let mut answer = vec![b'a'; 4096];
        answer[at] = b'b';
        for pattern in [&b"a=-5*"[..], b"a=5*", b"(a=-1|a=-2)*", b"(a=-1*)*", b"a=-9+(ca=-1)*", b"(a=-1|b=-2c)*"] {
            earns(t, pattern, &answer, 0, 0);
        }
    }
    earns(t, b"(a=-1|a=2)*b=-3", &[b'a'; 4096], 0, 0);
    t.same(mark(b"a=-1*", &[b'a'; 4097]), Ok(Marked::Refused(9)), "4,097 letters, each one off");
    t.same(mark(b"a=-1*", b"aa\n"), Ok(Marked::Refused(10)), "no letter after two that are one off");
    // sixty positions and no more
    let sixty = |atom: &[u8]| [&[b'a'; 59][..], atom].concat();
    earns(t, &sixty(b"a=-9"), &[b'a'; 60], 1, -9);
    earns(t, &b"a=-9".repeat(60), &[b'a'; 60], 1, -540);
    earns(t, &sixty(b"[b-d]=-4*"), &sixty(b"bcd"), 1, -12);
    earns(t, &[b"(", &b"a=-9|".repeat(59)[..], b"a=-8)*"].concat(), b"aa", 3600, -16);
    refuses(t, &b"a=-9".repeat(61), 8);
    for before in [60, 61, 100, 508] {
        refuses(t, &[&vec![b'a'; before][..], b"a=-9"].concat(), 8);
        refuses(t, &[&vec![b'a'; before][..], b"a=-0"].concat(), 5);
    }
}

/// Refused by the library and by the model.
fn refused_as_in_model(t: &mut Tally, pattern: &[u8], refusal: u8) {
    refuses(t, pattern, refusal);
    t.same(model::read(pattern).err(), Some(refusal), &format!("the model: {}", show(pattern)));
}

/// What stands after `=` and after `=-`, byte by byte, and what is no credit.
fn credit_bytes(t: &mut Tally) {
    // what is no credit; a credit where none may stand, or with something after it that may not
    let broken = b"a=-0 a=- a=--1 a=+1 a=-: a=-/ a=-a a=-. a=-? a=-* a=-|b (a=-) a=-\\1 a=-(1) a=-[1] a=-=1 a=0-1 a=\xad1 a=-\xb9 [a]=- .=-0 \\==-";
    let misplaced = b"=-1 (=-1) a|=-1 (a)=-1 (a|b)=-2 (a=-1)=-1 a*=-1 a?=-1 a=-1=1 a=1=-1 a=-1=-1 a=1= a=-1= a=-1** a=-1+? a=-1) \\=-=-";
    let words = broken.split(|b| *b == b' ').chain(misplaced.split(|b| *b == b' '));
    for pattern in words.chain([&b"a=- 1"[..], b"a= -1", b" =- ", b"\xe9=-"]) {
        refused_as_in_model(t, pattern, 5);
        for (before, after) in [(&b"b=-1"[..], &b""[..]), (b"(b)", b""), (b"(b|", b")*"), (b"b=2|", b"|d")] {
            refused_as_in_model(t, &[before, pattern, after].concat(), 5);
        }
    }
    refused_as_in_model(t, b"a=\xe2\x88\x921", 4); // the minus sign in UTF-8
    refused_as_in_model(t, b"[a=-1]", 6); // a range in a class
    refused_as_in_model(t, b"[^ -\xff]=-1", 7);
    let good: [(&[u8], &[u8], i32); 31] = [
        (b"a=1-", b"a-", 1),
        (b"a=-1-", b"a-", -1),
        (b"a-=1", b"a-", 1),
        (b"a-=-1", b"a-", -1),
        (b"a=-10", b"a0", -1),
        (b"a=-99", b"a9", -9),
        (b"a=1-1", b"a-1", 1),
        (b"a=-1-2", b"a-2", -1),
        (b"a=-1--", b"a--", -1),
        (b"a=-1-=-2", b"a-", -3),
        (b"a=-1+", b"a", -1),
        (b"a=-1+1", b"aa1", -2),
        (b"[a-c]=-3*", b"abc", -9),
        (b"[a-c]=-3", b"b", -3),
        (b"[^a]=-3", b"b", -3),
        (b"[\\-]=-3", b"-", -3),
        (b"[=-z]=-3", b"=", -3),
        (b"[a=\\-1]=-3*", b"=-1a", -12),
        (b"\\==-3", b"=", -3),
        (b"\\==-3\\==3", b"==", 0),
        (b"a\\=-", b"a=-", 0),
        (b"a\\=-1", b"a=-1", 0),
        (b".=-4", b"x", -4),
        (b"-=-1", b"-", -1),
        (b"--=-1", b"--", -1),
        (b"-", b"-", 0),
        (b"1=-1", b"1", -1),
        (b"(a=-1)", b"a", -1),
        (b"(a=-1)*b=-2", b"aab", -4),
        (b"\xe9=-2\xad", b"\xe9\xad", -2),
        (b"\xff=-9*", b"\xff\xff", -18),
    ];
    for (pattern, answer, best) in good {
        earns(t, pattern, answer, 1, best);
    }
    for b in 0..=255u8 {
        let refusal = if model::is_letter(b) { 5 } else { 4 };
        for (before, sign) in [(&b"a="[..], 1), (b"a=-", -1)] {
            // nothing after it, or a 1, which is a letter but in a=-1
            let (last, more) = ([before, &[b]].concat(), [before, &[b, b'1']].concat());
            if (b'1'..=b'9').contains(&b) {
                earns(t, &last, b"a", 1, sign * i32::from(b - b'0'));
                earns(t, &more, b"a1", 1, sign * i32::from(b - b'0'));
            } else {
                refused_as_in_model(t, &last, refusal);
                if more != b"a=-1" {
                    refused_as_in_model(t, &more, refusal);
                }
            }
        }
        // after a whole credit: a letter of its own, or a repeat
        for (sign, credit) in [(&b"a=1"[..], 1), (b"a=-1", -1)] {
            let pattern = [sign, &[b]].concat();
            match b {
                b'*' | b'+' | b'?' => earns(t, &pattern, b"a", 1, credit),
                b'.' => earns(t, &pattern, b"ax", 1, credit),
                _ if model::is_letter(b) && !b"|()[]{}^$\\=".contains(&b) => earns(t, &pattern, &[b'a', b], 1, credit),
                _ => refused_as_in_model(t, &pattern, refusal),
            }
        }
    }
    // at the last of 512 bytes
    let class = |n: usize, credit: &[u8]| [&b"["[..], &vec![b'a'; n], b"]", credit].concat();
    earns(t, &class(507, b"=-1"), b"a", 1, -1);
    earns(t, &class(507, b"=-9"), b"b", 0, 0);
    for (n, credit, refusal) in [(508, &b"=-"[..], 5), (507, b"=-0", 5), (507, b"=--", 5), (509, b"=", 5), (508, b"=-1", 3), (509, b"=-", 3)] {
        refused_as_in_model(t, &class(n, credit), refusal);
    }
    for (n, refusal) in [(508, 5), (509, 5), (510, 3)] {
        refused_as_in_model(t, &[&vec![b'a'; n][..], b"a=-"].concat(), refusal);
    }
}

/// Patterns in which `#` stands for a credit or for none: what is vetted and counted is the same, whatever the credits are.
fn credits_apart(t: &mut Tally) {
    let answers = [&b""[..], b"a", b"ab", b"abab", b"aaa", b"color", b"abc", b"m", b"=-", b"\xe9\xe9", b"a\n", &[b'a'; 64]].map(<[u8]>::to_vec);
    for (pattern, verdict) in [
        (&b"c#olo#u#?r#"[..], 0),
        (b"(a#|a#)b#", 1),
        (b"(a#|b#|a#b#)*c#", 2),
        (b"a#*a#*", 1),
        (b"(a#*)*", 2),
        (b"((a#?b#?)*)*", 2),
        (b"(a#b#*)*", 0),
        (b"[a-m]#*[m-z]#*", 1),
        (b"[a-l]#*[m-z]#*", 0),
        (b"(.#|[^a]#)+\\*#", 2),
        (b"\\=#?\\=#?-#", 1),
        (b"(\xe9#|[\xe0-\xff]#)*", 2),
    ] {
        let with = |credits: &[&[u8]]| {
            let mut next = credits.iter().cycle();
            pattern.iter().flat_map(|b| if *b == b'#' { next.next().unwrap().to_vec() } else { vec![*b] }).collect::<Vec<u8>>()
        };
        let plain = with(&[b""]);
        verdict_is(t, &plain, verdict);
        for credits in [&[&b"=-1"[..]][..], &[b"=-9"], &[b"=9"], &[b"=-9", b"=9"], &[b"=1", b"=-1"], &[b"", b"=-5", b"=2"], &[b"=-1", b"=-2", b""]] {
            let text = with(credits);
            verdict_is(t, &text, verdict);
            without_credits(t, &text, &plain, &answers);
        }
    }
}

/// Refused by vet, by vet in lent scratch and by mark, and by the model; no memory is changed.
fn refused_everywhere(t: &mut Tally, pattern: &[u8], refusal: u8) {
    refused_as_in_model(t, pattern, refusal);
    t.same(vet_in(pattern, EVIDENCE, SCRATCH, 11), Ok(Vetted::Refused(refusal)), &format!("vet {} in lent scratch", show(pattern)));
}

/// Accepted, with so many positions, and what the model has.
fn accepted(t: &mut Tally, pattern: &[u8], positions: usize) {
    let got = vet(pattern, EVIDENCE, 11);
    let found = matches!(&got, Ok(Vetted::Verdict { positions: n, .. }) if *n == positions);
    t.check(found, || format!("vet {}: {got:?}, want {positions} positions", show(pattern)));
    t.same(model::read(pattern).map(|p| p.positions.len()), Ok(positions), &format!("the model: {}", show(pattern)));
}

/// Refused or accepted as in the model, and marked so.
fn read_as_in_model(t: &mut Tally, pattern: &[u8]) {
    match model::read(pattern) {
        Err(refusal) => refuses(t, pattern, refusal),
        Ok(p) => {
            accepted(t, pattern, p.positions.len());
            for answer in [&b""[..], b"a", b"aa", b"aaa", b"b", b"ab", b"aab", b"aaaaaaaaaaaa"] {
                as_in_model(t, pattern, &p, answer, None);
            }
        }
    }
}

/// Intervals: verdicts, positions, counts and marks.
fn intervals(t: &mut Tally) {
    let verdicts: [(&[u8], u8, usize); 37] = [
        (b"a{3}", 0, 3),
        (b"a{0,3}", 0, 3),
        (b"a{1,1}", 0, 1),
        (b"a{0,1}", 0, 1),
        (b"a{0,}", 0, 1),
        (b"a{1,}", 0, 1),
        (b"a{2,}", 0, 2),
        (b"a{007}", 0, 7),
        (b"a{001,002}", 0, 2),
        (b"(a|b){2}", 0, 4),
        (b"(a|a){2}", 1, 4),
        (b"(a{1,2}){2}", 1, 4),
        (b"(a{1,2})*", 2, 2),
        (b"(a{2})*", 0, 2),
        (b"(a{2,})*", 2, 2),
        (b"(a{0,2})*", 2, 2),
        (b"(a{1,2}b)*", 0, 3),
        (b"(a*){2}", 1, 2),
        (b"(a*){1}", 0, 1),
        (b"(a*){1,2}", 1, 2),
        (b"(a*){2,}", 2, 2),
        (b"(a*){0,}", 2, 1),
        (b"(a+){1,}", 2, 1),
        (b"(a?){3}", 1, 3),
        (b"(a?){0,3}", 1, 3),
        (b"(a?){0,}", 0, 1),
        (b"(a?){2,}", 1, 2),
        (b"((a*)*){2}", 2, 2),
        (b"a{2}a{2}", 0, 4),
        (b"a{1,2}a{1,2}", 1, 4),
        (b"a{1,}a{1,}", 1, 2),
        (b"((a{2}){2}){2}", 0, 8),
        (b"((a{0,2}){0,2}){0,2}", 1, 8),
        (b"[0-9]{2}/[0-9]{2}/[0-9]{4}", 0, 10),
        (b"[a-m]{0,3}[m-z]{0,3}", 1, 6),
        (b"\xe9{2}[\xe0-\xff]{1,2}", 0, 4),
        (b"(a=1|a=-1){3}", 1, 6),
    ];
    for (pattern, verdict, positions) in verdicts {
        verdict_is(t, pattern, verdict);
        accepted(t, pattern, positions);
        t.same(vet_in(pattern, EVIDENCE, SCRATCH, 3), vet(pattern, EVIDENCE, 3), &format!("vet {} in lent scratch", show(pattern)));
    }
    let counted: [(&[u8], &[u8], u64, i32); 44] = [
        (b"a{3}", b"aaa", 1, 0),
        (b"a{3}", b"aa", 0, 0),
        (b"a{3}", b"aaaa", 0, 0),
        (b"a{0,3}", b"", 1, 0),
        (b"a{0,3}", b"aa", 1, 0),
        (b"a{0,3}", b"aaa", 1, 0),
        (b"a{0,3}", b"aaaa", 0, 0),
        (b"a{1,3}", b"", 0, 0),
        (b"a{2,}", b"a", 0, 0),
        (b"a{2,}", b"aa", 1, 0),
        (b"a{2,}", b"aaaa", 1, 0),
        (b"a{0,}", b"", 1, 0),
        (b"a{0,}", b"aaaa", 1, 0),
        (b"a{1,}", b"", 0, 0),
        (b"(a|b){2}", b"ab", 1, 0),
        (b"(a|b){2}", b"bb", 1, 0),
        (b"(a|b){2}", b"a", 0, 0),
        (b"(a|b){2}", b"aba", 0, 0),
        (b"(a|a){3}", b"aaa", 8, 0),
        (b"(a*){2}", b"aa", 3, 0),
        (b"(a*){2}", b"", 1, 0),
        (b"(a*){3}", b"aa", 6, 0),
        (b"(a*){0,2}", b"aa", 3, 0),
        (b"(a?){3}", b"aa", 3, 0),
        (b"(a?){0,3}", b"aa", 3, 0),
        (b"(a?){0,3}", b"", 1, 0),
        (b"(a*){0,}", b"aaa", 4, 0),
        (b"(a*){2,}", b"aa", 4, 0),
        (b"(a{1,2}){2}", b"aaa", 2, 0),
        (b"(a{1,2})*", b"aaaa", 5, 0),
        (b"((a*)*){2}", b"aa", 5, 0),
        (b"a{2}b{2}", b"aabb", 1, 0),
        (b"a{2}|b{3}", b"bbb", 1, 0),
        (b"ba{2}", b"baa", 1, 0),
        (b"(ab=1){2}", b"abab", 1, 2),
        (b"a=1{3}", b"aaa", 1, 3),
        (b"a=-2{3}", b"aaa", 1, -6),
        (b"a=12{3}", b"a222", 1, 1),
        (b"[a-c]=-3{0,2}", b"bc", 1, -6),
        (b"(a=1|a=-1){3}", b"aaa", 8, 3),
        (b"(a=1{2}|a=-1){1,2}", b"aa", 2, 2),
        (b"a\\{2\\}", b"a{2}", 1, 0),
        (b"[{2}]{3}", b"{2}", 1, 0),
        (b"\\{{2}\\}=1{2}", b"{{}}", 1, 2),
    ];
    for (pattern, answer, count, best) in counted {
        earns(t, pattern, answer, count, best);
    }
    // the last positions, by one interval, by several and by those in others
    for (pattern, positions) in [
        (&b"a{60}"[..], 60),
        (b"a{0,60}", 60),
        (b"a{59,60}", 60),
        (b"a{60,}", 60),
        (b"(ab){30}", 60),
        (b"((a|b)c){20}", 60),
        (b"((((a{2}){2}){3}){5})", 60),
        (b"a{30}b{30}", 60),
        (b"a{59}b", 60),
        (b"ab{59}", 60),
        (b"((a|b)*c){20}", 60),
        (b"[a-z]=-9{60}", 60),
        (b"(((((((a{1}){1}){1}){1}){1}){1}){1}){60}", 60),
        (b"(a{20}|b{20}){1}c{20}", 60),
    ] {
        verdict_is(t, pattern, 0);
        accepted(t, pattern, positions);
        let p = model::read(pattern).expect("a good pattern");
        for answer in [vec![b'a'; 59], vec![b'a'; 60], vec![b'a'; 61], b"ab".repeat(30), b"acbc".repeat(10), [b"ab", &[b'c'; 20][..]].concat()] {
            as_in_model(t, pattern, &p, &answer, None);
        }
    }
    for pattern in [
        &b"a{61}"[..],
        b"a{0,61}",
        b"a{61,}",
        b"a{255}",
        b"a{255,}",
        b"a{0,255}",
        b"a{255,255}",
        b"(ab){31}",
        b"(ab){30}a",
        b"a(ab){30}",
        b"((a{2}){2}){16}",
        b"a{30}b{31}",
        b"a{60}b",
        b"(a{60}){2}",
        b"(a{31}){2}",
        b"(a{255}){255}",
        b"((((((((a{255}){255}){255}){255}){255}){255}){255}){255}){255}",
        b"a{255}b{255}",
        b"(a{61}|b){1}",
        b"(a{61})*",
    ] {
        refused_everywhere(t, pattern, 8);
    }
    // sixty positions that are all ends
    for n in 0..=61 {
        let count = u64::from(n <= 60);
        earns(t, b"a=1{0,60}", &vec![b'a'; n], count, (n * count as usize) as i32);
        earns(t, b"a=-1{30,60}", &vec![b'a'; n], u64::from((30..=60).contains(&n)), if (30..=60).contains(&n) { -(n as i32) } else { 0 });
        earns(t, b"a=2{60,}", &vec![b'a'; n + 59], u64::from(n > 0), if n > 0 { 2 * (n as i32 + 59) } else { 0 });
    }
}

/// Intervals that the grammar does not have, and braces where none may stand.
fn broken_intervals(t: &mut Tally) {
    let after_an_atom = b"{} {,} {,3} {;} {1;2} {1.2} {-1} {+1} {1,-2} {1-2} {a} {1a} {a1} {1,a} {1,2,3} {1,2,} {1,,2} {,1,2} \
        {1 {1, {1,2 { {{1}} {{1} {1}} {1}2} {0001} {0000} {1000} {9999} {0001,} {1000,} {1,0001} {1,1000} {0001,2} {1000,2000} \
        {00000000000000000001} {18446744073709551617} {2}* {2}+ {2}? {2}{2} {2,}* {0,1}? {1,2}+ {2,}{2} {0,1}{0,1} *{2} +{2} ?{2} \
        *{2,} ?{0,1} {2}** {2}*{2} {2}=1 {2}=-1 {=1} {1=1} {2}{ {2}} \\{2} {2\\} {\\2} {(1)} {[1]} {*} {?} {+} {|} {1|2} {1*} {.} \
        {^} {$} [{2}]} {\xb2} {\xbc} {1,\xb9}";
    let elsewhere = b"{ } {2} {2}a ({2}) ({2}a) a|{2} {2}|a (a|{2}) a} {} a{2}} (a}) [a]} ^{2} ${2} a\\{2} \\{2} ={2} (a){2}= \
        a=1{2}=1 a={2} a=-{2} a=0{2} (a)=1{2} a{2}) ((a){2} (){2} |{2}";
    let spaces = [&b"{ 1}"[..], b"{1 }", b"{ }", b"{1, 2}", b"{1 ,2}", b"{ 1,}", b"{1,2 }", b" {1 }"];
    for interval in after_an_atom.split(|b| *b == b' ').filter(|i| !i.is_empty()).chain(spaces) {
        for atom in [&b"a"[..], b"(a)", b"(a|b)", b"[a-c]", b".", b"\\{", b"a=1", b"b=-2", b"a{2}b", b"\xe9", b"aaa"] {
            refused_everywhere(t, &[atom, interval].concat(), 5);
        }
        for (before, after) in [(&b"(a"[..], &b")"[..]), (b"b|a", b"|c"), (b"a{0}a", b""), (b"[z-a]a", b"[^ -\xff]"), (b"a{61}a", b"b{3,2}")] {
            refused_everywhere(t, &[before, interval, after].concat(), 5);
        }
    }
    for pattern in elsewhere.split(|b| *b == b' ') {
        refused_everywhere(t, pattern, 5);
        refused_everywhere(t, &[b"a|", pattern].concat(), 5);
    }
    // the pattern ends in the middle of it
    for whole in [&b"a{1,2}"[..], b"(a){25,250}", b"[ab]{007,}", b"a=1{60}"] {
        let open = whole.iter().position(|b| *b == b'{').unwrap();
        for end in open + 1..whole.len() {
            refused_everywhere(t, &whole[..end], 5);
            refused_everywhere(t, &[b"(", &whole[..end], b")"].concat(), 5);
        }
    }
    // at the last of 512 bytes
    for (tail, refusal) in [(&b"{2}"[..], 8), (b"{2", 5), (b"{", 5), (b"{1,2}", 8), (b"{1,2", 5), (b"{1,", 5), (b"{0}", 11), (b"{999,}", 11)] {
        refused_everywhere(t, &[&vec![b'a'; 512 - tail.len()], tail].concat(), refusal);
        refused_everywhere(t, &[&vec![b'a'; 513 - tail.len()], tail].concat(), 3);
        let class = [b"[", &vec![b'a'; 510 - tail.len()][..], b"]", tail].concat();
        match tail {
            b"{2}" | b"{1,2}" => accepted(t, &class, 2),
            _ => refused_everywhere(t, &class, refusal),
        }
    }
}

/// Every byte inside an interval and after it.
fn interval_bytes(t: &mut Tally) {
    let frames: [(&[u8], &[u8]); 16] = [
        (b"a{", b"}"),
        (b"a{", b"1}"),
        (b"a{1", b"}"),
        (b"a{1", b"2}"),
        (b"a{", b",2}"),
        (b"a{1,", b"}"),
        (b"a{1,", b"2}"),
        (b"a{1,2", b"}"),
        (b"a{1,2}", b""),
        (b"a{1}", b"a"),
        (b"a{1", b""),
        (b"a{1,2", b""),
        (b"(a", b"{2})"),
        (b"(a)", b"{2}"),
        (b"a", b"2}"),
        (b"a{2", b"b"),
    ];
    for b in 0..=255u8 {
        for (before, after) in frames {
            read_as_in_model(t, &[before, &[b], after].concat());
        }
    }
}

/// Every bound of one, two and three digits, on both sides.
fn interval_bounds(t: &mut Tally) {
    for n in 0..=999 {
        let is = |t: &mut Tally, pattern: String, lower: usize, upper: Option<usize>| {
            let out = lower > 255 || upper.is_some_and(|u| u == 0 || u < lower || u > 255);
            match upper.unwrap_or(lower.max(1)) {
                _ if out => refused_everywhere(t, pattern.as_bytes(), 11),
                copies if copies > 60 => refused_everywhere(t, pattern.as_bytes(), 8),
                copies => accepted(t, pattern.as_bytes(), copies),
            }
        };
        is(t, format!("a{{{n}}}"), n, Some(n));
        is(t, format!("(a){{{n:03}}}"), n, Some(n));
        is(t, format!("a=1{{{n},}}"), n, None);
        is(t, format!("[ab]{{{n:02},{n}}}"), n, Some(n));
        is(t, format!("a{{0,{n}}}"), 0, Some(n));
        is(t, format!("(a){{59,{n:03}}}"), 59, Some(n));
        is(t, format!("a{{{n},60}}"), n, Some(60));
        is(t, format!("a{{{n},255}}"), n, Some(255));
        is(t, format!("a{{{n},256}}"), n, Some(256));
        is(t, format!("a{{256,{n}}}"), 256, Some(n));
        is(t, format!("a{{{n},0}}"), n, Some(0));
    }
}

/// Refusal 11 comes after 5, 6 and 7, wherever what they name stands, and before 8.
fn interval_refusals(t: &mut Tally) {
    let bad = "a{0} a{0,0} a{00,000} (a){0} a{3,2} a{256} a{256,} a{2,256} a{999,999} (a|b){1,0} [ab]=1{300} .{2,1}";
    let first: [(&[u8], u8); 9] = [
        (b"[z-a]", 6),
        (b"[^ -\xff]", 7),
        (b"[z-a]{0}", 6),
        (b"[z-a]{61}", 6),
        (b"[^ -\xff]{3,2}", 7),
        (b"{", 5),
        (b"a**", 5),
        (b"a{1000}", 5),
        (b"[z-a]{2}{2}", 5),
    ];
    for b in bad.split(' ') {
        for pattern in [
            b.to_string(),
            format!("({b})*"),
            format!("({b}){{2}}"),
            format!("({b}){{61}}"),
            format!("({b}){{0}}"),
            format!("((({b})))"),
            format!("a{{61}}{b}"),
            format!("{b}a{{61}}"),
            format!("{b}|a{{255}}"),
            format!("(a{{60}}){{60}}|{b}"),
            format!("{}{b}", "a".repeat(100)),
            format!("{b}{}", "a".repeat(100)),
            format!("b{{2}}{b}c{{2}}"),
            format!("{b}{b}"),
        ] {
            refused_everywhere(t, pattern.as_bytes(), 11);
            for (wrong, refusal) in first {
                refused_everywhere(t, &[wrong, pattern.as_bytes()].concat(), refusal);
                refused_everywhere(t, &[pattern.as_bytes(), wrong].concat(), refusal);
            }
            refused_everywhere(t, &[b"[^ -\xff]", pattern.as_bytes(), b"[z-a]"].concat(), 6);
            refused_everywhere(t, &[pattern.as_bytes(), b"\t"].concat(), 4);
            t.same(vet(pattern.as_bytes(), 4095, 1), Ok(Vetted::Refused(1)), "refusal 1 before 11");
            t.same(vet_in(pattern.as_bytes(), EVIDENCE, 4095, 1), Ok(Vetted::Refused(2)), "refusal 2 before 11");
            t.same(mark(pattern.as_bytes(), &[10; 4097]), Ok(Marked::Refused(11)), "refusal 11 before 9 and 10");
        }
    }
    refused_everywhere(t, b"a{61}b{0}", 11);
    refused_everywhere(t, b"[z-a]{0}", 6);
    refused_everywhere(t, b"[^ -\xff]{0}", 7);
    refused_everywhere(t, b"[^ -\xff]{2}", 7);
    refused_everywhere(t, b"[^ -\xff]{61}", 7);
    refused_everywhere(t, b"([z-a]|b){2}", 6);
    // deep ones, all out of bounds, or all but one
    for bad in ["{0}", "{256}", "{2,1}"] {
        for times in [1, 2, 60, 73] {
            refused_everywhere(t, format!("{}a{}", "(".repeat(times), format!("){bad}").repeat(times)).as_bytes(), 11);
            refused_everywhere(t, format!("{}a{bad}{}", "(".repeat(times), "){9}".repeat(times - 1) + ")").as_bytes(), 11);
            refused_everywhere(t, format!("{}a{}{bad}", "(".repeat(times), "){9}".repeat(times - 1) + ")").as_bytes(), 11);
        }
    }
}

/// Intervals in intervals, up to 512 bytes of them.
fn deep_intervals(t: &mut Tally) {
    let deep = |part: &str, times: usize, interval: &str| format!("{}{part}{}", "(".repeat(times), format!("){interval}").repeat(times)).into_bytes();
    for times in [1, 2, 50, 72, 73, 85, 86, 102, 103] {
        for (interval, verdict, links) in [("{1}", 0, 0), ("{1,1}", 0, 0), ("{0,1}", 0, 0), ("{1,}", 2, times as u64), ("{0,}", 2, times as u64)] {
            let pattern = deep("a", times, interval);
            if pattern.len() > 512 {
                refused_everywhere(t, &pattern, 3);
                continue;
            }
            verdict_is(t, &pattern, if verdict == 2 && times == 1 { 0 } else { verdict });
            accepted(t, &pattern, 1);
            earns(t, &pattern, b"a", 1, 0);
            earns(t, &pattern, b"aa", links, 0);
            earns(t, &pattern, b"aaa", links * links, 0);
        }
    }
    for times in 1..=100 {
        for bound in ["{2}", "{3}", "{1,2}", "{0,2}", "{60}", "{2,}", "{255}"] {
            let pattern = deep("a", times, bound);
            if pattern.len() <= 512 && times > 5 {
                refused_everywhere(t, &pattern, 8);
            } else if pattern.len() <= 512 {
                read_as_in_model(t, &pattern);
            }
        }
    }
    // links by the hundred, in copies
    for (times, copies) in [(1, 2), (2, 2), (50, 2), (126, 2), (126, 3), (126, 60), (168, 2), (168, 9), (167, 60)] {
        let pattern = format!("({}){{{copies}}}", nest("a*", times, '*'));
        accepted(t, pattern.as_bytes(), copies);
        verdict_is(t, pattern.as_bytes(), 2);
        let p = model::read(pattern.as_bytes()).expect("a good pattern");
        for n in [0, 1, 2, 3, 5, 9, 30] {
            as_in_model(t, pattern.as_bytes(), &p, &vec![b'a'; n], None);
        }
    }
}

/// A pattern and the text of it without intervals: the library takes both for one, and the model takes the second for what the library makes
/// of the first, also where it is too long for the library. `vetted`: the verdict too.
fn as_written_out(t: &mut Tally, text: &[u8], plain: &[u8], answers: &[Vec<u8>], vetted: bool) {
    let name = format!("{}, as {} ({} bytes)", show(text), show(&plain[..plain.len().min(100)]), plain.len());
    if plain.len() <= 512 {
        t.same(vet(text, EVIDENCE, 2), vet(plain, EVIDENCE, 2), &format!("vet {name}"));
        for answer in answers {
            t.same(mark(text, answer), mark(plain, answer), &format!("mark {} by {name}", show(answer)));
        }
    }
    match model::read_any_length(plain) {
        Err(refusal) => refuses(t, text, refusal),
        Ok(p) => {
            for answer in answers {
                as_in_model(t, text, &p, answer, None);
            }
            if vetted {
                evidence(t, text, &p, p.verdict());
            }
            // and what the model itself makes of the first
            let facts = |p: model::Pattern| {
                let positions: Vec<_> = p.positions.into_iter().map(|i| (i.letters, i.credit)).collect();
                (positions, p.empty, p.firsts, p.lasts, p.links)
            };
            t.check(model::read(text).map(facts) == Ok(facts(p)), || format!("the model: {name}"));
        }
    }
}

/// Copies, also of what can be empty, beside the platform's matcher: every text of a few letters.
fn copies_by_regexec(t: &mut Tally) {
    let mut answers: Vec<Vec<u8>> = vec![Vec::new()];
    for k in 0..127 {
        answers.extend(b"ab".map(|b| [&answers[k][..], &[b]].concat()));
    }
    answers.extend((8..=14).map(|n| vec![b'a'; n]));
    for pattern in [
        &b"a{3}"[..],
        b"a{0,3}",
        b"a{2,}",
        b"(a|b){2}",
        b"[ab]{2,5}",
        b"(a|ab){2,4}",
        b"(a|ab|b){0,3}",
        b"(a*){3}",
        b"(a*){0,2}",
        b"(a*){2,}",
        b"(a?){5}",
        b"(a?){0,5}",
        b"(a?b?){4}",
        b"(a?b?){2,}",
        b"(a+){2,}",
        b"(ab?){3,}",
        b"(a{1,2}){2}",
        b"(a{1,2})*",
        b"(a{2}){2,}",
        b"(a{2,3}){2,3}",
        b"(a{0,2}b){1,3}",
        b"((a|b{2}){2}){1,2}",
        b"((ab){1,2}|a){2}",
        b"((a?){2}b){0,2}",
        b"((a*b){2}){0,2}",
        b"((a{1,2}){1,2}){1,2}",
        b"a{0,3}b{2,}a{1}",
        b"(a{0,}|b{2}){2}",
    ] {
        let p = model::read(pattern).expect("a good pattern");
        let regex = posix::Regex::new(&p);
        t.check(regex.is_some(), || format!("regcomp of {}", show(pattern)));
        for answer in &answers {
            as_in_model(t, pattern, &p, answer, regex.as_ref());
        }
    }
}

/// More bytes than the text of an accepted pattern without intervals has.
const WRITTEN: usize = 1 << 16;

/// Intervals beside what they stand for, written by hand.
fn written_by_hand(t: &mut Tally) {
    let short: [(&str, &str); 40] = [
        ("a{1}", "a"),
        ("a{3}", "aaa"),
        ("a{2,4}", "aa(a(a)?)?"),
        ("a{0,1}", "(a)?"),
        ("a{0,3}", "(a(a(a)?)?)?"),
        ("a{0,}", "a*"),
        ("a{1,}", "a+"),
        ("a{3,}", "aaa+"),
        ("a{1,1}", "a"),
        ("a{007}b", "aaaaaaab"),
        ("(x){2,}", "(x)(x)+"),
        ("(x){0,}", "(x)*"),
        ("(a|b){2}", "(a|b)(a|b)"),
        ("(a|b){1,2}", "(a|b)((a|b))?"),
        ("(ab){2}c{2}", "(ab)(ab)cc"),
        ("ab{2}", "abb"),
        ("ab{2}|c{2}d", "abb|ccd"),
        ("a=1{2}", "a=1a=1"),
        ("a=-1{2,}", "a=-1a=-1+"),
        ("(a=1b=-2){2}", "(a=1b=-2)(a=1b=-2)"),
        ("[a-c]{2}", "[a-c][a-c]"),
        ("[a\\]{2}]{2}", "[a\\]{2}][a\\]{2}]"),
        ("[^a]=2{2}", "[^a]=2[^a]=2"),
        (".{2}", ".."),
        ("\\{{2}", "\\{\\{"),
        ("\\\\{2}", "\\\\\\\\"),
        ("(a*){2}", "(a*)(a*)"),
        ("((a*)*){2}", "((a*)*)((a*)*)"),
        ("(a{2}){2}", "(aa)(aa)"),
        ("(a{1,2}){2}", "(a(a)?)(a(a)?)"),
        ("(a{1,2})*", "(a(a)?)*"),
        ("(a{2}b{0,1}){0,2}", "((aa(b)?)((aa(b)?))?)?"),
        ("((a{2}){2}){2}", "((aa)(aa))((aa)(aa))"),
        ("(a?){2,3}", "(a?)(a?)((a?))?"),
        ("(a?){2,}", "(a?)(a?)+"),
        ("(a|b*){3}", "(a|b*)(a|b*)(a|b*)"),
        ("x(a|b){2}y", "x(a|b)(a|b)y"),
        ("(a{2}|b){1,}", "(aa|b)+"),
        ("((a|b){2}|c){2}", "((a|b)(a|b)|c)((a|b)(a|b)|c)"),
        ("a{60}", "aaaaaaaaaaaaaaaaaaaaaaaaaaaaaaaaaaaaaaaaaaaaaaaaaaaaaaaaaaaa"),
    ];
    let answers = " a aa aaa aaaa aaaaa aaaaaa b ab abab aab aabaab bb bba x xx xxx xaby cc {{ \\\\ ccd aabb";
    let answers: Vec<Vec<u8>> = answers.split(' ').map(|a| a.as_bytes().to_vec()).collect();
    for (text, plain) in short {
        t.same(model::written_out(text.as_bytes(), WRITTEN).map(|w| show(&w)), Some(plain.to_string()), &format!("{text} written out"));
        as_written_out(t, text.as_bytes(), plain.as_bytes(), &answers, true);
    }
    // longer than 512 bytes
    let all = "[abcdefghijklmnopqrstuvwxyz0123456789]";
    let nested = |n: usize, part: &str| format!("{}{}", format!("({part}").repeat(n), ")?".repeat(n));
    for (text, plain, answer) in [
        (format!("{all}{{20}}"), all.repeat(20), "abcdefghij0123456789".to_string()),
        (format!("{all}{{60}}"), all.repeat(60), "a1".repeat(30)),
        (format!("{all}=2{{14,}}"), format!("{all}=2").repeat(13) + all + "=2+", "z9".repeat(20)),
        (format!("{all}{{3,40}}"), all.repeat(3) + &nested(37, all), "abc".repeat(10)),
        (format!("({all}=1|a){{30}}"), format!("({all}=1|a)").repeat(30), "a".repeat(30)),
        (format!("({all}{{2}}-){{15}}"), format!("({all}{all}-)").repeat(15), "ab-".repeat(15)),
        (format!("({all}{{1,2}}){{0,20}}"), nested(20, &format!("({all}({all})?)")), "q".repeat(25)),
        (format!("({}){{60}}", nest("a", 20, '?')), format!("({})", nest("a", 20, '?')).repeat(60), "a".repeat(60)),
        (format!("({}){{60}}", nest("a*", 20, '*')), format!("({})", nest("a*", 20, '*')).repeat(60), "aa".to_string()),
        (format!("({}){{30,}}", nest("a|b", 20, '+')), format!("({})", nest("a|b", 20, '+')).repeat(30) + "+", "ab".repeat(17)),
    ] {
        t.check(plain.len() > 512, || format!("{text} is short"));
        refuses(t, plain.as_bytes(), 3);
        let written = model::written_out(text.as_bytes(), WRITTEN).map(|w| show(&w));
        t.check(written.as_ref() == Some(&plain), || format!("{text} written out: {written:?}"));
        let mut answers = vec![answer.clone().into_bytes(), [answer.as_bytes(), b"a"].concat(), answer.as_bytes()[1..].to_vec(), Vec::new()];
        answers.push(answer.replace('a', "-").into_bytes());
        as_written_out(t, text.as_bytes(), plain.as_bytes(), &answers, plain.len() < 3000);
    }
}

/// How many letters are taken: up to and with the first at which no position is possible any more, all where there is none.
fn letters_taken(t: &mut Tally) {
    let short: [(&[u8], &[u8], u64, i32, usize); 93] = [
        // at the first letter, in the middle, at the last, never
        (b"ab", b"", 0, 0, 0),
        (b"ab", b"a", 0, 0, 1),
        (b"ab", b"ab", 1, 0, 2),
        (b"ab", b"x", 0, 0, 1),
        (b"ab", b"b", 0, 0, 1),
        (b"ab", b"xab", 0, 0, 1),
        (b"ab", b"xxxxxxxx", 0, 0, 1),
        (b"ab", b"ax", 0, 0, 2),
        (b"ab", b"axb", 0, 0, 2),
        (b"ab", b"axxxxxxx", 0, 0, 2),
        (b"ab", b"abc", 0, 0, 3),
        (b"ab", b"abcd", 0, 0, 3),
        (b"ab", b"abab", 0, 0, 3),
        (b"colou?r", b"colur", 0, 0, 4),
        (b"colou?r", b"colors", 0, 0, 6),
        (b"colou?r", b"colo", 0, 0, 4),
        (b"colou?r", b"colouur", 0, 0, 6),
        (b"(le|la) chat", b"un chat", 0, 0, 1),
        (b"(le|la) chat", b"lu chat", 0, 0, 2),
        (b"(le|la) chat", b"le chien", 0, 0, 6),
        (b"(le|la) chat", b"la cha", 0, 0, 6),
        // a branch goes on where another ends, and none does at the next letter
        (b"abc|ad", b"abd", 0, 0, 3),
        (b"abc|ad", b"adc", 0, 0, 3),
        (b"abc|ad", b"acd", 0, 0, 2),
        (b"abc|ad", b"abcc", 0, 0, 4),
        (b"abc|ad", b"abccc", 0, 0, 4),
        (b"(a|b|ab)*c", b"ababd", 0, 0, 5),
        (b"(a|b|ab)*c", b"ababda", 0, 0, 5),
        (b"(a|b|ab)*c", b"abcab", 0, 0, 4),
        (b"(a|b|ab)*c", b"ababab", 0, 0, 6),
        (b".", b"ab", 0, 0, 2),
        (b".", b"abc", 0, 0, 2),
        (b".*", b"abc~ ", 1, 0, 5),
        (b".*a", b"abc~ ", 0, 0, 5),
        (b"[^a]*", b"bca", 0, 0, 3),
        (b"[^a]*", b"bcab", 0, 0, 3),
        // the empty answer, where the pattern can be empty and where not
        (b"a*", b"", 1, 0, 0),
        (b"a?", b"", 1, 0, 0),
        (b"(a*)*", b"", 1, 0, 0),
        (b"a{0,3}", b"", 1, 0, 0),
        (b"a", b"", 0, 0, 0),
        (b"a+", b"", 0, 0, 0),
        (b"a{2,4}", b"", 0, 0, 0),
        // a pattern that can be empty does not read a wrong letter
        (b"a?", b"b", 0, 0, 1),
        (b"a*", b"bb", 0, 0, 1),
        (b"a?", b"aa", 0, 0, 2),
        (b"a?", b"aaa", 0, 0, 2),
        (b"(a?)*", b"aab", 0, 0, 3),
        // doubled links
        (b"(a*)*", b"aaa", 4, 0, 3),
        (b"(a*)*", b"b", 0, 0, 1),
        (b"(a*)*", b"aab", 0, 0, 3),
        (b"(a*)*", b"aabaa", 0, 0, 3),
        (b"((a*)*)*", b"abaa", 0, 0, 2),
        (b"(a*b?)*", b"aabbc", 0, 0, 5),
        (b"(a*b?)*", b"aacbb", 0, 0, 3),
        (b"([a-z]+ ?)+", b"go on", 4, 0, 5),
        (b"([a-z]+ ?)+", b"go  on", 0, 0, 4),
        (b"([a-z]+ ?)+", b"go 1n", 0, 0, 4),
        (b"((ab)*)*", b"ababb", 0, 0, 5),
        (b"((ab)*)*", b"ababba", 0, 0, 5),
        (b"((ab)*)*", b"ababa", 0, 0, 5),
        // intervals
        (b"a{2,4}", b"a", 0, 0, 1),
        (b"a{2,4}", b"aa", 1, 0, 2),
        (b"a{2,4}", b"aaaa", 1, 0, 4),
        (b"a{2,4}", b"aaaaa", 0, 0, 5),
        (b"a{2,4}", b"aaaaaa", 0, 0, 5),
        (b"a{2,4}", b"aba", 0, 0, 2),
        (b"a{2,4}", b"aaab", 0, 0, 4),
        (b"a{2,}", b"aaaaab", 0, 0, 6),
        (b"a{3}", b"aaaaaaaa", 0, 0, 4),
        (b"(a|b){2}", b"abba", 0, 0, 3),
        (b"(a*){2}", b"aaba", 0, 0, 3),
        (b"(a{1,2}b){2}", b"aabaaab", 0, 0, 6),
        (b"[0-9]{2}/[0-9]{2}/[0-9]{4}", b"7/9/1984", 0, 0, 2),
        (b"[0-9]{2}/[0-9]{2}/[0-9]{4}", b"07/09/84", 0, 0, 8),
        (b"[0-9]{2}/[0-9]{2}/[0-9]{4}", b"07.09.1984", 0, 0, 3),
        (b"[0-9]{2}/[0-9]{2}/[0-9]{4}", b"07/09/19841", 0, 0, 11),
        // letters with accents, and the codes at the edges
        (b"\xe9t\xe9", b"\xe9t\xe9", 1, 0, 3),
        (b"\xe9t\xe9", b"ete", 0, 0, 1),
        (b"\xe9t\xe9", b"\xe9te", 0, 0, 3),
        (b"\xe9t\xe9", b"\xe9te\xe9", 0, 0, 3),
        (b"\xe9t\xe9", b"\xe9t\xe9\xe9\xe9", 0, 0, 4),
        (b"[\xe0-\xff]*", b"\xe0\xff\xdf\xe0", 0, 0, 3),
        (b"[^ -~]*", b"\xa0\xff~\xa0", 0, 0, 3),
        (b"[ -~]*", b" ~\xa0~", 0, 0, 3),
        // credits of both signs
        (b"a=-2", b"a", 1, -2, 1),
        (b"a=-2", b"ab", 0, 0, 2),
        (b"a=-2", b"aab", 0, 0, 2),
        (b"a=-2b=-3", b"a", 0, 0, 1),
        (b"(a=-1|a=1)*", b"aab", 0, 0, 3),
        (b"(a=-1|a=1)*", b"aabaa", 0, 0, 3),
        (b"(a=-9|b=9)*", b"abc", 0, 0, 3),
        (b"(a=-9|b=9)*", b"cab", 0, 0, 1),
    ];
    for (pattern, answer, count, best, taken) in short {
        marks_and_takes(t, pattern, answer, count, best, taken);
        earns(t, pattern, answer, count, best);
        let bits = u64::from(best as u32) | (taken as u64) << 40;
        t.same(mark_bits(pattern, answer), bits, &format!("mark {} on {}, the bits", show(pattern), show(answer)));
    }
    // 4,096 letters: wrong at one of them, or at none
    let sixty = [b"(", &[b'a'; 60][..], b")*"].concat();
    let alternatives = [b"(", &["a"; 60].join("|").into_bytes()[..], b")*"].concat();
    let copies = &b"(a=-1{60})*"[..];
    let long = [&b"a*"[..], b"(a*)*", b"((a+)+)+", b"(a|a)*", b"a=-9*", b"(a=9|a=-9)*", b"a{30,}", b"[^b]*", b"[a\xe9]*", &sixty, copies, &alternatives];
    for pattern in long {
        for at in [1, 2, 10, 59, 60, 61, 62, 255, 256, 257, 2048, 4094, 4095, 4096] {
            for (length, wrong) in [(4096, b'b'), (4096, 160), (at, b'b')] {
                let mut answer = vec![b'a'; length];
                answer[at - 1] = wrong;
                if pattern == b"[^b]*" {
                    answer[at - 1] = b'b';
                }
                marks_and_takes(t, pattern, &answer, 0, 0, at);
                // and what stands after it plays no part
                answer[at..].fill(b'~');
                marks_and_takes(t, pattern, &answer, 0, 0, at);
            }
        }
        let got = mark(pattern, &[b'a'; 4096]);
        let all = matches!(got, Ok(Marked::Answer { taken: 4096, .. }));
        t.check(all, || format!("mark {} on 4,096 letters: {got:?}, want all taken", show(pattern)));
    }
    marks_and_takes(t, b"a=-9*", &[b'a'; 4096], 1, -36_864, 4096);
    marks_and_takes(t, b"a=9*b", &[b'a'; 4096], 0, 0, 4096);
    t.same(mark_bits(b"a=-9*", &[b'a'; 4096]), 0x1000_00_ffff_7000, "the lowest mark and the most letters taken, the bits");
    t.same(mark_bits(b"a=9*b", &[b'a'; 4096]), 0x1000_00_0000_0000, "no reading and the most letters taken, the bits");
    // 60 positions, one after the other
    for pattern in [&[b'a'; 60][..], b"a{60}", b"a{30}a{30}", b"a=-9{60}"] {
        for (n, taken) in [(0, 0), (1, 1), (59, 59), (61, 61), (62, 61), (63, 61), (4096, 61)] {
            marks_and_takes(t, pattern, &vec![b'a'; n], 0, 0, taken);
        }
        for at in [1, 2, 30, 59, 60] {
            let mut answer = vec![b'a'; 60];
            answer[at - 1] = b'b';
            marks_and_takes(t, pattern, &answer, 0, 0, at);
        }
        t.check(matches!(mark(pattern, &[b'a'; 60]), Ok(Marked::Answer { count: 1, taken: 60, .. })), || format!("mark {}: sixty", show(pattern)));
    }
    // each of 60 is the only one possible, and then none
    let different: Vec<u8> = (b'A'..=b'Z').chain(b'a'..=b'z').chain(b'0'..=b'7').collect();
    for n in 0..60 {
        marks_and_takes(t, &different, &different[..n], 0, 0, n);
        marks_and_takes(t, &different, &[&different[..n], b"~"].concat(), 0, 0, n + 1);
        marks_and_takes(t, &different, &[&different[..n], b"~", &different[n..]].concat(), 0, 0, n + 1);
        marks_and_takes(t, &different, &[&different[..n], &different[n + 1..]].concat(), 0, 0, if n == 59 { 59 } else { n + 1 });
    }
    // refused, some of them for what stands after the letter at which they go wrong: nothing but the refusal
    let long = |n: usize| vec![b'a'; n];
    let refused: [(&[u8], Vec<u8>, u8); 17] = [
        (b"a)", b"a".to_vec(), 5),
        (b"", b"a".to_vec(), 5),
        (b"", b"".to_vec(), 5),
        (b"a\t", b"a".to_vec(), 4),
        (b"[z-a]", b"a".to_vec(), 6),
        (b"[^ -\xff]", b"a".to_vec(), 7),
        (b"a{0}", b"a".to_vec(), 11),
        (b"a{61}", long(61), 8),
        (&[b'a'; 513], long(4096), 3),
        (b"a*", long(4097), 9),
        (b"b*", long(4097), 9),
        (b"a", long(5000), 9),
        (b"a*", b"aa\n".to_vec(), 10),
        (b"b", b"aa\n".to_vec(), 10),
        (b"b", b"\x9f".to_vec(), 10),
        (b"b", [&long(4095)[..], b"\x7f"].concat(), 10),
        (b"a=-1*", [b"\x00", &long(4095)[..]].concat(), 10),
    ];
    for (pattern, answer, refusal) in refused {
        let name = format!("mark {} on {} letters", show(&pattern[..pattern.len().min(20)]), answer.len());
        t.same(mark(pattern, &answer), Ok(Marked::Refused(refusal)), &name);
        t.same(mark_bits(pattern, &answer), u64::from(refusal) << 32, &format!("{name}, the bits"));
    }
}

/// The letters taken are the shortest beginning of an answer with which no text of the pattern begins, else all of it: for every answer of
/// up to four of these letters, beside a list of the pattern's texts. What a text begins with is all of it in fewer letters more than there
/// are positions, so that the list is long enough.
fn as_texts_begin(t: &mut Tally, text: &[u8], p: &model::Pattern, letters: &[u8]) {
    let mut answers: Vec<Vec<u8>> = vec![Vec::new()];
    let mut from = 0;
    while answers.last().is_some_and(|a| a.len() < 4) {
        let longer: Vec<Vec<u8>> = answers[from..].iter().flat_map(|a| letters.iter().map(move |b| [&a[..], &[*b]].concat())).collect();
        from = answers.len();
        answers.extend(longer);
    }
    let texts = p.texts(letters, 4 + p.positions.len());
    let begins: BTreeSet<&[u8]> = texts.iter().flat_map(|s| (0..=s.len()).map(|n| &s[..n])).collect();
    for answer in &answers {
        let want = (0..answer.len()).find(|n| !begins.contains(&answer[..*n])).unwrap_or(answer.len());
        let read = texts.contains(answer);
        let got = mark(text, answer);
        let right = matches!(got, Ok(Marked::Answer { count, taken, .. }) if taken == want && (count > 0) == read);
        t.check(right, || format!("mark {} on {}: {got:?}; by its texts {want} letters are taken", show(text), show(answer)));
    }
}

fn beginnings(t: &mut Tally, patterns: usize, seed: u64) {
    let short: [(&[u8], &[u8]); 26] = [
        (b"ab", b"abx"),
        (b"abc", b"abc"),
        (b"a|bc", b"abc"),
        (b"abc|ab|b", b"abc"),
        (b"a?b", b"abc"),
        (b"a?b?", b"abc"),
        (b"(a|b)*c", b"abc"),
        (b"(ab)*", b"ab"),
        (b"(ab|a)*", b"abc"),
        (b"(a*)*", b"ab"),
        (b"(a*b)*", b"abc"),
        (b"((a+)+b?)+", b"abc"),
        (b"a{2,4}", b"ab"),
        (b"a{2}b", b"ab"),
        (b"(a|b){2}", b"abc"),
        (b"(ab?){2}", b"abc"),
        (b"(a?){3}", b"ab"),
        (b"a{2,}", b"ab"),
        (b"(a{1,2}b)*", b"ab"),
        (b"[^a]a", b"abc"),
        (b".a", b"abc"),
        (b"[ab]=-1[bc]=2", b"abc"),
        (b"(a=-1|a=1)b", b"abc"),
        (b"\xe9t?\xe9", b"\xe9te"),
        (b"(\xe9|[\xe0-\xff])*e", b"\xe9e\xff"),
        (b"[^ -~]+a", b"a\xa0\xff"),
    ];
    for (pattern, letters) in short {
        as_texts_begin(t, pattern, &model::read(pattern).expect("a good pattern"), letters);
    }
    let mut r = Random::new(seed ^ 0xbe61);
    let mut found = 0;
    for _ in 0..patterns {
        let text = random::pattern(&mut r, false);
        let letters = if r.chance(50) { b"abc" } else { b"ab\xe9" };
        let Ok(p) = model::read(&text) else { continue };
        // each position has one of the letters, so that the texts are not cut off
        if p.positions.len() <= 4 && p.positions.iter().all(|i| letters.iter().any(|b| i.letters.contains(b))) {
            as_texts_begin(t, &text, &p, letters);
            found += 1;
        }
    }
    println!("random patterns beside their texts: {found}");
    t.check(found >= patterns / 10, || format!("only {found} patterns of {patterns} beside their texts"));
}

/// Both sides of each refusal's edge, and the order in which they are checked.
fn edges(t: &mut Tally) {
    let long = |n: usize, tail: &[u8]| [&vec![b'a'; n][..], tail].concat();
    refuses(t, &long(61, b""), 8);
    refuses(t, &long(61, b")"), 5);
    refuses(t, &long(61, b"[z-a]"), 6);
    refuses(t, &long(61, b"[^ -\xff]"), 7);
    refuses(t, &long(61, b"[^ -\xff][z-a]"), 6);
    refuses(t, &long(61, b"[^ -~]"), 8);
    refuses(t, &long(512, b""), 8);
    refuses(t, &long(513, b""), 3);
    refuses(t, &long(511, b"\x1f"), 4);
    refuses(t, &long(512, b"\x1f"), 3);
    refuses(t, b"(\x7f", 4);
    refuses(t, &long(511, b"\x9f"), 4);
    refuses(t, &long(512, b"\x9f"), 3);
    refuses(t, &long(511, b"\xa0"), 8);
    refuses(t, &vec![b'('; 512], 5);
    t.same(vet(b"(", 4095, 1), Ok(Vetted::Refused(1)), "refusal 1 before 5");
    t.same(mark(b"[z-a]", &[10; 5000]), Ok(Marked::Refused(6)), "refusal 6 before 9");
    t.same(mark(b"a", &[10; 4097]), Ok(Marked::Refused(9)), "refusal 9 before 10");
    t.same(mark(b"a", &[10; 4096]), Ok(Marked::Refused(10)), "refusal 10");
    t.same(mark(b"a", &[128; 4096]), Ok(Marked::Refused(10)), "refusal 10, byte 128");
    let nested = [vec![b'('; 255], b"a".to_vec(), vec![b')'; 255]].concat();
    verdict_is(t, &nested, 0);
    let stars = b"a*".repeat(60);
    verdict_is(t, &stars, 1);
    marks(t, &stars, &[b'a'; 4096], MOST, 0);
    let open = b"(a|".repeat(170);
    refuses(t, &open, 5);
}

/// Positions up to 60 are stored, letters and credit each, and those past 60 only counted; what is wrong with an atom is told
/// wherever it stands, and before there being too many.
fn last_positions(t: &mut Tally) {
    let with = |before: usize, atom: &[u8], after: usize| [&vec![b'a'; before], atom, &vec![b'a'; after]].concat();
    let atoms = [&b"b=7"[..], b"[b-d]=1", b"[^a-z]=9", b".=5", b"\\*=3", b"[~ a]*", b"(b=2|[a-c]=4)"];
    let accented = [&b"\xe9=7"[..], b"[^ -~]=8", b"[b-\xa0]=6*", b"(\xe9=2|[\xe0-\xff]=4)"];
    let below = [&b"b=-7"[..], b"[^a-z]=-9", b".=-5", b"\\*=-3", b"(b=-2|[a-c]=-4)", b"[b-\xa0]=-6*", b"(\xe9=2|[\xe0-\xff]=-4)"];
    for atom in atoms.into_iter().chain(accented).chain(below) {
        for before in [0, 1, 30, 57, 58, 59] {
            let pattern = with(before, atom, 59 - before);
            match model::read(&pattern) {
                Err(refusal) => refuses(t, &pattern, refusal),
                Ok(p) => {
                    t.same(vet(&pattern, EVIDENCE, 2).map(|v| matches!(v, Vetted::Verdict { .. })), Ok(true), &show(&pattern));
                    for b in b"ab* ~\xa0\xe9\xff" {
                        as_in_model(t, &pattern, &p, &with(before, &[*b], 59 - before), None);
                        as_in_model(t, &pattern, &p, &with(59 - before, &[*b], before), None);
                    }
                }
            }
            refuses(t, &with(before, atom, 60), 8);
            refuses(t, &with(60, atom, before), 8);
        }
    }
    let broken = [&b"[^^ -~]"[..], b"a=0", b"a=-0", b"a=--1", b"[]", b"[a", b"\\a", b"a**", b"()"].map(|atom| (atom, 5));
    for (atom, refusal) in [(&b"[z-a]"[..], 6), (b"[b-dz-a]", 6), (b"[^ -\xff]", 7)].into_iter().chain(broken) {
        for before in [0, 1, 58, 59, 60, 61, 62, 300, 500] {
            let pattern = with(before, atom, 0);
            refuses(t, &pattern, refusal);
            t.same(model::read(&pattern).err(), Some(refusal), "the model");
            for after in [1, 59, 60, 61, 504usize.saturating_sub(before)] {
                if before + atom.len() + after <= 512 {
                    refuses(t, &with(before, atom, after), refusal);
                }
            }
        }
    }
    for n in [0, 58, 59, 60, 61, 200, 450] {
        refuses(t, &[b"[^ -\xff]", &with(n, b"[z-a]", 1)[..]].concat(), 6);
        refuses(t, &[b"[z-a]", &with(n, b"[^ -\xff]", 1)[..]].concat(), 6);
        refuses(t, &[b"[z-a][^ -\xff]", &with(n, b"{", 1)[..]].concat(), 5);
        refuses(t, &[b"([z-a]|[^ -\xff])*", &with(n, b")", 1)[..]].concat(), 5);
        refuses(t, &[b"(((", &with(n, b"[^ -\xff]))*)", 1)[..]].concat(), 7);
        refuses(t, &[b"(((", &with(n, b"[b-a]))*)", 1)[..]].concat(), 6);
    }
}

/// Answers of some 256 letters, with letters that the pattern has and has not, and with bytes that are no letters.
fn some_256_letters(t: &mut Tally) {
    let sixty: Vec<u8> = (b'A'..=b'Z').chain(b'a'..=b'z').chain(b'0'..=b'7').collect();
    let alternatives = [b"(", &sixty.iter().map(|c| [*c]).collect::<Vec<_>>().join(&b"=2|"[..])[..], b")*"].concat();
    let joined = [b"(", &sixty[..], b")*"].concat();
    let all: Vec<u8> = model::letters().collect();
    let accented = &b"(a=1|[^ -~]=2|[b-\xe9]=3)*"[..];
    let above = [&b".*"[..], b"a=1*a=2*", b"(a=1|b=2|[c-f]=3)*", b"[^a]*", b"(a|a)*b?", &joined, &alternatives, accented];
    let below = [&b"a=-1*a=2*"[..], b"a=-2*a=-1*", b"(a=1|b=-2|[c-f]=-3)*", b"(a=-9|a=-8)*b?", b"(a=-1|[^ -~]=-2|[b-\xe9]=-3)*"];
    for pattern in above.into_iter().chain(below) {
        let p = model::read(pattern).expect("a good pattern");
        for n in [255, 256, 257] {
            let of = |letter: &dyn Fn(usize) -> u8| (0..n).map(letter).collect::<Vec<u8>>();
            let mut answers = vec![of(&|_| b'a'), of(&|k| all[k % 191]), of(&|k| sixty[k % 60]), of(&|k| b"abcdef"[k * k % 6])];
            for at in [0, n / 2, n - 1] {
                for other in [b'b', b'~', b'g', 160, 233, 255, 0, 31, 127, 128, 159] {
                    let mut answer = vec![b'a'; n];
                    answer[at] = other;
                    answers.push(answer);
                }
            }
            for answer in answers {
                as_in_model(t, pattern, &p, &answer, None);
            }
        }
    }
    for b in 0..=255u8 {
        for n in [255, 256] {
            let answer = [&vec![b' '; n - 1][..], &[b]].concat();
            let want = if model::is_letter(b) { Marked::Answer { count: 1, mark: 0, taken: n } } else { Marked::Refused(10) };
            t.same(mark(b".*", &answer), Ok(want), &format!("byte {b} after {} spaces", n - 1));
        }
    }
}

/// What a call is given and finds plays no part in the next.
fn one_after_another(t: &mut Tally) {
    let alternatives = [b"(", &b".=9|".repeat(59)[..], b".)*"].concat();
    let below = [b"[ -\xff]=-9".repeat(60), [b"(", &b".=-9|".repeat(59)[..], b".)*"].concat(), b".=-9".repeat(128)];
    let full = [b"[ -\xff]=9*".repeat(60), b".=9".repeat(170), vec![b'('; 512], b"([^ -\xff]|[z-a]=9)*".to_vec(), alternatives];
    let full: Vec<Vec<u8>> = full.into_iter().chain(below).collect();
    for small in [&b"a"[..], b"a?", b"(a|b=1)*c", b"[b-d]e", b"a)", b"(a|a)*", b"(\xe9|[a-\xff])b", b"a=-1", b"(a=-2|b=1)?"] {
        let alone = (vet(small, EVIDENCE, 4), mark(small, b"a"), mark(small, b""));
        for before in &full {
            let _ = (vet(before, EVIDENCE, 8), mark(before, &[255; 4096]));
            let now = (vet(small, EVIDENCE, 4), mark(small, b"a"), mark(small, b""));
            t.same(now, alone.clone(), &format!("{} after {}", show(small), show(&before[..8])));
        }
        match model::read(small) {
            Err(refusal) => refuses(t, small, refusal),
            Ok(p) => as_in_model(t, small, &p, b"a", None),
        }
    }
}

/// What evidence and scratch held before changes nothing, the texts neither, and too little scratch is refused.
fn scratch(t: &mut Tally) {
    let stars = b"a*".repeat(60);
    for p in [&b"colou?r"[..], b"(a|a)b", b"(a|b|ab)*c", b"(\xe9|[a-\xff])*", &stars] {
        for seed in 0..4 {
            for numbers in [4096, 4097, 8192, 9000] {
                t.same(vet_in(p, EVIDENCE, numbers, seed), vet(p, EVIDENCE, 9), &format!("vet {} in {numbers} numbers", show(p)));
            }
        }
        for numbers in [0, 1, 4095] {
            t.same(vet_in(p, EVIDENCE, numbers, 5), Ok(Vetted::Refused(2)), &format!("{numbers} numbers of scratch"));
        }
    }
    t.same(vet_in(b"a", 4095, 4095, 6), Ok(Vetted::Refused(1)), "refusal 1 before 2");
    t.same(vet_in(b"(", EVIDENCE, 0, 6), Ok(Vetted::Refused(2)), "refusal 2 before 5");
    t.same(vet_in(b"(", EVIDENCE, SCRATCH, 6), Ok(Vetted::Refused(5)), "refusal 5 in lent scratch");
}

/// Calls from several threads at once give what one thread is given.
fn threads(t: &mut Tally) {
    let mut r = Random::new(77);
    let patterns: Vec<Vec<u8>> = (0..200).map(|k| random::pattern(&mut r, k % 2 == 0)).collect();
    let work = |patterns: &[Vec<u8>]| -> Vec<_> {
        patterns.iter().map(|p| (vet(p, EVIDENCE, 9), vet_in(p, EVIDENCE, SCRATCH, 9), mark(p, b"abab"), mark(p, b""))).collect()
    };
    let alone = work(&patterns);
    let same = std::thread::scope(|s| {
        let all: Vec<_> = (0..8).map(|_| s.spawn(|| (0..10).all(|_| work(&patterns) == alone))).collect();
        all.into_iter().map(|h| h.join().unwrap()).collect::<Vec<bool>>()
    });
    for ok in same {
        t.check(ok, || "a thread was given something else".into());
    }
}

/// The platform's matcher, where the pattern is none that takes it too long.
fn second_opinion(t: &mut Tally, text: &[u8], p: &model::Pattern) -> Option<posix::Regex> {
    if posix::nested_repeats(&p.tree) > 3 {
        return None;
    }
    let regex = posix::Regex::new(p);
    t.check(regex.is_some(), || format!("regcomp of {}", show(text)));
    regex
}

fn random_cases(t: &mut Tally, patterns: usize, seed: u64) {
    println!("random patterns: {patterns}, seed {seed}");
    let mut r = Random::new(seed);
    for k in 0..patterns {
        let wild = k % 3 == 0;
        let text = random::pattern(&mut r, wild);
        one_random_case(t, &mut r, &text, k % 50 == 0);
    }
    t.noted(patterns, "random answers");
    t.all_searched((patterns / 20).saturating_sub(10), "random patterns");
}

/// A random pattern, with some answers, against the model; `vetted`: the verdict too, though there are many positions.
fn one_random_case(t: &mut Tally, r: &mut Random, text: &[u8], vetted: bool) {
    match model::read(text) {
        Err(refusal) => {
            refuses(t, text, refusal);
            let plain = if refusal == 8 { model::written_out(text, 512) } else { None };
            if let Some(plain) = plain {
                refuses(t, &plain, 8);
            }
        }
        Ok(p) => {
            let vetted = vetted || p.positions.len() <= 12;
            if vetted {
                evidence(t, text, &p, p.verdict());
            }
            let regex = second_opinion(t, text, &p);
            let mut answers: Vec<Vec<u8>> = (0..3).map(|_| random::answer(r, &p)).collect();
            answers.push(random::damaged(r, &answers[0]));
            for answer in &answers {
                as_in_model(t, text, &p, answer, regex.as_ref());
                t.note(&p, answer);
            }
            without_credits(t, text, &p.without_credits(text), &answers);
            let plain = model::written_out(text, WRITTEN).expect("not so long");
            if plain != text {
                as_written_out(t, text, &plain, &answers, vetted);
            }
        }
    }
}

/// Classes of several kinds of letters: what is shown is of each kind, for two paths and along one.
fn random_classes(t: &mut Tally, patterns: usize, seed: u64) {
    let mut r = Random::new(seed ^ 0x1e77e5);
    let mut kinds = [[0; 5]; 2];
    for k in 0..patterns {
        let text = random::classes(&mut r);
        one_random_case(t, &mut r, &text, k % 50 == 0);
        let texts = shown(&text);
        // a steady text is for two paths, as y is
        for (n, letters) in texts.iter().enumerate() {
            let one_path = n != 1 && !texts[1].is_empty();
            for b in letters {
                let kind = match b {
                    b'a'..=b'z' => 0,
                    b'A'..=b'Z' => 1,
                    b'0'..=b'9' => 2,
                    0..=126 => 3,
                    _ => 4,
                };
                kinds[usize::from(one_path)][kind] += 1;
            }
        }
    }
    for (what, n) in ["for two paths", "along one"].iter().zip(kinds) {
        println!("letters shown {what}: small {}, capital {}, digits {}, others to 126 {}, from 160 on {}", n[0], n[1], n[2], n[3], n[4]);
        let least = (patterns / 20).saturating_sub(10);
        t.check(n.iter().all(|n| *n >= least), || format!("letters shown {what}: too few of a kind, {n:?}"));
    }
    t.noted(patterns, "random classes");
    t.all_searched((patterns / 20).saturating_sub(10), "random classes");
}

/// Intervals that fill the positions up to the last, or pass it.
fn random_copies(t: &mut Tally, patterns: usize, seed: u64) {
    let mut r = Random::new(seed ^ 0xc0b1e5);
    for k in 0..patterns {
        let text = random::copies(&mut r);
        one_random_case(t, &mut r, &text, k % 50 == 0);
    }
    t.noted(patterns, "random copies");
    t.all_searched((patterns / 100).saturating_sub(10), "random copies");
}

/// Ways of several lengths, of which the texts shown go the shortest.
fn random_detours(t: &mut Tally, patterns: usize, seed: u64) {
    let mut r = Random::new(seed ^ 0xde7045);
    for _ in 0..patterns {
        let text = random::detours(&mut r);
        match model::read(&text) {
            Err(refusal) => refuses(t, &text, refusal),
            Ok(p) => evidence(t, &text, &p, p.verdict()),
        }
    }
    t.all_searched((patterns / 10).saturating_sub(10), "random detours");
}

/// Repeats in repeats, and answers of many rounds: counts that pass 2^63 by sums and by links, and marks.
fn random_rounds(t: &mut Tally, patterns: usize, seed: u64) {
    let mut r = Random::new(seed ^ 0x5eed);
    for _ in 0..patterns {
        let text = random::rounds(&mut r);
        match model::read(&text) {
            Err(refusal) => refuses(t, &text, refusal),
            Ok(p) => {
                let regex = second_opinion(t, &text, &p);
                for letters in [4, 40, 120] {
                    let answer = random::long_answer(&mut r, &p, letters);
                    for answer in [random::damaged(&mut r, &answer), answer] {
                        as_in_model(t, &text, &p, &answer, regex.as_ref().filter(|_| letters == 4));
                        t.note(&p, &answer);
                    }
                }
            }
        }
    }
    t.noted(patterns, "random rounds");
}

/// The count, the mark and the letters taken of an answer, or its refusal, are the model's.
fn as_in_model(t: &mut Tally, text: &[u8], p: &model::Pattern, answer: &[u8], regex: Option<&posix::Regex>) {
    let got = mark(text, answer);
    let name = || format!("mark {} on {}: {got:?}", show(text), show(answer));
    if answer.iter().any(|b| !model::is_letter(*b)) {
        t.check(got == Ok(Marked::Refused(10)), name);
        return;
    }
    let Ok(Marked::Answer { count, mark, taken }) = got else {
        t.check(false, name);
        return;
    };
    // without a reading both are 0
    let has = |want: Option<(u128, i64)>| (u128::from(count), i64::from(mark)) == want.unwrap_or((0, 0));
    if let Some(lists) = p.readings(answer, 5_000) {
        let want = p.best(&lists).map(|best| (lists.len() as u128, best));
        t.check(has(want), || format!("{}; want {want:?}", name()));
    }
    if answer.len() <= 24 {
        let ways = p.ways(answer, u128::from(MOST));
        t.check(u128::from(count) == ways, || format!("{}; {ways} ways through the tree", name()));
        if let Some(want) = p.taken_by_lists(answer, 500) {
            t.check(taken == want, || format!("{}; want {want} letters taken", name()));
        }
    }
    let want = p.from_the_end(answer, u128::from(MOST));
    t.check(has(want), || format!("{}; want {want:?}", name()));
    t.check(taken == p.taken(answer), || format!("{}; want {} letters taken", name(), p.taken(answer)));
    if let Some(x) = regex {
        t.check((count > 0) == x.matches(answer), || format!("{}; regexec says {}", name(), x.matches(answer)));
    }
}

/// Credits play no part in a verdict, in what it shows, in a count, or in the letters taken: these are as without them, where every mark
/// is 0.
fn without_credits(t: &mut Tally, text: &[u8], plain: &[u8], answers: &[Vec<u8>]) {
    t.same(vet(text, EVIDENCE, 2), vet(plain, EVIDENCE, 2), &format!("vet {}, as {}", show(text), show(plain)));
    for answer in answers {
        let got = mark(text, answer).map(|m| match m {
            Marked::Answer { count, taken, .. } => Marked::Answer { count, mark: 0, taken },
            refused => refused,
        });
        t.same(got, mark(plain, answer), &format!("the count of {} on {}, as {}", show(text), show(answer), show(plain)));
    }
}

fn main() {
    let args: Vec<String> = std::env::args().collect();
    let patterns = args.get(1).map_or(20_000, |a| a.parse().expect("how many patterns"));
    let seed = args.get(2).map_or(1, |a| a.parse().expect("a seed"));
    let mut t = Tally { passed: 0, failed: 0, wrong: [0; 4], searched: [0; 3], given_up: 0 };
    specimens(&mut t);
    every_byte(&mut t);
    french_and_spanish(&mut t);
    points_off(&mut t);
    credit_bytes(&mut t);
    credits_apart(&mut t);
    intervals(&mut t);
    broken_intervals(&mut t);
    interval_bytes(&mut t);
    interval_bounds(&mut t);
    interval_refusals(&mut t);
    deep_intervals(&mut t);
    written_by_hand(&mut t);
    copies_by_regexec(&mut t);
    many_links(&mut t);
    counts_by_links(&mut t);
    counts_that_stop(&mut t);
    letters_shown(&mut t);
    every_letter_shown(&mut t);
    shortest_texts(&mut t);
    shortest_in_model(&mut t, patterns / 5, seed);
    letters_taken(&mut t);
    beginnings(&mut t, patterns / 5, seed);
    edges(&mut t);
    last_positions(&mut t);
    some_256_letters(&mut t);
    one_after_another(&mut t);
    scratch(&mut t);
    threads(&mut t);
    pages::run(&mut t);
    t.all_searched(100, "patterns by hand");
    random_cases(&mut t, patterns, seed);
    random_rounds(&mut t, patterns / 10, seed);
    random_copies(&mut t, patterns / 10, seed);
    random_classes(&mut t, patterns / 10, seed);
    random_detours(&mut t, patterns / 10, seed);
    println!("{} passed, {} failed", t.passed, t.failed);
    std::process::exit(i32::from(t.failed > 0));
}
