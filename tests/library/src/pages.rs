//! What the pages claim, run against the library: every row of a table that names a pattern, and a few phrases of the prose, in
//! README.md, docs/RULES.md, docs/VERDICTS.md and docs/C-API.md.
//!
//! A table is told by its header (`row`). A text stands in a cell as it does in a sentence, between backticks, with `× n` after it
//! where it is written n times; several of them are joined, `(byte n)` is one byte, and `(empty)` is the empty text. A phrase is one
//! or more texts, parted by commas and 'and', and one of the words in `phrase`. The number of claims on each page is known, so that one
//! which is no longer understood is noticed.
//!
//! The pages are UTF-8, and the library takes ISO 8859-1: each character of a text is the one byte of its code, and a text with a
//! character past U+00FF is none. Where a table is about texts that were not converted, they are the page's own bytes.
//!
//! Besides: a rule that a definition names is a heading of docs/RULES.md, and the pictures have the figures of docs/BENCHMARKS.md.

use crate::library::{mark, mark_bits, vet, Marked, Vetted};
use crate::{model, show, Tally, EVIDENCE};
use std::fs;
use std::path::{Path, PathBuf};

/// The pages, and how many claims each makes.
const PAGES: [(&str, u32); 4] = [("README.md", 8), ("docs/RULES.md", 411), ("docs/VERDICTS.md", 546), ("docs/C-API.md", 36)];

/// Tables that make no claim of this kind, by their headers.
const WORDS: [&str; 9] = [
    "verdict, what to do",
    "number, condition",
    "number, condition, vet, mark",
    "number, verdict, when, what it allows",
    "verdict, lengths, evidence",
    "limit, , ",
    "`marking_vet`, `marking_vet_in`: bits, `struct marking_vetted`, ",
    "`marking_mark`: bits, `struct marking_marked`, ",
    "number, name, condition, vet, mark",
];

pub fn run(t: &mut Tally) {
    for (page, claims) in PAGES {
        let text = file(page);
        let before = t.passed + t.failed;
        tables(t, page, &text);
        prose(t, page, &text);
        let found = (t.passed + t.failed - before) as u32;
        t.same(found, claims, &format!("{page}: the number of claims"));
    }
    rule_names(t);
    for (name, points) in [("marking", 6), ("vetting", 6), ("marking-letters", 6), ("marking-positions", 6), ("monday", 9)] {
        figures(t, name, points);
    }
}

fn path(name: &str) -> PathBuf {
    Path::new(env!("CARGO_MANIFEST_DIR")).join("../..").join(name)
}

/// A file of the repository, by its path from there; nothing where there is none.
fn file(name: &str) -> String {
    fs::read_to_string(path(name)).unwrap_or_default()
}

fn files_in(folder: &Path) -> Vec<PathBuf> {
    fs::read_dir(folder).map(|all| all.flatten().map(|f| f.path()).collect()).unwrap_or_default()
}

/// The name in brackets with which a comment of a definition begins is that of a rule.
fn rule_names(t: &mut Tally) {
    let rules = file("docs/RULES.md");
    let headings: Vec<&str> = rules.lines().filter_map(|l| l.strip_prefix("### ")).collect();
    let specs = files_in(&path("crates")).into_iter().flat_map(|c| files_in(&c.join("specs")));
    let mut found = 0;
    for spec in specs {
        let text = fs::read_to_string(&spec).unwrap_or_default();
        for line in text.lines() {
            let comment = line.trim_start().trim_start_matches(['-', ' ']);
            let name = comment.strip_prefix('[').and_then(|c| c.split_once(']')).map_or("", |c| c.0);
            if line.trim_start().starts_with("-- ") && name.starts_with(|c: char| c.is_ascii_uppercase()) {
                t.check(headings.contains(&name), || format!("{}: no rule [{name}]", spec.display()));
                found += 1;
            }
        }
    }
    t.check(found >= 30, || format!("only {found} definitions name a rule"));
}

/// Each point of a picture's data is a row of the benchmarks: its numbers, and before them its name in quotes, where it has one.
fn figures(t: &mut Tally, name: &str, points: usize) {
    let page = file("docs/BENCHMARKS.md").replace(',', "");
    let data = file(&format!("docs/pictures/{name}.dat")).replace(',', "");
    let lines: Vec<&str> = data.lines().filter(|l| !l.starts_with('#')).collect();
    t.same(lines.len(), points, &format!("{name}.dat: the number of points"));
    for point in lines {
        let (title, numbers) = point.strip_prefix('"').and_then(|p| p.split_once('"')).unwrap_or(("", point));
        let cells = [title].into_iter().filter(|c| !c.is_empty()).chain(numbers.split_whitespace());
        let row = format!("| {} |", cells.collect::<Vec<_>>().join(" | "));
        t.check(page.lines().any(|l| l == row), || format!("{name}.dat: {point}"));
    }
}

// ---- texts and numbers

/// A text of a page in ISO 8859-1; nothing if it has a character that is not there.
fn latin1(text: &str) -> Option<Vec<u8>> {
    text.chars().map(|c| u8::try_from(u32::from(c)).ok()).collect()
}

/// The same as the bytes that the page has, in UTF-8.
fn not_converted(text: &str) -> Option<Vec<u8>> {
    Some(text.as_bytes().to_vec())
}

/// The text of a cell, its pieces turned into bytes in one of these two ways; nothing if it is not one.
fn text(cell: &str, bytes: fn(&str) -> Option<Vec<u8>>) -> Option<Vec<u8>> {
    if cell == "(empty)" {
        return Some(Vec::new());
    }
    let mut whole = Vec::new();
    let mut rest = cell.trim();
    while !rest.is_empty() {
        if let Some((code, after)) = rest.strip_prefix("(byte ").and_then(|r| r.split_once(')')) {
            whole.push(code.parse().ok()?);
            rest = after.trim_start();
            continue;
        }
        let (piece, after) = rest.strip_prefix('`')?.split_once('`')?;
        // such a space is not shown
        if piece.starts_with(' ') && piece.ends_with(' ') && !piece.trim().is_empty() {
            return None;
        }
        rest = after.trim_start();
        let mut times = 1;
        if let Some(after) = rest.strip_prefix("× ") {
            let digits = after.find(|c: char| !c.is_ascii_digit()).unwrap_or(after.len());
            times = after[..digits].parse().ok()?;
            rest = after[digits..].trim_start();
        }
        whole.extend(bytes(piece)?.repeat(times));
    }
    (!whole.is_empty()).then_some(whole)
}

/// 65,536 or 2^63 or 2^63 - 1 or 7.
fn number(cell: &str) -> Option<u64> {
    if let Some((power, less)) = cell.split_once(" - ") {
        return number(power)?.checked_sub(number(less)?);
    }
    match cell.strip_prefix("2^") {
        Some(power) => 1u64.checked_shl(power.parse().ok()?),
        None => cell.replace(',', "").parse().ok(),
    }
}

/// The same, or -2 or -36,864. `-` and anything but the digits of one number is none, and so is -0.
fn signed(cell: &str) -> Option<i64> {
    let Some(below) = cell.strip_prefix('-') else {
        return i64::try_from(number(cell)?).ok();
    };
    let digits = below.starts_with(|c| matches!(c, '1'..='9')) && below.chars().all(|c| c.is_ascii_digit() || c == ',');
    let n = number(below).filter(|_| digits)?;
    Some(-i64::try_from(n).ok()?)
}

// ---- what the library says

fn refusal(pattern: &[u8]) -> u64 {
    match vet(pattern, EVIDENCE, 1) {
        Ok(Vetted::Refused(k)) => u64::from(k),
        Ok(_) => 0,
        Err(_) => 99,
    }
}

fn verdict(pattern: &[u8]) -> &'static str {
    match vet(pattern, EVIDENCE, 1) {
        Ok(Vetted::Verdict { verdict, .. }) => ["single", "steady", "runaway"][usize::from(verdict)],
        _ => "refused",
    }
}

/// The count, the mark and the letters taken.
fn counted(pattern: &[u8], answer: &[u8]) -> Option<(u64, i32, usize)> {
    match mark(pattern, answer) {
        Ok(Marked::Answer { count, mark, taken }) => Some((count, mark, taken)),
        _ => None,
    }
}

fn refusal_of_answer(pattern: &[u8], answer: &[u8]) -> u64 {
    match mark(pattern, answer) {
        Ok(Marked::Refused(k)) => u64::from(k),
        Ok(_) => 0,
        Err(_) => 99,
    }
}

fn reads(pattern: &[u8], answer: &[u8]) -> bool {
    counted(pattern, answer).is_some_and(|(count, ..)| count > 0)
}

// ---- tables

/// The cells of a line of a table; in a cell `\|` is `|`.
fn cells(line: &str) -> Vec<String> {
    let inner = line.trim().trim_start_matches('|');
    let inner = inner.strip_suffix('|').unwrap_or(inner);
    inner.replace("\\|", "\0").split('|').map(|c| c.trim().replace('\0', "|")).collect()
}

fn tables(t: &mut Tally, page: &str, text: &str) {
    let mut header: Vec<String> = Vec::new();
    for line in text.lines() {
        if !line.starts_with('|') {
            header.clear();
        } else if header.is_empty() {
            header = cells(line);
        } else if !line.starts_with("|---") {
            let row = Row { header: &header, cells: cells(line), name: format!("{page}: {line}") };
            row.check(t);
        }
    }
}

struct Row<'a> {
    header: &'a [String],
    cells: Vec<String>,
    name: String,
}

impl Row<'_> {
    fn cell(&self, column: &str) -> Option<&str> {
        let at = self.header.iter().position(|h| h == column)?;
        self.cells.get(at).map(String::as_str)
    }

    /// The text of a column; a cell that is none is a failure.
    fn text(&self, t: &mut Tally, column: &str) -> Option<Vec<u8>> {
        self.text_by(t, column, latin1)
    }

    fn text_by(&self, t: &mut Tally, column: &str, bytes: fn(&str) -> Option<Vec<u8>>) -> Option<Vec<u8>> {
        let cell = self.cell(column)?;
        let got = text(cell, bytes);
        if got.is_none() {
            t.check(false, || format!("{}: no text under {column}", self.name));
        }
        got
    }

    fn is_number(&self, t: &mut Tally, column: &str, got: u64) {
        if let Some(cell) = self.cell(column) {
            t.same(Some(got), number(cell), &format!("{}: {column}", self.name));
        }
    }

    fn is_mark(&self, t: &mut Tally, column: &str, got: i32) {
        if let Some(cell) = self.cell(column) {
            t.same(Some(i64::from(got)), signed(cell), &format!("{}: {column}", self.name));
        }
    }

    fn is_word(&self, t: &mut Tally, column: &str, got: &str) {
        if let Some(cell) = self.cell(column) {
            t.same(got, cell, &format!("{}: {column}", self.name));
        }
    }

    fn check(&self, t: &mut Tally) {
        if WORDS.contains(&self.header.join(", ").as_str()) {
            return;
        }
        if let Some(pattern) = self.text(t, "pattern") {
            if let Some(answer) = self.text(t, "answer") {
                self.answer(t, &pattern, &answer);
            } else {
                self.pattern(t, &pattern);
            }
        } else if let Some(refused) = self.text(t, "refused") {
            self.refused(t, &refused);
        } else if let Some(old) = self.text(t, "instead of") {
            self.repair(t, &old);
        } else if let Some(missing) = self.cell("ISO 8859-1 has no") {
            self.missing(t, missing);
        } else {
            t.check(false, || format!("{}: a table of no known form", self.name));
        }
    }

    /// pattern, answer, and a refusal, or readings and perhaps mark and letters taken, which are the model's where they are not told; a
    /// pattern under 'write' decides the answer the other way. Under 'not converted' are the readings that the same answer has where
    /// neither it nor the pattern was converted.
    fn answer(&self, t: &mut Tally, pattern: &[u8], answer: &[u8]) {
        if let Some(bits) = self.cell("what `marking_mark` returns") {
            self.returned(t, pattern, answer, bits);
            return;
        }
        if self.cell("refusal").is_some() {
            self.is_number(t, "refusal", refusal_of_answer(pattern, answer));
            return;
        }
        if self.cell("not converted").is_some() {
            let (p, a) = (self.text_by(t, "pattern", not_converted), self.text_by(t, "answer", not_converted));
            let raw = p.zip(a).and_then(|(p, a)| counted(&p, &a));
            self.is_number(t, "not converted", raw.map_or(99, |r| r.0));
        }
        let Some((count, best, taken)) = counted(pattern, answer) else {
            t.check(false, || format!("{}: refused", self.name));
            return;
        };
        self.is_number(t, "readings", count);
        self.is_mark(t, "mark", best);
        self.is_number(t, "letters taken", taken as u64);
        let want = model::read(pattern).map(|p| p.taken(answer));
        if want != Ok(taken) {
            t.check(false, || format!("{}: {taken} letters taken, want {want:?}", self.name));
        }
        if self.cell("what happens").is_some() {
            if let Some(better) = self.text(t, "write") {
                t.check(refusal(&better) == 0 && reads(&better, answer) != (count > 0), || format!("{}: write", self.name));
            }
        }
    }

    /// pattern, answer, and what C gets, as it is and unpacked.
    fn returned(&self, t: &mut Tally, pattern: &[u8], answer: &[u8], bits: &str) {
        let want = bits.strip_prefix("`0x").and_then(|b| b.strip_suffix('`')).and_then(|b| u64::from_str_radix(b, 16).ok());
        t.same(Some(mark_bits(pattern, answer)), want, &format!("{}: the number returned", self.name));
        let (_, best, taken) = counted(pattern, answer).unwrap_or_default();
        self.is_number(t, "`refusal`", refusal_of_answer(pattern, answer));
        self.is_mark(t, "`mark`", best);
        self.is_number(t, "`taken`", taken as u64);
    }

    /// pattern, and its refusal, or its verdict with the number of positions and the texts shown, or the same pattern written out.
    fn pattern(&self, t: &mut Tally, pattern: &[u8]) {
        self.is_number(t, "refusal", refusal(pattern));
        self.is_word(t, "verdict", verdict(pattern));
        if let Some(copies) = self.text(t, "written out") {
            self.written_out(t, pattern, &copies);
        }
        let Ok(Vetted::Verdict { positions, texts, .. }) = vet(pattern, EVIDENCE, 1) else { return };
        self.is_number(t, "positions", positions as u64);
        for (column, shown) in [("text", &texts[0]), ("x", &texts[0]), ("y", &texts[1]), ("z", &texts[2])] {
            if let Some(want) = self.text(t, column) {
                t.same(show(shown), show(&want), &format!("{}: {column}", self.name));
            }
        }
    }

    /// a pattern with an interval and the same without: verdict, positions and texts shown, and the counts, marks and letters taken of
    /// short texts.
    fn written_out(&self, t: &mut Tally, pattern: &[u8], copies: &[u8]) {
        let (a, b) = (vet(pattern, EVIDENCE, 1), vet(copies, EVIDENCE, 1));
        t.check(a == b && refusal(copies) == 0, || format!("{}: got {a:?} and {b:?}", self.name));
        let differ = short_texts(pattern, copies).into_iter().find(|s| counted(pattern, s) != counted(copies, s));
        t.check(differ.is_none(), || format!("{}: not the same on {}", self.name, show(differ.as_ref().unwrap())));
    }

    /// refused, its refusal, and what to write, which reads an answer.
    fn refused(&self, t: &mut Tally, refused: &[u8]) {
        self.is_number(t, "refusal", refusal(refused));
        if let (Some(better), Some(answer)) = (self.text(t, "write"), self.text(t, "which reads")) {
            t.check(reads(&better, &answer), || format!("{}: which reads", self.name));
        }
    }

    /// characters that ISO 8859-1 does not have, and what to write, which reads an answer.
    fn missing(&self, t: &mut Tally, cell: &str) {
        let characters: Vec<&str> = cell.split('`').skip(1).step_by(2).collect();
        let none = |s: &&str| s.chars().count() == 1 && latin1(s).is_none();
        t.check(!characters.is_empty() && characters.iter().all(none), || format!("{}: it has", self.name));
        if let (Some(better), Some(answer)) = (self.text(t, "write"), self.text(t, "which reads")) {
            t.check(reads(&better, &answer), || format!("{}: which reads", self.name));
        }
    }

    /// instead of, its verdict, what to write, the verdict now, and what of both is the same. Where the answers are, they go wrong at
    /// the same letters.
    fn repair(&self, t: &mut Tally, old: &[u8]) {
        self.is_word(t, "verdict", verdict(old));
        let Some(new) = self.text(t, "write") else { return };
        self.is_word(t, "verdict now", verdict(&new));
        if self.cell("the same") == Some("answers and marks") {
            let differ = short_texts(old, &new).into_iter().find(|s| {
                let (a, b) = (counted(old, s), counted(&new, s));
                a.map(|(n, m, k)| (n > 0, m, k)) != b.map(|(n, m, k)| (n > 0, m, k))
            });
            t.check(differ.is_none(), || format!("{}: not the same on {}", self.name, show(differ.as_ref().unwrap())));
        }
    }
}

/// All texts up to some length over the lowest letters of the patterns' positions and one other letter.
fn short_texts(old: &[u8], new: &[u8]) -> Vec<Vec<u8>> {
    let mut letters = vec![b'~'];
    for p in [old, new].into_iter().filter_map(|p| model::read(p).ok()) {
        letters.extend(p.positions.iter().filter_map(|i| i.letters.first()));
    }
    letters.sort_unstable();
    letters.dedup();
    let mut all = vec![Vec::new()];
    let mut from = 0;
    while all.len() < 50_000 {
        let longer: Vec<Vec<u8>> = all[from..].iter().flat_map(|s| letters.iter().map(move |b| [s.as_slice(), &[*b]].concat())).collect();
        from = all.len();
        all.extend(longer);
    }
    all
}

// ---- prose

/// The paragraphs: neither tables nor headings nor examples that are set off, each as one line.
fn paragraphs(text: &str) -> Vec<String> {
    let mut all = vec![String::new()];
    for line in text.lines() {
        if line.is_empty() || line.starts_with(['|', '#']) || line.starts_with("    ") {
            all.push(String::new());
        } else {
            let last = all.last_mut().unwrap();
            last.push_str(line.trim());
            last.push(' ');
        }
    }
    all
}

fn prose(t: &mut Tally, page: &str, text: &str) {
    for paragraph in paragraphs(text) {
        // the odd ones stand between backticks
        let parts: Vec<&str> = paragraph.split('`').collect();
        for at in (1..parts.len()).step_by(2) {
            let begins = at == 1 || !joins(parts[at - 1]);
            if begins {
                phrase(t, page, &parts, at);
            }
        }
    }
}

fn joins(between: &str) -> bool {
    [", ", " and ", " or "].contains(&between)
}

/// The texts of a list that begins at part `from`, and the part of the words after it. One that is not in ISO 8859-1 is left out: no
/// claim is made of it, or the number of claims is wrong.
fn list(parts: &[&str], from: usize) -> (Vec<Vec<u8>>, usize) {
    let mut end = from + 1;
    while end + 1 < parts.len() && joins(parts[end]) {
        end += 2;
    }
    ((from..end).step_by(2).filter_map(|k| latin1(parts[k])).collect(), end)
}

/// A claim in prose: one or more texts, and words after them that say something of each.
fn phrase(t: &mut Tally, page: &str, parts: &[&str], from: usize) {
    let (subjects, end) = list(parts, from);
    let words = parts.get(end).copied().unwrap_or("");
    let objects = if end + 1 < parts.len() { list(parts, end + 1).0 } else { Vec::new() };
    for s in &subjects {
        let name = format!("{page}: `{}`{words}", show(s));
        if words.starts_with(" break the grammar") || words.starts_with(" breaks the grammar") {
            t.same(refusal(s), 5, &name);
        }
        if words.starts_with(" is good") || words.starts_with(" are good") {
            t.same(refusal(s), 0, &name);
        }
        if let Some(k) = words.strip_prefix(" is refused by ") {
            let digits = k.find(|c: char| !c.is_ascii_digit()).unwrap_or(k.len());
            t.same(Some(refusal(s)), number(&k[..digits]), &name);
        }
        if words.starts_with(" are refused by 4 unless they are converted") {
            let raw = not_converted(&show(s)).map(|r| refusal(&r));
            t.same((refusal(s), raw), (0, Some(4)), &name);
        }
        if let Some(codes) = words.strip_prefix(" reads the codes ") {
            let codes = codes.split([',', '.', ';']).next().unwrap_or("");
            let ends: Vec<u8> = codes.split(' ').filter_map(|n| n.parse().ok()).collect();
            let told = |b: u8| ends.chunks(2).any(|e| e[0] <= b && b <= e[1]);
            let wrong = (0..=255).find(|b| reads(s, &[*b]) != told(*b));
            t.same(wrong, None, &format!("{name}: the first code that is wrong"));
        }
        for v in ["single", "steady", "runaway"] {
            if words.starts_with(&format!(" is {v}")) {
                t.same(verdict(s), v, &name);
            }
        }
        for o in &objects {
            if let Some(n) = words.strip_suffix(" letters of ").and_then(|n| number(n.trim())) {
                t.same(counted(s, o).map(|c| c.2 as u64), Some(n), &format!("{name}`{}`", show(o)));
            }
            match words {
                " reads " => t.check(reads(s, o), || format!("{name}`{}`", show(o))),
                " does not read " => t.check(!reads(s, o) && refusal(s) == 0, || format!("{name}`{}`", show(o))),
                " has two readings by " => t.same(counted(o, s).map(|c| c.0), Some(2), &name),
                " has two readings of " => t.same(counted(s, o).map(|c| c.0), Some(2), &name),
                _ => {}
            }
        }
    }
}
