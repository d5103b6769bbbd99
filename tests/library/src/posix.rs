//! A second opinion on membership: the platform's regcomp and regexec, on the pattern written out as a POSIX extended
//! expression with one bracket expression for each atom. The tests set no locale, and in that of C regcomp takes each byte for a
//! letter of its own, those above 127 too. Ranges are written out, so that no order of letters plays a part. Intervals stand as they
//! are: every bound of an accepted pattern is one that POSIX asks for (RE_DUP_MAX is 255 or more), and what POSIX takes beyond, such as
//! `a{0}`, is refused and never comes here.

use crate::model::{Part, Pattern};
use std::ffi::{c_char, c_int, c_void, CString};

extern "C" {
    fn regcomp(preg: *mut c_void, pattern: *const c_char, flags: c_int) -> c_int;
    fn regexec(preg: *const c_void, text: *const c_char, n: usize, matches: *mut c_void, flags: c_int) -> c_int;
    fn regfree(preg: *mut c_void);
}

const REG_EXTENDED: c_int = 1;
const REG_NOSUB: c_int = 8;

fn bracket(letters: impl Iterator<Item = u8>, out: &mut Vec<u8>) {
    let set: Vec<u8> = letters.collect();
    if set == *b"^" {
        out.extend(b"\\^");
        return;
    }
    // `]` stands first, `^` not first, `-` first or last, and nothing after `[` makes a class name
    let mut inner: Vec<u8> = set.iter().copied().filter(|b| *b == b']').collect();
    inner.extend(set.iter().filter(|b| !b"]^-[".contains(b)));
    inner.extend(set.iter().filter(|b| **b == b'['));
    if inner.is_empty() && set.contains(&b'-') {
        inner.push(b'-');
    }
    inner.extend(set.iter().filter(|b| **b == b'^'));
    if set.contains(&b'-') && inner[0] != b'-' {
        inner.push(b'-');
    }
    out.push(b'[');
    out.extend(inner);
    out.push(b']');
}

fn written(p: &Pattern, part: &Part, out: &mut Vec<u8>) {
    out.push(b'(');
    match part {
        Part::Letter(i) => bracket(p.atoms[*i - 1].letters.iter().copied(), out),
        Part::Either(parts) => {
            for (k, q) in parts.iter().enumerate() {
                if k > 0 {
                    out.push(b'|');
                }
                written(p, q, out);
            }
        }
        Part::Joined(parts) => parts.iter().for_each(|q| written(p, q, out)),
        Part::Repeat(k, q) => {
            written(p, q, out);
            out.push(*k);
        }
        Part::Interval(b, q) => {
            written(p, q, out);
            let upper = b.upper.map_or(String::new(), |n| n.to_string());
            out.extend(format!("{{{},{upper}}}", b.lower).bytes());
        }
    }
    out.push(b')');
}

/// How many repeats stand one in another, and how many copies of what can be empty: an interval counts as one repeat, or as its copies
/// where the atom can be empty. The time that regcomp takes can double with each.
pub fn nested_repeats(part: &Part) -> usize {
    match part {
        Part::Letter(_) => 0,
        Part::Either(parts) | Part::Joined(parts) => parts.iter().map(nested_repeats).max().unwrap_or(0),
        Part::Repeat(_, q) => nested_repeats(q) + 1,
        Part::Interval(b, q) => nested_repeats(q) + if can_be_empty(q) { b.upper.unwrap_or(b.lower).max(1) } else { 1 },
    }
}

fn can_be_empty(part: &Part) -> bool {
    match part {
        Part::Letter(_) => false,
        Part::Either(parts) => parts.iter().any(can_be_empty),
        Part::Joined(parts) => parts.iter().all(can_be_empty),
        Part::Repeat(k, q) => *k != b'+' || can_be_empty(q),
        Part::Interval(b, q) => b.lower == 0 || can_be_empty(q),
    }
}

pub struct Regex {
    memory: Box<[u64; 64]>,
}

impl Regex {
    pub fn new(p: &Pattern) -> Option<Self> {
        let mut text = b"^".to_vec();
        written(p, &p.tree, &mut text);
        text.push(b'$');
        let mut memory = Box::new([0u64; 64]);
        let c = CString::new(text).ok()?;
        let status = unsafe { regcomp(memory.as_mut_ptr().cast(), c.as_ptr(), REG_EXTENDED | REG_NOSUB) };
        (status == 0).then_some(Regex { memory })
    }

    pub fn matches(&self, answer: &[u8]) -> bool {
        let c = CString::new(answer).unwrap();
        unsafe { regexec(self.memory.as_ptr().cast(), c.as_ptr(), 0, std::ptr::null_mut(), 0) == 0 }
    }
}

impl Drop for Regex {
    fn drop(&mut self) {
        unsafe { regfree(self.memory.as_mut_ptr().cast()) }
    }
}
