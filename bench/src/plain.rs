//! The same work without proofs: a reader of patterns into sets and numbers of links, marking by sets, marking by all pairs of
//! positions without sets, and the same search for a verdict. It is what the library is measured against.

/// A set of letters: code c is bit c % 64 of entry c / 64.
type Set = [u64; 4];

#[derive(Clone)]
pub struct Built {
    pub positions: usize,
    pub follow: [u64; 61],
    /// How many links lead from a state to each position beyond the first one: entry k of a state's row holds the positions whose
    /// number has binary digit k. Empty where no two are linked twice.
    pub more: Vec<[u64; 8]>,
    pub lasts: u64,
    pub letters: [Set; 61],
    pub credits: [i8; 61],
}

impl Built {
    fn new() -> Self {
        Built { positions: 0, follow: [0; 61], more: Vec::new(), lasts: 0, letters: [[0; 4]; 61], credits: [0; 61] }
    }

    /// One link more from a state to each of a set that it leads to already: an addition with carry.
    #[inline(never)]
    fn one_more(&mut self, a: usize, set: u64) {
        if self.more.is_empty() {
            self.more = vec![[0; 8]; 61];
        }
        let mut carry = set;
        for digit in &mut self.more[a] {
            if carry == 0 {
                break;
            }
            (*digit, carry) = (*digit ^ carry, *digit & carry);
        }
    }

    /// Entry i, u: how many links lead from state u to position i, where one does. Empty where no two are linked twice.
    fn numbers(&self) -> Vec<[u8; 61]> {
        if self.more.is_empty() {
            return Vec::new();
        }
        let mut numbers = vec![[1u8; 61]; 61];
        for (u, row) in self.more.iter().enumerate() {
            for (k, digit) in row.iter().enumerate() {
                let mut left = *digit;
                while left != 0 {
                    numbers[left.trailing_zeros() as usize][u] += 1 << k;
                    left &= left - 1;
                }
            }
        }
        numbers
    }

    /// The positions to which two links or more lead from a state.
    fn doubles(&self, u: usize) -> u64 {
        self.more.get(u).map_or(0, |row| row.iter().fold(0, |all, d| all | d))
    }
}

struct Reader<'a> {
    text: &'a [u8],
    at: usize,
    built: &'a mut Built,
    reversed: bool,
    hollow: bool,
    misbounded: bool,
    positions: usize,
}

#[derive(Clone, Copy)]
struct Part {
    empty: bool,
    firsts: u64,
    lasts: u64,
}

const SPECIAL: &[u8] = b"|*+?()[]{}^$.\\=";

/// The codes 32 to 126 and 160 to 255.
const ALL: Set = [!0 << 32, !0 >> 1, !0 << 32, !0];

fn is_letter(c: u8) -> bool {
    matches!(c, 32..=126 | 160..=255)
}

fn one(c: u8) -> Set {
    std::array::from_fn(|k| u64::from(k == c as usize >> 6) << (c & 63))
}

fn share(a: &Set, b: &Set) -> bool {
    (0..4).fold(0, |all, k| all | a[k] & b[k]) != 0
}

/// What is shown first: `a` to `z`, `A` to `Z`, `0` to `9`, and then the other letters by code. Each is an entry of a set and a mask.
const GROUPS: [(usize, u64); 7] =
    [(1, ((1 << 26) - 1) << 33), (1, ((1 << 26) - 1) << 1), (0, ((1 << 10) - 1) << 48), (0, !0), (1, !0), (2, !0), (3, !0)];

/// The letter shown for two sets: of the first group in which they share one, the lowest that they share.
fn shown(a: &Set, b: &Set) -> u8 {
    let (k, group) = GROUPS.into_iter().find(|(k, group)| a[*k] & b[*k] & group != 0).unwrap_or((0, 0));
    (64 * k as u32 + (a[k] & b[k] & group).trailing_zeros()) as u8
}

impl Reader<'_> {
    fn peek(&self) -> u8 {
        *self.text.get(self.at).unwrap_or(&0)
    }

    fn link(&mut self, lasts: u64, firsts: u64) {
        let mut left = lasts;
        while left != 0 {
            let a = left.trailing_zeros() as usize;
            left &= left - 1;
            let old = self.built.follow[a] & firsts;
            if old != 0 {
                self.built.one_more(a, old);
            }
            self.built.follow[a] |= firsts;
        }
    }

    fn pattern(&mut self) -> Option<Part> {
        let mut all = self.branch()?;
        while self.peek() == b'|' {
            self.at += 1;
            let b = self.branch()?;
            all = Part { empty: all.empty | b.empty, firsts: all.firsts | b.firsts, lasts: all.lasts | b.lasts };
        }
        Some(all)
    }

    fn branch(&mut self) -> Option<Part> {
        let mut a = self.piece()?;
        while self.at < self.text.len() && self.peek() != b'|' && self.peek() != b')' {
            let b = self.piece()?;
            self.link(a.lasts, b.firsts);
            a = Part {
                empty: a.empty & b.empty,
                firsts: a.firsts | if a.empty { b.firsts } else { 0 },
                lasts: b.lasts | if b.empty { a.lasts } else { 0 },
            };
        }
        Some(a)
    }

    fn piece(&mut self) -> Option<Part> {
        let before = self.positions;
        let mut a = if self.peek() == b'(' {
            self.at += 1;
            let a = self.pattern()?;
            if self.peek() != b')' {
                return None;
            }
            self.at += 1;
            a
        } else {
            self.lettered()?
        };
        match self.peek() {
            b'?' => {
                self.at += 1;
                a.empty = true;
            }
            k @ (b'*' | b'+') => {
                self.at += 1;
                self.link(a.lasts, a.firsts);
                a.empty |= k == b'*';
            }
            b'{' => {
                self.at += 1;
                a = self.interval(before, a)?;
            }
            _ => {}
        }
        Some(a)
    }

    /// A bound: up to three digits.
    fn bound(&mut self) -> Option<usize> {
        let from = self.at;
        let mut value = 0;
        while self.peek().is_ascii_digit() && self.at < from + 3 {
            value = 10 * value + usize::from(self.peek() - b'0');
            self.at += 1;
        }
        (self.at > from).then_some(value)
    }

    /// A part that has the positions past `before`, with its interval: copies of its rows, of the numbers of its links, of its letters and
    /// its credits, each moved on, are joined one to another.
    fn interval(&mut self, before: usize, part: Part) -> Option<Part> {
        let lower = self.bound()?;
        let mut upper = Some(lower);
        if self.peek() == b',' {
            self.at += 1;
            upper = if self.peek() == b'}' { None } else { Some(self.bound()?) };
        }
        if self.peek() != b'}' {
            return None;
        }
        self.at += 1;
        if lower > 255 || upper.is_some_and(|n| n == 0 || n < lower || n > 255) {
            self.misbounded = true;
            return Some(part);
        }
        let copies = upper.unwrap_or(lower.max(1));
        let w = self.positions - before;
        let end = before + copies * w;
        if end > 60 {
            self.positions = end.min(1000);
            return Some(part);
        }
        self.positions = end;
        let b = &mut *self.built;
        for i in before + 1..=end - w {
            b.letters[i + w] = b.letters[i];
            b.credits[i + w] = b.credits[i];
            b.follow[i + w] = b.follow[i] << w;
        }
        if !b.more.is_empty() {
            for i in before + 1..=end - w {
                b.more[i + w] = b.more[i].map(|digit| digit << w);
            }
        }
        let mut all = part;
        let mut one = part;
        let mut ends = part.lasts;
        for k in 1..copies {
            one = Part { empty: one.empty, firsts: one.firsts << w, lasts: one.lasts << w };
            self.link(all.lasts, one.firsts);
            all = Part {
                empty: all.empty,
                firsts: all.firsts | if all.empty { one.firsts } else { 0 },
                lasts: one.lasts | if one.empty { all.lasts } else { 0 },
            };
            ends = all.lasts | if lower <= k { ends } else { 0 };
        }
        if upper.is_none() {
            self.link(one.lasts, one.firsts);
        }
        Some(Part { empty: all.empty | (lower == 0), firsts: all.firsts, lasts: ends })
    }

    fn class_letter(&mut self) -> Option<u8> {
        let b = *self.text.get(self.at)?;
        if b == b'\\' {
            let c = *self.text.get(self.at + 1)?;
            if !b"[]\\^-".contains(&c) {
                return None;
            }
            self.at += 2;
            return Some(c);
        }
        if b"[]\\^-".contains(&b) {
            return None;
        }
        self.at += 1;
        Some(b)
    }

    fn class(&mut self) -> Option<Set> {
        let others = self.peek() == b'^';
        self.at += usize::from(others);
        let mut set: Set = [0; 4];
        let mut items = 0;
        while let Some(a) = self.class_letter() {
            let mut b = a;
            if self.peek() == b'-' {
                self.at += 1;
                b = self.class_letter()?;
            }
            self.reversed |= a > b;
            let (first, last) = (a as usize >> 6, b as usize >> 6);
            let (from, to) = (!0 << (a & 63), !0 >> (63 - (b & 63)));
            for (k, word) in set.iter_mut().enumerate() {
                let inside = if first <= k && k <= last { !0 } else { 0 };
                *word |= inside & if k == first { from } else { !0 } & if k == last { to } else { !0 };
            }
            items += 1;
        }
        if items == 0 || self.peek() != b']' {
            return None;
        }
        self.at += 1;
        Some(std::array::from_fn(|k| ALL[k] & if others { !set[k] } else { set[k] }))
    }

    fn lettered(&mut self) -> Option<Part> {
        let b = *self.text.get(self.at)?;
        self.at += 1;
        let set = match b {
            b'[' => self.class()?,
            b'.' => ALL,
            b'\\' => {
                let c = self.peek();
                if !SPECIAL.contains(&c) {
                    return None;
                }
                self.at += 1;
                one(c)
            }
            _ if SPECIAL.contains(&b) => return None,
            _ => one(b),
        };
        let mut credit = 0;
        if self.peek() == b'=' {
            self.at += 1;
            let mut d = self.peek();
            let off = d == b'-';
            if off {
                self.at += 1;
                d = self.peek();
            }
            if !(b'1'..=b'9').contains(&d) {
                return None;
            }
            self.at += 1;
            let points = (d - b'0') as i8;
            credit = if off { -points } else { points };
        }
        self.hollow |= set == [0; 4];
        self.positions += 1;
        let mut bit = 0;
        if self.positions <= 60 {
            self.built.letters[self.positions] = set;
            self.built.credits[self.positions] = credit;
            bit = 1 << self.positions;
        }
        Some(Part { empty: false, firsts: bit, lasts: bit })
    }
}

/// The pattern is put into a new table, so that no table is copied.
pub fn read(text: &[u8], built: &mut Built) -> Result<(), u8> {
    if text.len() > 512 {
        return Err(3);
    }
    if text.iter().any(|b| !is_letter(*b)) {
        return Err(4);
    }
    let mut r = Reader { text, at: 0, built, reversed: false, hollow: false, misbounded: false, positions: 0 };
    let Some(part) = r.pattern().filter(|_| r.at == text.len()) else { return Err(5) };
    if r.reversed {
        return Err(6);
    }
    if r.hollow {
        return Err(7);
    }
    if r.misbounded {
        return Err(11);
    }
    if r.positions > 60 {
        return Err(8);
    }
    r.built.positions = r.positions;
    r.built.follow[0] = part.firsts;
    r.built.lasts = part.lasts | u64::from(part.empty);
    Ok(())
}

/// The number of positions, and the most that may come next after a state, the start or a position.
pub fn follows(text: &[u8]) -> Result<(usize, u32), u8> {
    let mut b = Built::new();
    read(text, &mut b)?;
    Ok((b.positions, b.follow.iter().map(|row| row.count_ones()).max().unwrap_or(0)))
}

fn plus(a: u64, b: u64) -> u64 {
    match a.checked_add(b) {
        Some(n) if n < 1 << 63 => n,
        _ => 1 << 63,
    }
}

fn times(a: u64, links: u8) -> u64 {
    a.saturating_mul(u64::from(links))
}

/// For each position the states before it, and for each letter the positions that hold it.
struct Sets {
    before: [u64; 61],
    holders: [u64; 256],
}

fn sets(b: &Built) -> Sets {
    let mut s = Sets { before: [0; 61], holders: [0; 256] };
    for u in 0..=b.positions {
        let mut left = b.follow[u];
        while left != 0 {
            s.before[left.trailing_zeros() as usize] |= 1 << u;
            left &= left - 1;
        }
    }
    for i in 1..=b.positions {
        for (k, word) in b.letters[i].iter().enumerate() {
            let mut left = *word;
            while left != 0 {
                s.holders[64 * k + left.trailing_zeros() as usize] |= 1 << i;
                left &= left - 1;
            }
        }
    }
    s
}

/// The pattern, where nothing refuses it or the answer.
fn accepted(text: &[u8], answer: &[u8], b: &mut Built) -> Result<(), u8> {
    read(text, b)?;
    if answer.len() > 4096 {
        return Err(9);
    }
    if answer.iter().any(|c| !is_letter(*c)) {
        return Err(10);
    }
    Ok(())
}

/// Marking by sets: the count, the mark and the letters taken.
pub fn mark(text: &[u8], answer: &[u8]) -> Result<(u64, i32, usize), u8> {
    let mut b = Built::new();
    accepted(text, answer, &mut b)?;
    let s = sets(&b);
    let numbers = b.numbers();
    // where no two are linked twice there is no multiplication
    Ok(if numbers.is_empty() { mark_by::<false>(&b, &s, &numbers, answer) } else { mark_by::<true>(&b, &s, &numbers, answer) })
}

#[inline(never)]
fn mark_by<const LINKED: bool>(b: &Built, s: &Sets, numbers: &[[u8; 61]], answer: &[u8]) -> (u64, i32, usize) {
    let mut counts = [[0u64; 61]; 2];
    let mut best = [[0i32; 61]; 2];
    counts[0][0] = 1;
    let mut active = 1u64;
    let mut row = 0;
    for (k, c) in answer.iter().enumerate() {
        let mut left = s.holders[*c as usize];
        let mut next = 0;
        while left != 0 {
            let i = left.trailing_zeros() as usize;
            left &= left - 1;
            let mut from = s.before[i] & active;
            if from == 0 {
                continue;
            }
            next |= 1 << i;
            let (mut n, mut m) = (0, i32::MIN);
            while from != 0 {
                let u = from.trailing_zeros() as usize;
                from &= from - 1;
                m = m.max(best[row][u]);
                n = plus(n, if LINKED { times(counts[row][u], numbers[i][u]) } else { counts[row][u] });
            }
            counts[1 - row][i] = n;
            best[1 - row][i] = m + i32::from(b.credits[i]);
        }
        active = next;
        row = 1 - row;
        if active == 0 {
            return (0, 0, k + 1);
        }
    }
    let (mut n, mut m) = (0, i32::MIN);
    let mut left = active & b.lasts;
    while left != 0 {
        let u = left.trailing_zeros() as usize;
        left &= left - 1;
        n = plus(n, counts[row][u]);
        m = m.max(best[row][u]);
    }
    // n is 0 where no last is possible
    (n, if n == 0 { 0 } else { m }, answer.len())
}

/// Marking by trying all pairs of positions at each letter, without sets, and to the last letter, also where the answer went wrong before.
pub fn mark_all_pairs(text: &[u8], answer: &[u8]) -> Result<(u64, i32, usize), u8> {
    let mut b = Built::new();
    accepted(text, answer, &mut b)?;
    let numbers = b.numbers();
    let linked = !numbers.is_empty();
    let mut follow = [[false; 61]; 61];
    let mut holds = [[false; 61]; 256];
    for u in 0..61 {
        for i in 1..61 {
            follow[u][i] = b.follow[u] >> i & 1 == 1;
        }
        for (c, row) in holds.iter_mut().enumerate() {
            row[u] = b.letters[u][c >> 6] >> (c & 63) & 1 == 1;
        }
    }
    let mut counts = [0u64; 61];
    let mut best = [None::<i32>; 61];
    counts[0] = 1;
    best[0] = Some(0);
    let mut along = 0; // letters after which some position is possible
    for c in answer {
        let held = &holds[*c as usize];
        let mut new_counts = [0u64; 61];
        let mut new_best = [None::<i32>; 61];
        for i in 1..=b.positions {
            for u in 0..=b.positions {
                if follow[u][i] && held[i] {
                    new_counts[i] = plus(new_counts[i], if linked { times(counts[u], numbers[i][u]) } else { counts[u] });
                    if let Some(m) = best[u] {
                        new_best[i] = new_best[i].max(Some(m + i32::from(b.credits[i])));
                    }
                }
            }
        }
        counts = new_counts;
        best = new_best;
        along += usize::from(counts.iter().any(|n| *n > 0));
    }
    let (mut n, mut m) = (0, None);
    for u in 0..=b.positions {
        if b.lasts >> u & 1 == 1 {
            n = plus(n, counts[u]);
            m = m.max(best[u]);
        }
    }
    Ok((n, m.unwrap_or(0), answer.len().min(along + 1)))
}

/// The search for a verdict: pairs unordered, breadth first, a queue with predecessors.
pub struct Search {
    queue: [u16; 2048],
    from: [u16; 2048],
    seen: [u64; 61],
    alone: u64,
    tail: usize,
}

impl Search {
    pub fn new() -> Self {
        Search { queue: [0; 2048], from: [0; 2048], seen: [0; 61], alone: 0, tail: 0 }
    }

    fn push(&mut self, node: u16, from: usize) {
        self.queue[self.tail] = node;
        self.from[self.tail] = from as u16;
        self.tail += 1;
    }

    /// The queue number of the first goal, if there is one.
    fn run<const PARTED: bool>(&mut self, b: &Built, shares: &[u64; 61], start: usize, goal: u64) -> Option<usize> {
        self.seen = [0; 61];
        self.alone = 1 << start;
        self.tail = 0;
        self.push(start as u16, 0);
        if !PARTED && goal >> start & 1 == 1 {
            return Some(0);
        }
        let mut head = 0;
        while head < self.tail {
            let node = self.queue[head] as usize;
            let (c, d) = if node < 64 { (node, node) } else { (node / 64, node % 64) };
            let mut left = b.follow[c];
            let doubles = if node < 64 { b.doubles(c) } else { 0 };
            while left != 0 {
                let a = left.trailing_zeros() as usize;
                left &= left - 1;
                let mut with = b.follow[d] & shares[a] & !self.seen[a];
                if node < 64 {
                    // two links to one position part the paths as two positions do
                    with &= !(1 << a) | doubles;
                    if self.alone >> a & 1 == 0 {
                        self.alone |= 1 << a;
                        self.push(a as u16, head);
                        if !PARTED && goal >> a & 1 == 1 {
                            return Some(self.tail - 1);
                        }
                    }
                }
                while with != 0 {
                    let e = with.trailing_zeros() as usize;
                    with &= with - 1;
                    self.seen[a] |= 1 << e;
                    self.seen[e] |= 1 << a;
                    self.push((a.max(e) * 64 + a.min(e)) as u16, head);
                    if PARTED && goal >> a & 1 == 1 && goal >> e & 1 == 1 {
                        return Some(self.tail - 1);
                    }
                }
            }
            head += 1;
        }
        None
    }

    /// The text that leads to a node of the queue, put at the end of out.
    fn text(&self, b: &Built, mut at: usize, out: &mut Vec<u8>) {
        let begin = out.len();
        while at != 0 {
            let node = self.queue[at] as usize;
            let (c, d) = if node < 64 { (node, node) } else { (node / 64, node % 64) };
            out.push(shown(&b.letters[c], &b.letters[d]));
            at = self.from[at] as usize;
        }
        out[begin..].reverse();
    }
}

impl Default for Search {
    fn default() -> Self {
        Self::new()
    }
}

pub fn vet(text: &[u8], s: &mut Search) -> Result<(u8, usize, [usize; 3], Vec<u8>), u8> {
    let mut b = Built::new();
    read(text, &mut b)?;
    let mut shares = [0u64; 61];
    for i in 1..=b.positions {
        for j in 1..=b.positions {
            if share(&b.letters[i], &b.letters[j]) {
                shares[i] |= 1 << j;
            }
        }
    }
    let mut out = Vec::new();
    let none = [0u64; 61];
    for q in 1..=b.positions {
        if s.run::<true>(&b, &shares, q, 1 << q).is_some() {
            let at = s.run::<false>(&b, &none, 0, 1 << q).unwrap_or(0);
            s.text(&b, at, &mut out);
            let x = out.len();
            let at = s.run::<true>(&b, &shares, q, 1 << q).unwrap_or(0);
            s.text(&b, at, &mut out);
            let y = out.len() - x;
            let at = s.run::<false>(&b, &none, q, b.lasts).unwrap_or(0);
            s.text(&b, at, &mut out);
            let z = out.len() - x - y;
            return Ok((2, b.positions, [x, y, z], out));
        }
    }
    if let Some(at) = s.run::<true>(&b, &shares, 0, b.lasts) {
        s.text(&b, at, &mut out);
        return Ok((1, b.positions, [out.len(), 0, 0], out));
    }
    Ok((0, b.positions, [0, 0, 0], out))
}
