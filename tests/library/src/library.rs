//! The library's calls, as a client in C makes them, with every byte of lent memory watched: the evidence and the scratch stand
//! between guards, and the count behind a pointer is compared before and after.

extern "C" {
    fn marking_vet(pattern: *const u8, pattern_len: usize, evidence: *mut u8, evidence_len: usize) -> u64;
    fn marking_vet_in(pattern: *const u8, pattern_len: usize, evidence: *mut u8, evidence_len: usize, scratch: *mut u16, scratch_len: usize) -> u64;
    fn marking_mark(pattern: *const u8, pattern_len: usize, answer: *const u8, answer_len: usize, count: *mut u64) -> u64;
}

#[derive(Clone, Debug, PartialEq, Eq)]
pub enum Vetted {
    Refused(u8),
    Verdict { verdict: u8, positions: usize, texts: Vec<Vec<u8>> },
}

#[derive(Clone, Copy, Debug, PartialEq, Eq)]
pub enum Marked {
    Refused(u8),
    Answer { count: u64, mark: i32, taken: usize },
}

const GUARD: usize = 64;

/// The numbers of scratch that vetting asks for and uses. Of more that are lent the rest stay as they are.
pub const SCRATCH: usize = 4096;

/// What the evidence memory holds before a call: not constant, so that a moved byte shows.
fn old_byte(seed: u8, i: usize) -> u8 {
    (i as u8).wrapping_mul(31).wrapping_add(seed)
}

/// The call, and whatever it did to memory that it should not have done.
pub fn vet(pattern: &[u8], evidence_len: usize, seed: u8) -> Result<Vetted, String> {
    watched(evidence_len, seed, |evidence| unsafe { marking_vet(pattern.as_ptr(), pattern.len(), evidence, evidence_len) })
}

/// The same in lent scratch of so many numbers that holds garbage.
pub fn vet_in(pattern: &[u8], evidence_len: usize, scratch_len: usize, seed: u8) -> Result<Vetted, String> {
    let mut scratch: Vec<u16> = (0..scratch_len + 2 * GUARD).map(|i| (i as u16).wrapping_mul(40503).wrapping_add(u16::from(seed))).collect();
    let before = scratch.clone();
    let lent = unsafe { scratch.as_mut_ptr().add(GUARD) };
    let got = watched(evidence_len, seed, |evidence| unsafe { marking_vet_in(pattern.as_ptr(), pattern.len(), evidence, evidence_len, lent, scratch_len) });
    let end = GUARD + scratch_len.min(SCRATCH);
    if scratch[..GUARD] != before[..GUARD] || scratch[end..] != before[end..] {
        return Err("memory beside the scratch changed, or past what is used of it".into());
    }
    if matches!(got, Ok(Vetted::Refused(_))) && scratch != before {
        return Err("scratch changed by a refusal".into());
    }
    got
}

fn watched(evidence_len: usize, seed: u8, call: impl FnOnce(*mut u8) -> u64) -> Result<Vetted, String> {
    let mut memory: Vec<u8> = (0..evidence_len + 2 * GUARD).map(|i| old_byte(seed, i)).collect();
    let before = memory.clone();
    let r = call(unsafe { memory.as_mut_ptr().add(GUARD) });
    let field = |at: u32, bits: u32| (r >> at) & ((1 << bits) - 1);
    let refusal = field(0, 8) as u8;
    let lengths = [field(24, 12) as usize, field(36, 12) as usize, field(48, 12) as usize];
    if r >> 60 != 0 {
        return Err(format!("bits 60 to 63 are set: {r:#x}"));
    }
    if refusal != 0 {
        if r != u64::from(refusal) {
            return Err(format!("a refusal with other fields: {r:#x}"));
        }
        if memory != before {
            return Err("memory changed by a refusal".into());
        }
        return Ok(Vetted::Refused(refusal));
    }
    let total: usize = lengths.iter().sum();
    if total > evidence_len {
        return Err("texts longer than the evidence".into());
    }
    if memory[..GUARD] != before[..GUARD] || memory[GUARD + total..] != before[GUARD + total..] {
        return Err("memory changed beyond the texts".into());
    }
    let mut texts = Vec::new();
    let mut at = GUARD;
    for l in lengths {
        texts.push(memory[at..at + l].to_vec());
        at += l;
    }
    Ok(Vetted::Verdict { verdict: field(8, 8) as u8, positions: field(16, 8) as usize, texts })
}

pub fn mark(pattern: &[u8], answer: &[u8]) -> Result<Marked, String> {
    let old = 0x5a5a_1234_9876_a5a5;
    let mut guarded = [old, old, old];
    let r = unsafe { marking_mark(pattern.as_ptr(), pattern.len(), answer.as_ptr(), answer.len(), &mut guarded[1]) };
    if guarded[0] != old || guarded[2] != old {
        return Err("memory beside the count changed".into());
    }
    let refusal = ((r >> 32) & 0xff) as u8;
    if r >> 56 != 0 {
        return Err(format!("bits 56 and up are set: {r:#x}"));
    }
    if refusal != 0 {
        if guarded[1] != old {
            return Err("the count was written by a refusal".into());
        }
        if r & 0xffff_ffff != 0 {
            return Err(format!("a refusal with a mark: {r:#x}"));
        }
        if r >> 40 != 0 {
            return Err(format!("a refusal with letters taken: {r:#x}"));
        }
        return Ok(Marked::Refused(refusal));
    }
    let (count, taken) = (guarded[1], (r >> 40) as usize);
    if taken > answer.len() {
        return Err(format!("{taken} letters taken of {}", answer.len()));
    }
    if taken < answer.len() && count > 0 {
        return Err(format!("{taken} letters taken of {}, and {count} readings", answer.len()));
    }
    Ok(Marked::Answer { count, mark: r as u32 as i32, taken })
}

/// The number that the call returns, as it is.
pub fn mark_bits(pattern: &[u8], answer: &[u8]) -> u64 {
    unsafe { marking_mark(pattern.as_ptr(), pattern.len(), answer.as_ptr(), answer.len(), &mut 0) }
}
