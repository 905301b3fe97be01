//! The calls of the static library, as functions over slices. Places lent for values are filled beforehand, so that a value that is not written shows.

use oracle::model::Counters;
use oracle::verdict::Verdict;

/// What a place holds before it is lent.
const UNTOLD: usize = 0xDEAD_BEEF;

// Records and calls as include/vakelumba.h has them.
#[repr(C)]
struct Fault {
    rule: u8,
    node: usize,
    wrappers: usize,
    expected: usize,
    got: usize,
}

#[repr(C)]
struct Search {
    explored: usize,
    hits: usize,
    reached: usize,
}

type Writer = unsafe extern "C" fn(*const u8, usize, *mut u8, usize, *mut usize) -> u8;
type ShortWriter =
    unsafe extern "C" fn(*const u8, usize, *const u8, usize, *mut u16, usize, *mut u8, usize, *mut usize) -> u8;

extern "C" {
    fn vk_negate(s: *const u8, s_len: usize, out: *mut u8, out_len: usize, written: *mut usize) -> u8;
    fn vk_desugar(s: *const u8, s_len: usize, out: *mut u8, out_len: usize, written: *mut usize) -> u8;
    fn vk_pretty(s: *const u8, s_len: usize, out: *mut u8, out_len: usize, written: *mut usize) -> u8;
    fn vk_pretty_ascii(s: *const u8, s_len: usize, out: *mut u8, out_len: usize, written: *mut usize) -> u8;
    fn vk_to_one_sided(s: *const u8, s_len: usize, out: *mut u8, out_len: usize, written: *mut usize) -> u8;
    fn vk_is_positive(s: *const u8, s_len: usize, positive: *mut u8) -> u8;
    fn vk_depth(s: *const u8, s_len: usize, depth: *mut usize) -> u8;
    fn vk_verify(s: *const u8, s_len: usize, strict: bool, fault: *mut Fault) -> u8;
    fn vk_memory_words() -> usize;
    fn vk_reset(mem: *mut u16, mem_len: usize) -> u8;
    fn vk_well_formed(mem: *const u16, mem_len: usize) -> u8;
    fn vk_prove_into(
        counters: *mut Search,
        question: *const u8,
        question_len: usize,
        limit: usize,
        budget: usize,
        cache: bool,
        mem: *mut u16,
        mem_len: usize,
        work: *mut u64,
        work_len: usize,
        out: *mut u8,
        out_len: usize,
        written: *mut usize,
    ) -> u8;
    fn vk_shorten(
        question: *const u8,
        question_len: usize,
        tree: *const u8,
        tree_len: usize,
        mem: *mut u16,
        mem_len: usize,
        out: *mut u8,
        out_len: usize,
        written: *mut usize,
    ) -> u8;
    fn vk_expand(
        question: *const u8,
        question_len: usize,
        short_tree: *const u8,
        short_tree_len: usize,
        mem: *mut u16,
        mem_len: usize,
        out: *mut u8,
        out_len: usize,
        written: *mut usize,
    ) -> u8;
}

/// The calls that write bytes.
#[derive(Clone, Copy, Debug, PartialEq, Eq)]
pub enum Writing {
    Negate,
    Desugar,
    Pretty,
    PrettyAscii,
    ToOneSided,
}

pub const OVER_FORMULAS: [Writing; 4] = [Writing::Negate, Writing::Desugar, Writing::Pretty, Writing::PrettyAscii];

impl Writing {
    fn call(self) -> Writer {
        match self {
            Writing::Negate => vk_negate,
            Writing::Desugar => vk_desugar,
            Writing::Pretty => vk_pretty,
            Writing::PrettyAscii => vk_pretty_ascii,
            Writing::ToOneSided => vk_to_one_sided,
        }
    }
}

/// A call's number, and the value in the place lent for it.
#[derive(Clone, Copy, Debug, PartialEq, Eq)]
pub struct Said {
    pub answer: u8,
    pub value: usize,
}

impl Said {
    pub fn refused(answer: u8) -> Self {
        Said { answer, value: 0 }
    }
}

pub fn write(writing: Writing, s: &[u8], out: &mut [u8]) -> Said {
    let mut value = UNTOLD;
    // SAFETY: each pointer goes with the length of its slice, and the slices are apart.
    let answer = unsafe { writing.call()(s.as_ptr(), s.len(), out.as_mut_ptr(), out.len(), &mut value) };
    Said { answer, value }
}

pub fn is_positive(s: &[u8]) -> Said {
    let mut value = 0xEE;
    // SAFETY: as above.
    let answer = unsafe { vk_is_positive(s.as_ptr(), s.len(), &mut value) };
    Said { answer, value: usize::from(value) }
}

pub fn depth(s: &[u8]) -> Said {
    let mut value = UNTOLD;
    // SAFETY: as above.
    let answer = unsafe { vk_depth(s.as_ptr(), s.len(), &mut value) };
    Said { answer, value }
}

/// The verdict on a tree in shape mode or in strict mode. A refusal in reading has the number alone.
pub fn verify(s: &[u8], strict: bool) -> Verdict {
    let mut fault = Fault { rule: 0xEE, node: UNTOLD, wrappers: UNTOLD, expected: UNTOLD, got: UNTOLD };
    // SAFETY: as above; the record has the form of the header.
    let answer = unsafe { vk_verify(s.as_ptr(), s.len(), strict, &mut fault) };
    let two = |value: usize| u16::try_from(value).unwrap_or(u16::MAX);
    let one = |value: usize| u8::try_from(value).unwrap_or(u8::MAX);
    Verdict {
        answer,
        rule: fault.rule,
        node: two(fault.node),
        wrappers: two(fault.wrappers),
        expected: one(fault.expected),
        got: one(fault.got),
    }
}

pub fn memory_words() -> usize {
    // SAFETY: nothing is lent.
    unsafe { vk_memory_words() }
}

pub fn reset(mem: &mut [u16]) -> u8 {
    // SAFETY: the pointer goes with the length of its slice.
    unsafe { vk_reset(mem.as_mut_ptr(), mem.len()) }
}

pub fn well_formed(mem: &[u16]) -> u8 {
    // SAFETY: as above.
    unsafe { vk_well_formed(mem.as_ptr(), mem.len()) }
}

#[derive(Clone, Copy, Debug)]
pub struct Settings {
    pub limit: usize,
    pub budget: usize,
    pub cache: bool,
}

/// What `prove` says: its number, the counters, and how many bytes of a tree were written.
#[derive(Clone, Copy, Debug, PartialEq, Eq)]
pub struct Proved {
    pub answer: u8,
    pub counters: Counters,
    pub written: usize,
}

pub fn prove(s: &[u8], settings: Settings, mem: &mut [u16], work: &mut [u64], out: &mut [u8]) -> Proved {
    let Settings { limit, budget, cache } = settings;
    let mut search = Search { explored: UNTOLD, hits: UNTOLD, reached: UNTOLD };
    let mut written = UNTOLD;
    // SAFETY: each pointer goes with the length of its slice, the slices are apart, and the record has the form of the header.
    let answer = unsafe {
        vk_prove_into(
            &mut search,
            s.as_ptr(),
            s.len(),
            limit,
            budget,
            cache,
            mem.as_mut_ptr(),
            mem.len(),
            work.as_mut_ptr(),
            work.len(),
            out.as_mut_ptr(),
            out.len(),
            &mut written,
        )
    };
    let four = |value: usize| u32::try_from(value).unwrap_or(u32::MAX);
    let reached = u8::try_from(search.reached).unwrap_or(u8::MAX);
    Proved { answer, counters: Counters { explored: four(search.explored), hits: four(search.hits), reached }, written }
}

/// The calls between trees and short trees.
#[derive(Clone, Copy, Debug, PartialEq, Eq)]
pub enum Shorting {
    Shorten,
    Expand,
}

impl Shorting {
    fn call(self) -> ShortWriter {
        match self {
            Shorting::Shorten => vk_shorten,
            Shorting::Expand => vk_expand,
        }
    }
}

/// The message is a tree to be shortened, or a short tree to be expanded.
pub fn short(shorting: Shorting, question: &[u8], message: &[u8], mem: &mut [u16], out: &mut [u8]) -> Said {
    let mut value = UNTOLD;
    // SAFETY: each pointer goes with the length of its slice, and the slices are apart.
    let answer = unsafe {
        shorting.call()(
            question.as_ptr(),
            question.len(),
            message.as_ptr(),
            message.len(),
            mem.as_mut_ptr(),
            mem.len(),
            out.as_mut_ptr(),
            out.len(),
            &mut value,
        )
    };
    Said { answer, value }
}
