//! The calls of libvakelumba.a on slices and references: the one module with `unsafe`. A slice is passed as its pointer and its length, and a
//! mutable one overlaps nothing else, as the borrow checker has seen; the library asks for no more.

/// Where a tree is wrong, as include/vakelumba.h has it.
#[repr(C)]
#[derive(Default)]
pub struct Fault {
    pub rule: u8,
    pub node: usize,
    pub wrappers: usize,
    pub expected: usize,
    pub got: usize,
}

/// What a search did.
#[repr(C)]
#[derive(Clone, Copy, Debug, Default, PartialEq, Eq)]
pub struct Counters {
    /// Sequents visited.
    pub explored: usize,
    /// Recorded failures met again.
    pub hits: usize,
    /// The greatest depth reached.
    pub reached: usize,
}

type Writer = unsafe extern "C" fn(*const u8, usize, *mut u8, usize, *mut usize) -> u8;
type ShortWriter = unsafe extern "C" fn(*const u8, usize, *const u8, usize, *mut u16, usize, *mut u8, usize, *mut usize) -> u8;

extern "C" {
    fn vk_negate(s: *const u8, s_len: usize, out: *mut u8, out_len: usize, written: *mut usize) -> u8;
    fn vk_desugar(s: *const u8, s_len: usize, out: *mut u8, out_len: usize, written: *mut usize) -> u8;
    fn vk_pretty(s: *const u8, s_len: usize, out: *mut u8, out_len: usize, written: *mut usize) -> u8;
    fn vk_pretty_ascii(s: *const u8, s_len: usize, out: *mut u8, out_len: usize, written: *mut usize) -> u8;
    fn vk_to_one_sided(s: *const u8, s_len: usize, out: *mut u8, out_len: usize, written: *mut usize) -> u8;
    fn vk_is_positive(s: *const u8, s_len: usize, positive: *mut u8) -> u8;
    fn vk_depth(s: *const u8, s_len: usize, depth: *mut usize) -> u8;
    fn vk_verify(s: *const u8, s_len: usize, strict: bool, fault: *mut Fault) -> u8;
    fn vk_memory_words() -> usize;
    fn vk_reset(mem: *mut u16, mem_len: usize) -> u8;
    fn vk_well_formed(mem: *const u16, mem_len: usize) -> u8;
    fn vk_prove_into(
        counters: *mut Counters,
        question: *const u8,
        question_len: usize,
        limit: usize,
        budget: usize,
        cache: bool,
        mem: *mut u16,
        mem_len: usize,
        work: *mut u64,
        work_len: usize,
        out: *mut u8,
        out_len: usize,
        written: *mut usize,
    ) -> u8;
    fn vk_shorten(
        question: *const u8,
        question_len: usize,
        tree: *const u8,
        tree_len: usize,
        mem: *mut u16,
        mem_len: usize,
        out: *mut u8,
        out_len: usize,
        written: *mut usize,
    ) -> u8;
    fn vk_expand(
        question: *const u8,
        question_len: usize,
        short_tree: *const u8,
        short_tree_len: usize,
        mem: *mut u16,
        mem_len: usize,
        out: *mut u8,
        out_len: usize,
        written: *mut usize,
    ) -> u8;
}

fn written_by(call: Writer, s: &[u8], out: &mut [u8]) -> (u8, usize) {
    let mut written = 0;
    // SAFETY: both slices are as long as is said, and `out` and `written` are lent to this call alone.
    let answer = unsafe { call(s.as_ptr(), s.len(), out.as_mut_ptr(), out.len(), &mut written) };
    (answer, written)
}

pub fn negate(s: &[u8], out: &mut [u8]) -> (u8, usize) {
    written_by(vk_negate, s, out)
}

pub fn desugar(s: &[u8], out: &mut [u8]) -> (u8, usize) {
    written_by(vk_desugar, s, out)
}

pub fn pretty(s: &[u8], out: &mut [u8]) -> (u8, usize) {
    written_by(vk_pretty, s, out)
}

pub fn pretty_ascii(s: &[u8], out: &mut [u8]) -> (u8, usize) {
    written_by(vk_pretty_ascii, s, out)
}

pub fn to_one_sided(s: &[u8], out: &mut [u8]) -> (u8, usize) {
    written_by(vk_to_one_sided, s, out)
}

pub fn is_positive(s: &[u8]) -> (u8, bool) {
    let mut positive = 0;
    // SAFETY: as in `written_by`.
    let answer = unsafe { vk_is_positive(s.as_ptr(), s.len(), &mut positive) };
    (answer, positive != 0)
}

pub fn depth(s: &[u8]) -> (u8, usize) {
    let mut depth = 0;
    // SAFETY: as in `written_by`.
    let answer = unsafe { vk_depth(s.as_ptr(), s.len(), &mut depth) };
    (answer, depth)
}

pub fn verify(s: &[u8], strict: bool) -> (u8, Fault) {
    let mut fault = Fault::default();
    // SAFETY: as in `written_by`; `Fault` is laid out as C lays it out.
    let answer = unsafe { vk_verify(s.as_ptr(), s.len(), strict, &mut fault) };
    (answer, fault)
}

pub fn memory_words() -> usize {
    // SAFETY: it takes nothing.
    unsafe { vk_memory_words() }
}

pub fn reset(mem: &mut [u16]) -> u8 {
    // SAFETY: as in `written_by`.
    unsafe { vk_reset(mem.as_mut_ptr(), mem.len()) }
}

pub fn well_formed(mem: &[u16]) -> u8 {
    // SAFETY: as in `written_by`.
    unsafe { vk_well_formed(mem.as_ptr(), mem.len()) }
}

/// The settings of a search.
pub struct Settings {
    pub limit: usize,
    pub budget: usize,
    pub cache: bool,
}

pub fn prove(question: &[u8], set: Settings, mem: &mut [u16], work: &mut [u64], out: &mut [u8]) -> (u8, usize, Counters) {
    let mut counters = Counters::default();
    let mut written = 0;
    // SAFETY: each slice is as long as is said, and those lent for writing are apart; `Counters` is laid out as C lays it out.
    let answer = unsafe {
        vk_prove_into(
            &mut counters,
            question.as_ptr(),
            question.len(),
            set.limit,
            set.budget,
            set.cache,
            mem.as_mut_ptr(),
            mem.len(),
            work.as_mut_ptr(),
            work.len(),
            out.as_mut_ptr(),
            out.len(),
            &mut written,
        )
    };
    (answer, written, counters)
}

fn short_by(call: ShortWriter, question: &[u8], message: &[u8], mem: &mut [u16], out: &mut [u8]) -> (u8, usize) {
    let mut written = 0;
    // SAFETY: each slice is as long as is said, and those lent for writing are apart.
    let answer = unsafe {
        call(
            question.as_ptr(),
            question.len(),
            message.as_ptr(),
            message.len(),
            mem.as_mut_ptr(),
            mem.len(),
            out.as_mut_ptr(),
            out.len(),
            &mut written,
        )
    };
    (answer, written)
}

pub fn shorten(question: &[u8], tree: &[u8], mem: &mut [u16], out: &mut [u8]) -> (u8, usize) {
    short_by(vk_shorten, question, tree, mem, out)
}

pub fn expand(question: &[u8], short: &[u8], mem: &mut [u16], out: &mut [u8]) -> (u8, usize) {
    short_by(vk_expand, question, short, mem, out)
}
