//! The library's functions as they are: over slices of words of any length, each answering 0 or the number of a
//! [`Refusal`](crate::Refusal). For tables that lie in memory as words, and for tests of what is refused; the other modules have
//! the same functions over rows and elements.
//!
//! include/tealbobbin.h says of each how long its slices are, what it writes, and which numbers it answers in which order.

// All of the crate's unsafe code is in this module: each call hands over slices as their pointers and lengths, and what is written
// is lent by `&mut`, so that it shares no memory with the rest.

use core::slice::{from_raw_parts, from_raw_parts_mut};

use crate::challenges::{Challenges, SampledChallenges};
use crate::field::Element;
use crate::processor::{AuxRow, MainRow, AUX_WIDTH, MAIN_WIDTH};
use crate::running_arguments::AffineMap;

mod raw {
    extern "C" {
        pub fn tealbobbin_base_add(a: u64, b: u64, out: *mut u64, len: usize) -> u32;
        pub fn tealbobbin_base_sub(a: u64, b: u64, out: *mut u64, len: usize) -> u32;
        pub fn tealbobbin_base_mul(a: u64, b: u64, out: *mut u64, len: usize) -> u32;
        pub fn tealbobbin_base_inverse(a: u64, out: *mut u64, len: usize) -> u32;
        pub fn tealbobbin_to_montgomery(a: u64, out: *mut u64, len: usize) -> u32;
        pub fn tealbobbin_from_montgomery(a: u64, out: *mut u64, len: usize) -> u32;
        pub fn tealbobbin_montgomery_add(a: u64, b: u64, out: *mut u64, len: usize) -> u32;
        pub fn tealbobbin_montgomery_mul(a: u64, b: u64, out: *mut u64, len: usize) -> u32;
        pub fn tealbobbin_montgomery_inverse(a: u64, out: *mut u64, len: usize) -> u32;
        pub fn tealbobbin_element_add(a: *const u64, al: usize, b: *const u64, bl: usize, out: *mut u64, len: usize) -> u32;
        pub fn tealbobbin_element_sub(a: *const u64, al: usize, b: *const u64, bl: usize, out: *mut u64, len: usize) -> u32;
        pub fn tealbobbin_element_mul(a: *const u64, al: usize, b: *const u64, bl: usize, out: *mut u64, len: usize) -> u32;
        pub fn tealbobbin_element_scale(k: u64, a: *const u64, al: usize, out: *mut u64, len: usize) -> u32;
        pub fn tealbobbin_element_inverse(a: *const u64, al: usize, out: *mut u64, len: usize) -> u32;
        pub fn tealbobbin_decode(row: *const u64, rl: usize, out: *mut u64, len: usize) -> u32;
        pub fn tealbobbin_challenges(
            sampled: *const u64,
            sl: usize,
            digest: *const u64,
            dl: usize,
            input: *const u64,
            il: usize,
            output: *const u64,
            ol: usize,
            record: *mut u64,
            len: usize,
        ) -> u32;
        pub fn tealbobbin_scan_maps(items: *mut u64, len: usize, chunk: usize) -> u32;
        pub fn tealbobbin_scan_products(items: *mut u64, len: usize, chunk: usize) -> u32;
        pub fn tealbobbin_scan_sums(items: *mut u64, len: usize, chunk: usize) -> u32;
        pub fn tealbobbin_fill(
            trace: *const u64,
            tl: usize,
            op_stack: *const u64,
            ol: usize,
            ram: *const u64,
            rl: usize,
            jump_stack: *const u64,
            jl: usize,
            table: *mut u64,
            len: usize,
        ) -> u32;
        pub fn tealbobbin_pad(table: *mut u64, len: usize, table_len: usize) -> u32;
        pub fn tealbobbin_extend(
            main: *const u64,
            ml: usize,
            challenges: *const u64,
            cl: usize,
            chunk: usize,
            aux: *mut u64,
            al: usize,
            work: *mut u64,
            wl: usize,
        ) -> u32;
        pub fn tealbobbin_extend_strict(
            main: *const u64,
            ml: usize,
            challenges: *const u64,
            cl: usize,
            chunk: usize,
            aux: *mut u64,
            al: usize,
            work: *mut u64,
            wl: usize,
        ) -> u32;
        pub fn tealbobbin_check(
            main: *const u64,
            ml: usize,
            challenges: *const u64,
            cl: usize,
            offered: *const u64,
            ol: usize,
            verdict: *mut u64,
            len: usize,
        ) -> u32;
        pub fn tealbobbin_check_at(
            main: *const u64,
            ml: usize,
            challenges: *const u64,
            cl: usize,
            offered: *const u64,
            ol: usize,
            verdict: *mut u64,
            len: usize,
        ) -> u32;
        pub fn tealbobbin_open(
            bytes: *const u8,
            bl: usize,
            trace: *mut u64,
            tl: usize,
            op_stack: *mut u64,
            ol: usize,
            ram: *mut u64,
            rl: usize,
            jump_stack: *mut u64,
            jl: usize,
            sampled: *mut u64,
            sl: usize,
            digest: *mut u64,
            dl: usize,
            input: *mut u64,
            il: usize,
            output: *mut u64,
            len: usize,
            counts: *mut u64,
            cl: usize,
        ) -> u32;
        pub fn tealbobbin_write(
            trace: *const u64,
            tl: usize,
            op_stack: *const u64,
            ol: usize,
            ram: *const u64,
            rl: usize,
            jump_stack: *const u64,
            jl: usize,
            sampled: *const u64,
            sl: usize,
            digest: *const u64,
            dl: usize,
            input: *const u64,
            il: usize,
            output: *const u64,
            len: usize,
            form: u64,
            k: u64,
            bytes: *mut u8,
            bl: usize,
        ) -> u32;
        pub fn tealbobbin_terminals(bytes: *const u8, bl: usize, cells: *mut u64, len: usize) -> u32;
    }
}

/// What lies in memory as words and nothing else.
///
/// # Safety
///
/// The type is made of words alone, and any words make it.
pub(crate) unsafe trait Words: Sized {}

macro_rules! made_of_words {
    ($($name:ident = $words:expr),* $(,)?) => { $(
        // SAFETY: transparent over words, or elements one after the other
        unsafe impl Words for $name {}
        const _: () = assert!(size_of::<$name>() == $words * size_of::<u64>() && align_of::<$name>() == align_of::<u64>());
    )* };
}

made_of_words! {
    Element = 3,
    AffineMap = 6,
    MainRow = MAIN_WIDTH,
    AuxRow = 3 * AUX_WIDTH,
    SampledChallenges = SampledChallenges::WORDS,
    Challenges = Challenges::WORDS,
}

/// The words that the items are made of.
pub(crate) fn words<T: Words>(items: &[T]) -> &[u64] {
    // SAFETY: by the trait, the same memory holds that many words
    unsafe { from_raw_parts(items.as_ptr().cast(), size_of_val(items) / size_of::<u64>()) }
}

/// The words that the items are made of, to be written.
pub(crate) fn words_mut<T: Words>(items: &mut [T]) -> &mut [u64] {
    // SAFETY: by the trait, the same memory holds that many words, and any words may be written there
    unsafe { from_raw_parts_mut(items.as_mut_ptr().cast(), size_of_val(items) / size_of::<u64>()) }
}

macro_rules! of_a_word {
    ($($(#[$meaning:meta])* $name:ident = $raw:ident),* $(,)?) => { $(
        $(#[$meaning])*
        #[must_use]
        pub fn $name(a: u64, out: &mut [u64]) -> u32 {
            unsafe { raw::$raw(a, out.as_mut_ptr(), out.len()) }
        }
    )* };
}

macro_rules! of_two_words {
    ($($(#[$meaning:meta])* $name:ident = $raw:ident),* $(,)?) => { $(
        $(#[$meaning])*
        #[must_use]
        pub fn $name(a: u64, b: u64, out: &mut [u64]) -> u32 {
            unsafe { raw::$raw(a, b, out.as_mut_ptr(), out.len()) }
        }
    )* };
}

macro_rules! of_two_elements {
    ($($(#[$meaning:meta])* $name:ident = $raw:ident),* $(,)?) => { $(
        $(#[$meaning])*
        #[must_use]
        pub fn $name(a: &[u64], b: &[u64], out: &mut [u64]) -> u32 {
            unsafe { raw::$raw(a.as_ptr(), a.len(), b.as_ptr(), b.len(), out.as_mut_ptr(), out.len()) }
        }
    )* };
}

macro_rules! scans {
    ($($(#[$meaning:meta])* $name:ident = $raw:ident),* $(,)?) => { $(
        $(#[$meaning])*
        #[must_use]
        pub fn $name(items: &mut [u64], chunk: usize) -> u32 {
            unsafe { raw::$raw(items.as_mut_ptr(), items.len(), chunk) }
        }
    )* };
}

macro_rules! extensions {
    ($($(#[$meaning:meta])* $name:ident = $raw:ident),* $(,)?) => { $(
        $(#[$meaning])*
        #[must_use]
        pub fn $name(main: &[u64], challenges: &[u64], chunk: usize, aux: &mut [u64], work: &mut [u64]) -> u32 {
            unsafe {
                raw::$raw(
                    main.as_ptr(),
                    main.len(),
                    challenges.as_ptr(),
                    challenges.len(),
                    chunk,
                    aux.as_mut_ptr(),
                    aux.len(),
                    work.as_mut_ptr(),
                    work.len(),
                )
            }
        }
    )* };
}

macro_rules! checks {
    ($($(#[$meaning:meta])* $name:ident = $raw:ident),* $(,)?) => { $(
        $(#[$meaning])*
        #[must_use]
        pub fn $name(main: &[u64], challenges: &[u64], offered: &[u64], verdict: &mut [u64]) -> u32 {
            unsafe {
                raw::$raw(
                    main.as_ptr(),
                    main.len(),
                    challenges.as_ptr(),
                    challenges.len(),
                    offered.as_ptr(),
                    offered.len(),
                    verdict.as_mut_ptr(),
                    verdict.len(),
                )
            }
        }
    )* };
}

of_a_word! {
    /// 1 / a modulo p.
    base_inverse = tealbobbin_base_inverse,
    /// The plain word in Montgomery form: a·2^64 modulo p.
    to_montgomery = tealbobbin_to_montgomery,
    /// The word in the form as a plain one: a / 2^64 modulo p.
    from_montgomery = tealbobbin_from_montgomery,
    /// The inverse of a word in the form, in the form.
    montgomery_inverse = tealbobbin_montgomery_inverse,
}

of_two_words! {
    /// a + b modulo p.
    base_add = tealbobbin_base_add,
    /// a - b modulo p.
    base_sub = tealbobbin_base_sub,
    /// a·b modulo p.
    base_mul = tealbobbin_base_mul,
    /// The sum of words in Montgomery form, in the form.
    montgomery_add = tealbobbin_montgomery_add,
    /// The product of words in Montgomery form, in the form.
    montgomery_mul = tealbobbin_montgomery_mul,
}

of_two_elements! {
    /// a + b.
    element_add = tealbobbin_element_add,
    /// a - b.
    element_sub = tealbobbin_element_sub,
    /// a·b.
    element_mul = tealbobbin_element_mul,
}

scans! {
    /// Of maps, six words each.
    scan_maps = tealbobbin_scan_maps,
    /// Of factors, three words each.
    scan_products = tealbobbin_scan_products,
    /// Of terms, three words each.
    scan_sums = tealbobbin_scan_sums,
}

extensions! {
    /// The eleven columns of `main` into `aux`.
    extend = tealbobbin_extend,
    /// The same, if every row of `main` decodes.
    extend_strict = tealbobbin_extend_strict,
}

checks! {
    /// Whether `offered` are the eleven columns of `main`: 1 into `verdict` if they are, or 0.
    check = tealbobbin_check,
    /// The same, into three words: 1, 0 and 0; or 0, the first row, and in it the first column, that is wrong.
    check_at = tealbobbin_check_at,
}

/// k·a.
#[must_use]
pub fn element_scale(k: u64, a: &[u64], out: &mut [u64]) -> u32 {
    unsafe { raw::tealbobbin_element_scale(k, a.as_ptr(), a.len(), out.as_mut_ptr(), out.len()) }
}

/// 1 / a.
#[must_use]
pub fn element_inverse(a: &[u64], out: &mut [u64]) -> u32 {
    unsafe { raw::tealbobbin_element_inverse(a.as_ptr(), a.len(), out.as_mut_ptr(), out.len()) }
}

/// Into `out` goes 1 and the opcode; 0 and 0 where no instruction has it; or 2 or 3 and the opcode where its argument is not in 0
/// to 15 or in 1 to 5.
#[must_use]
pub fn decode(row: &[u64], out: &mut [u64]) -> u32 {
    unsafe { raw::tealbobbin_decode(row.as_ptr(), row.len(), out.as_mut_ptr(), out.len()) }
}

/// All challenges into `record`.
#[must_use]
pub fn challenges(sampled: &[u64], digest: &[u64], input: &[u64], output: &[u64], record: &mut [u64]) -> u32 {
    unsafe {
        raw::tealbobbin_challenges(
            sampled.as_ptr(),
            sampled.len(),
            digest.as_ptr(),
            digest.len(),
            input.as_ptr(),
            input.len(),
            output.as_ptr(),
            output.len(),
            record.as_mut_ptr(),
            record.len(),
        )
    }
}

/// The trace and its multiplicities into `table`.
#[must_use]
pub fn fill(trace: &[u64], op_stack: &[u64], ram: &[u64], jump_stack: &[u64], table: &mut [u64]) -> u32 {
    unsafe {
        raw::tealbobbin_fill(
            trace.as_ptr(),
            trace.len(),
            op_stack.as_ptr(),
            op_stack.len(),
            ram.as_ptr(),
            ram.len(),
            jump_stack.as_ptr(),
            jump_stack.len(),
            table.as_mut_ptr(),
            table.len(),
        )
    }
}

/// Padding into the rows of `table` from `table_len` on.
#[must_use]
pub fn pad(table: &mut [u64], table_len: usize) -> u32 {
    unsafe { raw::tealbobbin_pad(table.as_mut_ptr(), table.len(), table_len) }
}

/// A batch into the slices: trace, op stack, RAM, jump stack, sampled, digest, input, output. Into `counts` go those of rows, op
/// stack, RAM, jump stack, input, output, and k, where the batch sets 2^k rows, or 0.
#[must_use]
pub fn open(bytes: &[u8], slices: [&mut [u64]; 8], counts: &mut [u64]) -> u32 {
    let [trace, op_stack, ram, jump_stack, sampled, digest, input, output] = slices;
    unsafe {
        raw::tealbobbin_open(
            bytes.as_ptr(),
            bytes.len(),
            trace.as_mut_ptr(),
            trace.len(),
            op_stack.as_mut_ptr(),
            op_stack.len(),
            ram.as_mut_ptr(),
            ram.len(),
            jump_stack.as_mut_ptr(),
            jump_stack.len(),
            sampled.as_mut_ptr(),
            sampled.len(),
            digest.as_mut_ptr(),
            digest.len(),
            input.as_mut_ptr(),
            input.len(),
            output.as_mut_ptr(),
            output.len(),
            counts.as_mut_ptr(),
            counts.len(),
        )
    }
}

/// The batch with these slices' contents into `bytes`: trace, op stack, RAM, jump stack, sampled, digest, input, output. Its rows are
/// plain if `form` is 0, and otherwise in Montgomery form; it sets 2^k rows unless `k` is 0.
#[must_use]
pub fn write(slices: [&[u64]; 8], form: u64, k: u64, bytes: &mut [u8]) -> u32 {
    let [trace, op_stack, ram, jump_stack, sampled, digest, input, output] = slices;
    unsafe {
        raw::tealbobbin_write(
            trace.as_ptr(),
            trace.len(),
            op_stack.as_ptr(),
            op_stack.len(),
            ram.as_ptr(),
            ram.len(),
            jump_stack.as_ptr(),
            jump_stack.len(),
            sampled.as_ptr(),
            sampled.len(),
            digest.as_ptr(),
            digest.len(),
            input.as_ptr(),
            input.len(),
            output.as_ptr(),
            output.len(),
            form,
            k,
            bytes.as_mut_ptr(),
            bytes.len(),
        )
    }
}

/// The last row's cells of the table that a batch leads to into `cells`.
#[must_use]
pub fn terminals(bytes: &[u8], cells: &mut [u64]) -> u32 {
    unsafe { raw::tealbobbin_terminals(bytes.as_ptr(), bytes.len(), cells.as_mut_ptr(), cells.len()) }
}
