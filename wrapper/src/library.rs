//! The functions of include/nyelgomir.h as safe ones: slices in the place of pointers with lengths, references in that of arrays.
//!
//! What the header asks for is what Rust's types say. A slice is valid for its length, aligned and never null, of no length too; a `&mut` to
//! it overlaps nothing else that is lent, and no other thread reads or writes what it borrows. A reference to an array is all that for the
//! array's length. The library writes integers and floats alone, of which every bit pattern is a value, and keeps no pointer. The stack is
//! left to the caller: where it runs out, the guard page below it ends the program.

mod c {
    extern "C" {
        pub fn nyelgomir_sizes(file: *const u8, file_len: usize, sizes: &mut [u16; 12]) -> u8;
        pub fn nyelgomir_subfile(file: *const u8, file_len: usize, k: u32, part: &mut [usize; 2]) -> u8;
        pub fn nyelgomir_verdict(
            file: *const u8,
            file_len: usize,
            copy: *mut u8,
            copy_len: usize,
            findings: *mut u8,
            findings_len: usize,
            pairs: *mut u32,
            pairs_len: usize,
            answer: &mut [usize; 2],
        ) -> u8;
        pub fn nyelgomir_listing(
            file: *const u8,
            file_len: usize,
            copy: *mut u8,
            copy_len: usize,
            findings: *mut u8,
            findings_len: usize,
            pairs: *mut u32,
            pairs_len: usize,
            listing: *mut u8,
            listing_len: usize,
            answer: &mut [usize; 3],
        ) -> u8;
        pub fn nyelgomir_decimal(word: u32, text: &mut [u8; 13]) -> usize;
        pub fn nyelgomir_pair(
            file: *const u8,
            file_len: usize,
            left: u32,
            right: u32,
            copy: *mut u8,
            copy_len: usize,
            pairs: *mut u32,
            pairs_len: usize,
            answer: &mut [u32; 2],
        ) -> u8;
        pub fn nyelgomir_eye_lengths(file: *const u8, file_len: usize, code: u32, lengths: &mut [f64; 4]) -> u8;
        pub fn nyelgomir_finding_words(tag: u8, first: u16, second: u16, text: *mut u8, text_len: usize) -> usize;
        pub fn nyelgomir_number_words(number: u8, text: *mut u8, text_len: usize) -> usize;
        pub fn nyelgomir_verdict_words(verdict: u8, text: *mut u8, text_len: usize) -> usize;
    }
}

pub fn sizes(file: &[u8], sizes: &mut [u16; 12]) -> u8 {
    // SAFETY: a slice's own pointer with its length, and an array.
    unsafe { c::nyelgomir_sizes(file.as_ptr(), file.len(), sizes) }
}

pub fn subfile(file: &[u8], k: u32, part: &mut [usize; 2]) -> u8 {
    // SAFETY: a slice's own pointer with its length, and an array; every k has an answer.
    unsafe { c::nyelgomir_subfile(file.as_ptr(), file.len(), k, part) }
}

pub fn verdict(file: &[u8], copy: &mut [u8], findings: &mut [u8], pairs: &mut [u32], answer: &mut [usize; 2]) -> u8 {
    // SAFETY: the pointers of four slices, each with its length, and an array; the borrows keep them apart.
    unsafe {
        c::nyelgomir_verdict(
            file.as_ptr(),
            file.len(),
            copy.as_mut_ptr(),
            copy.len(),
            findings.as_mut_ptr(),
            findings.len(),
            pairs.as_mut_ptr(),
            pairs.len(),
            answer,
        )
    }
}

pub fn listing(file: &[u8], copy: &mut [u8], findings: &mut [u8], pairs: &mut [u32], listing: &mut [u8], answer: &mut [usize; 3]) -> u8 {
    // SAFETY: the pointers of five slices, each with its length, and an array; the borrows keep them apart.
    unsafe {
        c::nyelgomir_listing(
            file.as_ptr(),
            file.len(),
            copy.as_mut_ptr(),
            copy.len(),
            findings.as_mut_ptr(),
            findings.len(),
            pairs.as_mut_ptr(),
            pairs.len(),
            listing.as_mut_ptr(),
            listing.len(),
            answer,
        )
    }
}

pub fn decimal(word: u32, text: &mut [u8; 13]) -> usize {
    // SAFETY: an array; every word has a decimal.
    unsafe { c::nyelgomir_decimal(word, text) }
}

pub fn pair(file: &[u8], left: u32, right: u32, copy: &mut [u8], pairs: &mut [u32], answer: &mut [u32; 2]) -> u8 {
    // SAFETY: the pointers of three slices, each with its length, and an array; the borrows keep them apart, and every code has an answer.
    unsafe {
        c::nyelgomir_pair(file.as_ptr(), file.len(), left, right, copy.as_mut_ptr(), copy.len(), pairs.as_mut_ptr(), pairs.len(), answer)
    }
}

pub fn eye_lengths(file: &[u8], code: u32, lengths: &mut [f64; 4]) -> u8 {
    // SAFETY: a slice's own pointer with its length, and an array; every code has an answer.
    unsafe { c::nyelgomir_eye_lengths(file.as_ptr(), file.len(), code, lengths) }
}

pub fn finding_words(tag: u8, first: u16, second: u16, text: &mut [u8]) -> usize {
    // SAFETY: a slice's own pointer with its length; every tag and all numbers have a sentence.
    unsafe { c::nyelgomir_finding_words(tag, first, second, text.as_mut_ptr(), text.len()) }
}

pub fn number_words(number: u8, text: &mut [u8]) -> usize {
    // SAFETY: a slice's own pointer with its length; every number has a sentence.
    unsafe { c::nyelgomir_number_words(number, text.as_mut_ptr(), text.len()) }
}

pub fn verdict_words(verdict: u8, text: &mut [u8]) -> usize {
    // SAFETY: a slice's own pointer with its length; every verdict has a sentence.
    unsafe { c::nyelgomir_verdict_words(verdict, text.as_mut_ptr(), text.len()) }
}
