//! TeX font metric (TFM) files read exactly: safe functions over the proved library of include/nyelgomir.h.
//!
//! Nothing is allocated but the sentences in words, and nothing is kept: the caller lends the buffers. After a refusal with
//! [`Refusal::PairRoomTooSmall`], [`Refusal::FindingsTooShort`] or [`Refusal::ListingTooShort`] every lent buffer is all zeros; every other
//! refusal leaves them as they were found. After acceptance the pair room is all zeros, and bytes after what is written keep their values.
//!
//! [`verdict`], [`listing`] and [`pair`] settle pairs by calls that nest, 64 bytes of stack each: a font can be made that needs more than a
//! thread of the standard library has by default. [`DEEPEST_STACK`] bytes are enough.

use std::fmt;

mod library;

/// The left code of a pair at the beginning of a word.
pub const LEFT_BOUNDARY: u32 = 256;

/// Entries of a pair room that are always enough.
pub const PAIR_ENTRIES: usize = 65_792;

/// Bytes of stack that are always enough; docs/BENCH.md has what was measured.
pub const DEEPEST_STACK: usize = 8 << 20;

const DECIMAL_BYTES: usize = 13;
const SENTENCE_BYTES: usize = 160;
const FINDING_BYTES: usize = 7;

/// Bytes of copy that are enough for a file of `lf` words.
pub const fn copy_bytes(lf: u16) -> usize {
    4 * lf as usize
}

/// Bytes of findings that are enough for a file of `lf` words.
pub const fn findings_bytes(lf: u16) -> usize {
    42 * (lf as usize + 108)
}

/// Why there is no answer, by the numbers of the library.
#[derive(Clone, Copy, Debug, PartialEq, Eq)]
pub enum Refusal {
    NoBytes = 1,
    FirstByteOver127,
    OneByte,
    NoWords,
    FewerBytesThanLf,
    FewerThanSixWords,
    SizeOver32767,
    HeaderTooShort,
    CodeRange,
    EmptyLengthTable,
    Over256Recipes,
    SizesDoNotAddUp,
    CopyTooShort,
    PairRoomTooSmall,
    FindingsTooShort,
    ListingTooShort,
    ArgumentOutOfRange,
    NoSuchCharacter,
}

impl Refusal {
    /// Every refusal, in the order of their numbers.
    pub const ALL: [Refusal; 18] = [
        Refusal::NoBytes,
        Refusal::FirstByteOver127,
        Refusal::OneByte,
        Refusal::NoWords,
        Refusal::FewerBytesThanLf,
        Refusal::FewerThanSixWords,
        Refusal::SizeOver32767,
        Refusal::HeaderTooShort,
        Refusal::CodeRange,
        Refusal::EmptyLengthTable,
        Refusal::Over256Recipes,
        Refusal::SizesDoNotAddUp,
        Refusal::CopyTooShort,
        Refusal::PairRoomTooSmall,
        Refusal::FindingsTooShort,
        Refusal::ListingTooShort,
        Refusal::ArgumentOutOfRange,
        Refusal::NoSuchCharacter,
    ];

    pub fn number(self) -> u8 {
        self as u8
    }
}

/// The library's own sentence.
impl fmt::Display for Refusal {
    fn fmt(&self, out: &mut fmt::Formatter) -> fmt::Result {
        out.write_str(&words(|text| library::number_words(self.number(), text)))
    }
}

impl std::error::Error for Refusal {}

fn accepted(number: u8) -> Result<(), Refusal> {
    match number {
        0 => Ok(()),
        refused => Err(Refusal::ALL[usize::from(refused) - 1]),
    }
}

/// What a file is judged to be.
#[derive(Clone, Copy, Debug, PartialEq, Eq)]
pub enum Verdict {
    Clean = 1,
    Mended,
    Looping,
}

impl Verdict {
    fn of(number: usize) -> Verdict {
        [Verdict::Clean, Verdict::Mended, Verdict::Looping][number - 1]
    }
}

/// The library's own sentence.
impl fmt::Display for Verdict {
    fn fmt(&self, out: &mut fmt::Formatter) -> fmt::Result {
        out.write_str(&words(|text| library::verdict_words(*self as u8, text)))
    }
}

/// What becomes of a pair: the code that it leaves left of the cursor, or a rewriting that never ends.
#[derive(Clone, Copy, Debug, PartialEq, Eq)]
pub enum Outcome {
    Leaves(u32),
    Loops,
}

/// One thing that is not as it should be; include/nyelgomir.h says what the two numbers of each tag mean.
#[derive(Clone, Copy, Debug, PartialEq, Eq)]
pub struct Finding {
    pub tag: u8,
    pub first: u16,
    pub second: u16,
}

/// The library's own sentence.
impl fmt::Display for Finding {
    fn fmt(&self, out: &mut fmt::Formatter) -> fmt::Result {
        out.write_str(&words(|text| library::finding_words(self.tag, self.first, self.second, text)))
    }
}

/// The findings that these records hold.
pub fn findings(records: &[u8]) -> impl ExactSizeIterator<Item = Finding> + '_ {
    records.chunks_exact(FINDING_BYTES).map(|record| Finding {
        tag: record[0],
        first: u16::from_be_bytes([record[3], record[4]]),
        second: u16::from_be_bytes([record[5], record[6]]),
    })
}

/// A verdict with what it rests on, in the caller's own buffers.
#[derive(Debug, PartialEq, Eq)]
pub struct Judgement<'a> {
    pub verdict: Verdict,
    /// The mended file.
    pub copy: &'a [u8],
    /// The records that [`findings`] reads.
    pub findings: &'a [u8],
}

/// The lengths of a character, each exactly the stored word over 1,048,576.
#[derive(Clone, Copy, Debug, PartialEq)]
pub struct EyeLengths {
    pub width: f64,
    pub height: f64,
    pub depth: f64,
    pub italic: f64,
}

/// The twelve sizes, in file order.
pub fn sizes(file: &[u8]) -> Result<[u16; 12], Refusal> {
    let mut sizes = [0; 12];
    accepted(library::sizes(file, &mut sizes))?;
    Ok(sizes)
}

/// The subfile `k`, as that part of the caller's own file.
pub fn subfile(file: &[u8], k: u32) -> Result<&[u8], Refusal> {
    let mut part = [0; 2];
    accepted(library::subfile(file, k, &mut part))?;
    let [first, bytes] = part;
    Ok(&file[first..first + bytes])
}

/// What an accepted file's buffers hold; the file begins with lf.
fn judged<'a>(file: &[u8], copy: &'a [u8], findings: &'a [u8], verdict: usize, found: usize) -> Judgement<'a> {
    let lf = u16::from_be_bytes([file[0], file[1]]);
    Judgement { verdict: Verdict::of(verdict), copy: &copy[..copy_bytes(lf)], findings: &findings[..found] }
}

/// The verdict, with the findings and the mended copy.
pub fn verdict<'a>(file: &[u8], copy: &'a mut [u8], findings: &'a mut [u8], pairs: &mut [u32]) -> Result<Judgement<'a>, Refusal> {
    let mut answer = [0; 2];
    accepted(library::verdict(file, copy, findings, pairs, &mut answer))?;
    Ok(judged(file, copy, findings, answer[0], answer[1]))
}

/// The verdict, and beside it the property list that TFtoPL writes.
pub fn listing<'a>(
    file: &[u8],
    copy: &'a mut [u8],
    findings: &'a mut [u8],
    pairs: &mut [u32],
    listing: &'a mut [u8],
) -> Result<(Judgement<'a>, &'a [u8]), Refusal> {
    let mut answer = [0; 3];
    accepted(library::listing(file, copy, findings, pairs, listing, &mut answer))?;
    Ok((judged(file, copy, findings, answer[0], answer[1]), &listing[..answer[2]]))
}

/// The decimal that TFtoPL prints for a stored word.
pub fn decimal(word: u32) -> String {
    let mut text = [0; DECIMAL_BYTES];
    let len = library::decimal(word, &mut text);
    String::from_utf8_lossy(&text[..len]).into_owned()
}

/// What becomes of a pair in the mended program.
pub fn pair(file: &[u8], left: u32, right: u32, copy: &mut [u8], pairs: &mut [u32]) -> Result<Outcome, Refusal> {
    let mut answer = [0; 2];
    accepted(library::pair(file, left, right, copy, pairs, &mut answer))?;
    Ok(match answer {
        [1, code] => Outcome::Leaves(code),
        _ => Outcome::Loops,
    })
}

/// The lengths of a character for the renderer.
pub fn eye_lengths(file: &[u8], code: u32) -> Result<EyeLengths, Refusal> {
    let mut lengths = [0.0; 4];
    accepted(library::eye_lengths(file, code, &mut lengths))?;
    let [width, height, depth, italic] = lengths;
    Ok(EyeLengths { width, height, depth, italic })
}

/// The sentence that the library writes.
fn words(write: impl Fn(&mut [u8]) -> usize) -> String {
    let mut text = [0; SENTENCE_BYTES];
    let len = write(&mut text);
    String::from_utf8_lossy(&text[..len]).into_owned()
}
