//! What the wrapper must answer, as plain functions: a test calls each, and where a Rust program cannot start a C program does.

use std::collections::HashSet;
use std::fmt::Debug;

use nyelgomir::{Finding, Outcome, Refusal, Verdict};

/// Hands the names of all checks to a macro.
macro_rules! each_check {
    ($use:ident) => {
        $use! { sizes subfiles decimals eye_lengths verdicts listings pairs refused_files refused_arguments buffer_sizes deepest_chain sentences }
    };
}

/// What lent buffers hold beforehand.
const FILL: u8 = 170;

/// A stored font and its listing by tftopl.
struct Sample {
    tfm: &'static [u8],
    pl: &'static [u8],
}

macro_rules! sample {
    ($name:literal) => {
        Sample {
            tfm: include_bytes!(concat!("../../../samples/", $name, ".tfm")),
            pl: include_bytes!(concat!("../../../samples/", $name, ".pl")),
        }
    };
}

const SAMPLES: [Sample; 5] = [sample!("a"), sample!("boundary"), sample!("cmex10"), sample!("cmr10"), sample!("cmsy10")];
const A: &[u8] = SAMPLES[0].tfm;
const CMR10: &[u8] = SAMPLES[3].tfm;

/// The sizes as the file's first bytes say them.
fn read_sizes(file: &[u8]) -> [u16; 12] {
    let mut sizes = [0; 12];
    for (size, bytes) in sizes.iter_mut().zip(file.chunks_exact(2)) {
        *size = u16::from_be_bytes([bytes[0], bytes[1]]);
    }
    sizes
}

/// A font in which every code exists and has no lengths but a width of a half, with these steps; `starts` has the codes that have a program.
fn font(steps: &[[u8; 4]], starts: &[(u8, u8)]) -> Vec<u8> {
    let mut infos = [[1, 0, 0, 0]; 256];
    for &(code, start) in starts {
        infos[usize::from(code)] = [1, 0, 1, start];
    }
    let words = [&[[0; 4], [0, 160, 0, 0]][..], &infos[..], &[[0; 4], [0, 8, 0, 0], [0; 4], [0; 4], [0; 4]], steps, &[[0; 4]]].concat();
    let sizes = [6 + words.len() as u16, 2, 0, 255, 2, 1, 1, 1, steps.len() as u16, 1, 0, 0];
    let sizes = sizes.iter().flat_map(|size| size.to_be_bytes());
    sizes.chain(words.concat()).collect()
}

/// A step that stops.
fn last_step(right: u8, code: u8, z: u8) -> [u8; 4] {
    [128, right, code, z]
}

/// One step for the pair A B.
fn sole_step(code: u8, z: u8) -> Vec<u8> {
    font(&[last_step(b'B', code, z)], &[(b'A', 0)])
}

/// Three pairs of A, and a code of a ligature that is none: finding 17.
fn odd_code() -> Vec<u8> {
    font(&[[0, b'B', 0, b'C'], [0, b'C', 128, 0], last_step(b'D', 4, b'E')], &[(b'A', 0)])
}

/// The 65,280 pairs of the codes 0 to 254 and 0 to 255, all being settled at once: up through the right codes of an even left code, down
/// through those of an odd one.
fn deepest() -> Vec<u8> {
    let redirect = |to: u16| [254, 0, (to >> 8) as u8, to as u8];
    let firsts = (0..256).map(|x: u16| redirect(256 + 383 * (x % 2) + x / 2));
    let turn_up = (0..128).map(|i: u8| [127 - i, 255, 1, 2 * i + 1]);
    let up = (0..255).map(|y: u8| [if y == 254 { 128 } else { 0 }, y, 2, y + 1]);
    let turn_down = (0..128).map(|i: u8| [127 - i, 0, 1, (2 * i).wrapping_add(2)]);
    let down = (1..=255).rev().map(|y: u8| [if y == 1 { 128 } else { 0 }, y, 2, y - 1]);
    let steps: Vec<[u8; 4]> = firsts.chain(turn_up).chain(up).chain(turn_down).chain(down).collect();
    let starts: Vec<(u8, u8)> = (0..255).map(|x| (x, x)).collect();
    font(&steps, &starts)
}

/// A sound font of which one size is another.
fn with_size(k: usize, size: u16) -> Vec<u8> {
    let mut file = sole_step(0, b'C');
    file[2 * k..2 * k + 2].copy_from_slice(&size.to_be_bytes());
    file
}

/// A file for each refusal from 1 to 12.
fn refused() -> [(Refusal, Vec<u8>); 12] {
    [
        (Refusal::NoBytes, vec![]),
        (Refusal::FirstByteOver127, vec![128]),
        (Refusal::OneByte, vec![127]),
        (Refusal::NoWords, vec![0, 0]),
        (Refusal::FewerBytesThanLf, A[..A.len() - 1].to_vec()),
        (Refusal::FewerThanSixWords, [&[0, 5][..], &A[2..]].concat()),
        (Refusal::SizeOver32767, with_size(4, 0x8000)),
        (Refusal::HeaderTooShort, with_size(1, 1)),
        (Refusal::CodeRange, with_size(3, 256)),
        (Refusal::EmptyLengthTable, with_size(5, 0)),
        (Refusal::Over256Recipes, with_size(10, 257)),
        (Refusal::SizesDoNotAddUp, with_size(8, 2)),
    ]
}

/// Every file that is not refused here.
fn accepted() -> Vec<Vec<u8>> {
    let junk = [A, b"junk"].concat();
    let stored = SAMPLES.iter().map(|sample| sample.tfm.to_vec());
    stored.chain([junk, odd_code(), sole_step(2, b'B'), font(&[], &[])]).collect()
}

/// The verdict, and what the copy, the findings and the listing begin with.
type Listed = (Verdict, Vec<u8>, Vec<u8>, Vec<u8>);

/// The lent buffers of one question.
#[derive(Clone, PartialEq, Debug)]
struct Lent {
    copy: Vec<u8>,
    findings: Vec<u8>,
    pairs: Vec<u32>,
    listing: Vec<u8>,
}

/// The most words that a file has.
const LARGEST_LF: u16 = 32_767;

/// Bytes of copy and of findings, entries of pairs, bytes of listing.
type Lengths = [usize; 4];

const WHOLE: Lengths = [nyelgomir::copy_bytes(LARGEST_LF), nyelgomir::findings_bytes(LARGEST_LF), nyelgomir::PAIR_ENTRIES, 1 << 20];

impl Lent {
    fn filled(lengths: Lengths, fill: u8) -> Lent {
        let [copy, findings, pairs, listing] = lengths;
        Lent { copy: vec![fill; copy], findings: vec![fill; findings], pairs: vec![fill.into(); pairs], listing: vec![fill; listing] }
    }

    fn of(lengths: Lengths) -> Lent {
        Lent::filled(lengths, FILL)
    }

    fn judge(&mut self, file: &[u8]) -> Result<(Verdict, Vec<u8>, Vec<u8>), Refusal> {
        let judgement = nyelgomir::verdict(file, &mut self.copy, &mut self.findings, &mut self.pairs)?;
        Ok((judgement.verdict, judgement.copy.to_vec(), judgement.findings.to_vec()))
    }

    fn list(&mut self, file: &[u8]) -> Result<Listed, Refusal> {
        let (judgement, text) = nyelgomir::listing(file, &mut self.copy, &mut self.findings, &mut self.pairs, &mut self.listing)?;
        Ok((judgement.verdict, judgement.copy.to_vec(), judgement.findings.to_vec(), text.to_vec()))
    }

    fn pair(&mut self, file: &[u8], left: u32, right: u32) -> Result<Outcome, Refusal> {
        nyelgomir::pair(file, left, right, &mut self.copy, &mut self.pairs)
    }

    /// Overwrites the beginnings of the buffers, and clears the pair room.
    fn holding(mut self, copy: &[u8], findings: &[u8], listing: &[u8]) -> Lent {
        self.copy[..copy.len()].copy_from_slice(copy);
        self.findings[..findings.len()].copy_from_slice(findings);
        self.pairs.fill(0);
        self.listing[..listing.len()].copy_from_slice(listing);
        self
    }
}

/// The fewest entries with which a file is not refused for its pair room.
fn pairs_of(file: &[u8]) -> usize {
    let (mut few, mut enough) = (0, nyelgomir::PAIR_ENTRIES);
    while few < enough {
        let middle = (few + enough) / 2;
        match Lent::of([WHOLE[0], WHOLE[1], middle, 0]).judge(file) {
            Err(_) => few = middle + 1,
            Ok(_) => enough = middle,
        }
    }
    enough
}

pub fn sizes() {
    for file in accepted() {
        assert_eq!(nyelgomir::sizes(&file), Ok(read_sizes(&file)));
    }
}

pub fn subfiles() {
    for file in accepted() {
        let sizes = read_sizes(&file).map(usize::from);
        let counts = [&[sizes[1], sizes[3] + 1 - sizes[2]][..], &sizes[4..]].concat();
        let mut first = 24;
        for (k, count) in (0..).zip(counts) {
            let part = nyelgomir::subfile(&file, k).unwrap();
            assert_eq!(part.as_ptr_range(), file[first..first + 4 * count].as_ptr_range(), "subfile {k}");
            first += 4 * count;
        }
        assert_eq!(first, 4 * sizes[0]);
    }
}

/// The marked decimals of the scope paper.
pub fn decimals() {
    let marked = [
        (0x00000000, "0.0"),
        (0x00000001, "0.000001"),
        (0xFFFFFFFF, "-0.000001"),
        (0x00080000, "0.5"),
        (0xFFF80000, "-0.5"),
        (0x00100001, "1.000001"),
        (0x00019999, "0.099999"),
        (0x0001999A, "0.1"),
        (0x00002000, "0.0078125"),
        (0x7FFFFFFF, "2047.999999"),
        (0x80000000, "-2048.0"),
    ];
    for (word, text) in marked {
        assert_eq!(nyelgomir::decimal(word), text);
    }
}

/// What an index reads in a table, as a number over 1,048,576.
fn length_in(file: &[u8], table: u32, index: u8) -> f64 {
    let word = &nyelgomir::subfile(file, table).unwrap()[4 * usize::from(index)..][..4];
    f64::from(i32::from_be_bytes([word[0], word[1], word[2], word[3]])) / 1_048_576.0
}

pub fn eye_lengths() {
    for sample in SAMPLES {
        let bc = u32::from(read_sizes(sample.tfm)[2]);
        for (code, info) in (bc..).zip(nyelgomir::subfile(sample.tfm, 1).unwrap().chunks_exact(4)) {
            let eye = nyelgomir::eye_lengths(sample.tfm, code);
            if info[0] == 0 {
                assert_eq!(eye, Err(Refusal::NoSuchCharacter));
                continue;
            }
            let eye = eye.unwrap();
            let indices = [info[0], info[1] >> 4, info[1] & 15, info[2] >> 2];
            for (table, (index, length)) in (2..).zip(indices.iter().zip([eye.width, eye.height, eye.depth, eye.italic])) {
                assert_eq!(length.to_bits(), length_in(sample.tfm, table, *index).to_bits(), "table {table} of character {code}");
            }
        }
    }
    assert_eq!(nyelgomir::eye_lengths(A, 65).unwrap().width, 0.5);
}

pub fn verdicts() {
    let none: &[Finding] = &[];
    let odd = odd_code();
    let mut made_zero = odd.clone();
    made_zero[odd.len() - 6] = 0;
    let finding = |tag, first, second| Finding { tag, first, second };
    let cases = [
        (CMR10.to_vec(), Verdict::Clean, none, CMR10),
        ([A, b"junk"].concat(), Verdict::Clean, &[finding(1, 0, 0)], A),
        (odd, Verdict::Mended, &[finding(17, 2, 0)], &made_zero),
        (sole_step(2, b'B'), Verdict::Looping, &[finding(18, 65, 66)], &sole_step(2, b'B')),
    ];
    for (file, verdict, findings, mended) in cases {
        let (found_verdict, copy, records) = Lent::of(WHOLE).judge(&file).unwrap();
        assert_eq!(found_verdict, verdict);
        assert_eq!(nyelgomir::findings(&records).collect::<Vec<_>>(), findings);
        assert_eq!(copy, mended);
    }
}

pub fn listings() {
    for sample in SAMPLES {
        let (verdict, _, _, text) = Lent::of(WHOLE).list(sample.tfm).unwrap();
        assert_eq!(verdict, Verdict::Clean);
        assert_eq!(String::from_utf8_lossy(&text), String::from_utf8_lossy(sample.pl));
    }
    let (verdict, _, _, text) = Lent::of(WHOLE).list(&sole_step(2, b'B')).unwrap();
    assert_eq!(verdict, Verdict::Looping);
    assert!(text.ends_with(b"\n(INFINITE LIGATURE LOOP MUST BE BROKEN!)\n"));
}

/// The marked pairs of the scope paper, and some of Computer Modern.
pub fn pairs() {
    let marked = [
        (sole_step(0, b'C'), Outcome::Leaves(b'C'.into())),
        (sole_step(2, b'B'), Outcome::Loops),
        (sole_step(1, b'A'), Outcome::Loops),
        (sole_step(5, b'A'), Outcome::Leaves(b'B'.into())),
        (sole_step(3, b'C'), Outcome::Leaves(b'B'.into())),
    ];
    for (file, outcome) in marked {
        assert_eq!(Lent::of(WHOLE).pair(&file, b'A'.into(), b'B'.into()), Ok(outcome));
    }
    let published = [(b'f', b'i', 12), (b'f', b'f', 11), (11, b'i', 14), (b'i', b'f', b'f')];
    for (left, right, code) in published {
        assert_eq!(Lent::of(WHOLE).pair(CMR10, left.into(), right.into()), Ok(Outcome::Leaves(code.into())));
    }
    assert_eq!(Lent::of(WHOLE).pair(CMR10, nyelgomir::LEFT_BOUNDARY, 255), Ok(Outcome::Leaves(255)));
}

/// A refused file is refused by every operation, with short buffers and arguments out of range too, and buffers stay as found.
pub fn refused_files() {
    for (refusal, file) in refused() {
        assert_eq!(nyelgomir::sizes(&file), Err(refusal));
        assert_eq!(nyelgomir::subfile(&file, 10), Err(refusal));
        assert_eq!(nyelgomir::eye_lengths(&file, 256), Err(refusal));
        for lengths in [[0; 4], [8; 4]] {
            let mut lent = Lent::of(lengths);
            assert_eq!(lent.judge(&file), Err(refusal));
            assert_eq!(lent.list(&file), Err(refusal));
            assert_eq!(lent.pair(&file, 257, 256), Err(refusal));
            assert_eq!(lent, Lent::of(lengths));
        }
    }
    assert_eq!(refused().map(|(refusal, _)| refusal.number()), [1, 2, 3, 4, 5, 6, 7, 8, 9, 10, 11, 12]);
}

/// 17 comes before 13 and 14, and leaves the buffers as found.
pub fn refused_arguments() {
    for k in [10, 255, 256, u32::MAX] {
        assert_eq!(nyelgomir::subfile(CMR10, k), Err(Refusal::ArgumentOutOfRange));
    }
    for code in [256, 65_601, u32::MAX] {
        assert_eq!(nyelgomir::eye_lengths(CMR10, code), Err(Refusal::ArgumentOutOfRange));
    }
    assert_eq!(nyelgomir::eye_lengths(CMR10, 255), Err(Refusal::NoSuchCharacter));
    for (left, right) in [(257, 0), (0, 256), (u32::MAX, u32::MAX)] {
        let mut lent = Lent::of([0; 4]);
        assert_eq!(lent.pair(CMR10, left, right), Err(Refusal::ArgumentOutOfRange));
        assert_eq!(lent, Lent::of([0; 4]));
    }
}

/// No buffer, one short by one, and one longer than the answer needs, in turn for each buffer.
fn lent_for(needs: Lengths) -> Vec<Lengths> {
    let mut all = vec![needs, [0; 4]];
    for k in 0..needs.len() {
        for length in [0, needs[k].saturating_sub(1), needs[k] + 3] {
            let mut lengths = needs;
            lengths[k] = length;
            all.push(lengths);
        }
    }
    all
}

/// The first refusal of a buffer, by the order of the tests: copy, pairs, findings, listing.
fn first_short(lengths: Lengths, needs: Lengths) -> Option<Refusal> {
    let tests = [(0, Refusal::CopyTooShort), (2, Refusal::PairRoomTooSmall), (1, Refusal::FindingsTooShort), (3, Refusal::ListingTooShort)];
    tests.iter().find(|(k, _)| lengths[*k] < needs[*k]).map(|&(_, refusal)| refusal)
}

/// What a refusal leaves in the buffers.
fn left_by(refusal: Refusal, lengths: Lengths) -> Lent {
    Lent::filled(lengths, if refusal == Refusal::CopyTooShort { FILL } else { 0 })
}

/// Asks on buffers of every kind of length: the answer is that of the longest or a refusal, and the buffers hold what they should afterwards.
fn on_every_length<T>(needs: Lengths, ask: impl Fn(&mut Lent) -> Result<T, Refusal>, [copy, findings, listing]: [&[u8]; 3])
where
    T: PartialEq + Debug,
{
    let wanted = ask(&mut Lent::of(WHOLE)).unwrap();
    for lengths in lent_for(needs) {
        let mut lent = Lent::of(lengths);
        let answer = ask(&mut lent);
        match first_short(lengths, needs) {
            Some(refusal) => {
                assert_eq!(answer.err(), Some(refusal));
                assert_eq!(lent, left_by(refusal, lengths));
            }
            None => {
                assert_eq!(answer.as_ref(), Ok(&wanted));
                assert_eq!(lent, Lent::of(lengths).holding(copy, findings, listing));
            }
        }
    }
}

pub fn buffer_sizes() {
    for file in accepted() {
        let (_, copy, findings, text) = Lent::of(WHOLE).list(&file).unwrap();
        let (bytes, entries) = (copy.len(), pairs_of(&file));
        on_every_length([bytes, findings.len(), entries, text.len()], |lent| lent.list(&file), [&copy, &findings, &text]);
        on_every_length([bytes, findings.len(), entries, 0], |lent| lent.judge(&file), [&copy, &findings, b""]);
        on_every_length([bytes, 0, entries, 0], |lent| lent.pair(&file, 65, 66), [&copy, b"", b""]);
    }
}

/// 65,280 pairs that are being settled at once.
pub fn deepest_chain() {
    let file = deepest();
    assert_eq!(pairs_of(&file), 65_280);
    let (verdict, copy, findings) = Lent::of(WHOLE).judge(&file).unwrap();
    assert_eq!((verdict, copy, findings), (Verdict::Clean, file.clone(), vec![]));
    assert_eq!(Lent::of(WHOLE).pair(&file, 0, 0), Lent::of(WHOLE).pair(&file, 0, 1));
}

/// Every number, verdict and tag has a sentence of its own.
pub fn sentences() {
    let refusals = Refusal::ALL.iter().map(Refusal::to_string);
    let verdicts = [Verdict::Clean, Verdict::Mended, Verdict::Looping].map(|verdict| verdict.to_string());
    let findings = (1..24).map(|tag| Finding { tag, first: u16::MAX, second: u16::MAX }.to_string());
    let all: Vec<String> = refusals.chain(verdicts).chain(findings).collect();
    assert!(all.iter().all(|sentence| sentence.is_ascii() && !sentence.is_empty()));
    assert_eq!(all.iter().collect::<HashSet<_>>().len(), all.len());
}
