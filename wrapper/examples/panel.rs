//! A panel's questions to one font, in Rust: arguments and answers are those of examples/panel.c.

use std::ffi::OsString;
use std::{env, fs, process};

use nyelgomir::{Outcome, Refusal};

/// What is lent to each question, large enough for every answer.
struct Lent {
    copy: Vec<u8>,
    findings: Vec<u8>,
    pairs: Vec<u32>,
}

fn lend(file: &[u8]) -> Lent {
    let lf = nyelgomir::sizes(file).map_or(0, |sizes| sizes[0]);
    Lent {
        copy: vec![0; nyelgomir::copy_bytes(lf)],
        findings: vec![0; nyelgomir::findings_bytes(lf)],
        pairs: vec![0; nyelgomir::PAIR_ENTRIES],
    }
}

fn refused(refusal: Refusal) -> String {
    format!("refused with {}: {}\n", refusal.number(), refusal)
}

fn verdict(file: &[u8], lent: &mut Lent) -> Result<String, Refusal> {
    let judgement = nyelgomir::verdict(file, &mut lent.copy, &mut lent.findings, &mut lent.pairs)?;
    let found = nyelgomir::findings(judgement.findings);
    let mut text = format!("{}\nfindings: {}\n", judgement.verdict, found.len());
    for finding in found {
        text += &format!("  {}: {}\n", finding.tag, finding);
    }
    Ok(text)
}

/// Twenty places show a length whole, since it is a number of parts of 1,048,576.
fn length(name: &str, length: f64) -> String {
    format!("  {name} {length:.20}, bits {:016x}\n", length.to_bits())
}

fn lengths(file: &[u8], code: u32) -> Result<String, Refusal> {
    let eye = nyelgomir::eye_lengths(file, code)?;
    let each = [length("width", eye.width), length("height", eye.height), length("depth", eye.depth), length("italic", eye.italic)];
    Ok("its lengths\n".to_string() + &each.concat())
}

fn pair(file: &[u8], left: u32, right: u32, lent: &mut Lent) -> Result<String, Refusal> {
    let outcome = nyelgomir::pair(file, left, right, &mut lent.copy, &mut lent.pairs)?;
    Ok(match outcome {
        Outcome::Leaves(code) => format!("leaves {code}\n"),
        Outcome::Loops => "its rewriting never ends\n".to_string(),
    })
}

fn answers(file: &[u8], code: u32, left: u32, right: u32) -> String {
    let mut lent = lend(file);
    let verdict = verdict(file, &mut lent).unwrap_or_else(refused);
    let lengths = lengths(file, code).unwrap_or_else(refused);
    let pair = pair(file, left, right, &mut lent).unwrap_or_else(refused);
    format!("verdict: {verdict}character {code}: {lengths}pair {left} {right}: {pair}")
}

fn code(argument: &OsString) -> Option<u32> {
    argument.to_str()?.parse().ok()
}

/// The answers, or what stands against asking.
pub fn ask(arguments: &[OsString]) -> Result<String, String> {
    let asked = match arguments {
        [name, character, left, right] => code(character).zip(code(left)).zip(code(right)).map(|codes| (name, codes)),
        _ => None,
    };
    let (name, ((character, left), right)) = asked.ok_or("usage: panel FILE CODE LEFT RIGHT, with codes in decimal")?;
    let file = fs::read(name).map_err(|_| "the file cannot be read")?;
    Ok(answers(&file, character, left, right))
}

fn main() {
    let arguments: Vec<OsString> = env::args_os().skip(1).collect();
    match ask(&arguments) {
        Ok(text) => print!("{text}"),
        Err(what) => {
            eprintln!("panel: {what}");
            process::exit(2);
        }
    }
}
