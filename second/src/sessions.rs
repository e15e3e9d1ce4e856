//! The cards of the sessions' text: the paper's P1 to P5, and one for each line with a colon.
//!
//! `P6: newmutex, dup, lock, lock` is a label and a card's instructions. `3*pop` stands for three,
//! and `g 4096` among them for 4,096 global cells in place of one. A line without a colon is a
//! remark.

use crate::image::{encode, Op, LIMIT};

/// The opcode byte of a name that is no instruction's.
const UNKNOWN: u8 = 255;

/// All images, or what in the text is no number. The images are written by the format alone, so a
/// card that the writer refuses is among them, but not one with no instruction or with more than
/// 4,096.
pub fn sessions(text: &str) -> Result<Vec<Vec<u8>>, String> {
    let mut images = p1_to_p5();
    for line in text.lines() {
        if let Some((_, card)) = line.split_once(':') {
            images.extend(image(card)?);
        }
    }
    Ok(images)
}

/// No bytes; loadc 7, exit; the same with version 2; jump 2 as second of two; opcode 41 first.
fn p1_to_p5() -> Vec<Vec<u8>> {
    let p2 = encode(1, [(Op::Loadc as u8, 7), (Op::Exit as u8, 0)].into_iter());
    let mut p3 = p2.clone();
    p3[4] = 2;
    let p4 = encode(1, [(Op::Loadc as u8, 7), (Op::Jump as u8, 2)].into_iter());
    let mut p5 = p2.clone();
    p5[9] = 41;
    vec![Vec::new(), p2, p3, p4, p5]
}

/// The image of a card's instructions, if there are 1 to 4,096.
fn image(card: &str) -> Result<Option<Vec<u8>>, String> {
    let mut globals = 1;
    let mut code = Vec::new();
    for part in card.split(',') {
        let (times, instruction) = part.split_once('*').unwrap_or(("1", part));
        let mut words = instruction.split_whitespace();
        let name = words.next().unwrap_or_default();
        let operand = words.next().map_or(Ok(0), number)?;
        if name == "g" {
            globals = operand as usize;
        } else {
            for _ in 0..number(times)? {
                code.push((opcode(name), operand));
            }
        }
    }
    let fits = (1..=LIMIT).contains(&code.len());
    Ok(fits.then(|| encode(globals, code.into_iter())))
}

fn opcode(name: &str) -> u8 {
    let op = Op::ALL.into_iter().find(|op| op.name() == name);
    op.map_or(UNKNOWN, |op| op as u8)
}

fn number(word: &str) -> Result<i32, String> {
    word.trim()
        .parse()
        .map_err(|_| format!("no number: {word}"))
}
