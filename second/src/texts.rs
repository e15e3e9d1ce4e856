//! Texts from a seed, for the importer: listings of cards, and damaged ones. Text `i` of a seed is
//! always the same, and doesn't depend on the others.

use crate::cards::card;
use crate::cards::random::Random;
use crate::image::{read, Card, Op};
use crate::listing::card_text;

/// A card of more instructions is cut, so that the texts stay short.
const SHORT: usize = 60;
/// What a text's random numbers start with, so that they aren't those of the card with its number.
const APART: u64 = 0x7465_7874;

/// What kind of text it is.
#[derive(Clone, Copy, PartialEq, Eq, Debug)]
pub enum Kind {
    /// The listing of a card.
    Exact,
    /// One to three bytes are changed.
    Bytes,
    /// A line is dropped, doubled, moved or emptied, or the last line feed is missing.
    Lines,
    /// A line of another form, or with another address.
    Words,
    /// Numbers on both sides of the rules of operands.
    Operands,
    /// Another header.
    Header,
    /// Two to four of all these.
    Several,
    /// No line, only the header, and as many lines as the limits.
    Size,
}

impl Kind {
    /// All kinds, with how many texts of a hundred are of it.
    pub const SHARES: [(usize, Kind); 8] = [
        (35, Kind::Exact),
        (16, Kind::Bytes),
        (9, Kind::Lines),
        (13, Kind::Words),
        (9, Kind::Operands),
        (7, Kind::Header),
        (8, Kind::Several),
        (3, Kind::Size),
    ];
}

/// Text number `index` of a seed: its kind and its bytes.
pub fn text(seed: u64, index: u64) -> (Kind, Vec<u8>) {
    let start = Random::new(seed).next() ^ Random::new(!index).next() ^ APART;
    let mut r = Random::new(start);
    let kind = r.weighted(&Kind::SHARES);
    let mut sheet = match kind {
        Kind::Size => size(&mut r),
        _ => Sheet::of(&base(&mut r, seed, index)),
    };
    match kind {
        Kind::Exact | Kind::Bytes => {}
        Kind::Lines => lines(&mut r, &mut sheet),
        Kind::Words => words(&mut r, &mut sheet),
        Kind::Operands => operands(&mut r, &mut sheet),
        Kind::Header => header(&mut r, &mut sheet),
        Kind::Several => several(&mut r, &mut sheet),
        // Half of them with one thing changed, mostly in one of many lines.
        Kind::Size => {
            if r.percent(50) {
                r.pick(&[lines, words, operands, header])(&mut r, &mut sheet);
            }
        }
    }
    let mut bytes = sheet.bytes();
    if kind == Kind::Bytes || (kind == Kind::Several && r.percent(20)) {
        for _ in 0..r.range(1, 3) {
            change_byte(&mut r, &mut bytes);
        }
    }
    (kind, bytes)
}

/// The card of this number, or, if it is refused, the next one that isn't; nearly always at most 60
/// instructions of it.
fn base(r: &mut Random, seed: u64, index: u64) -> Card {
    let accepted = (index..).find_map(|i| read(&card(seed, i).1).ok());
    let mut card = accepted.expect("most cards are accepted");
    if card.code.len() > SHORT && !r.percent(1) {
        let n = 1 + r.below(SHORT);
        card.code.truncate(n);
        for instruction in &mut card.code {
            if matches!(instruction.op, Op::Jump | Op::Jumpz) {
                instruction.k %= n as i32;
            }
        }
    }
    card
}

/// A text as lines of words, with a space between two words. An empty word makes two spaces, and a
/// line whose only word is empty is empty.
struct Sheet {
    lines: Vec<Line>,
    /// Does the last line have its line feed?
    ended: bool,
}

type Line = Vec<String>;

impl Sheet {
    /// The listing of a card.
    fn of(card: &Card) -> Sheet {
        let text = card_text(card, None);
        let words = |line: &str| line.split(' ').map(String::from).collect();
        Sheet {
            lines: text.lines().map(words).collect(),
            ended: true,
        }
    }

    fn bytes(&self) -> Vec<u8> {
        let mut text = String::new();
        for line in &self.lines {
            text.push_str(&line.join(" "));
            text.push('\n');
        }
        if !self.ended {
            text.pop();
        }
        text.into_bytes()
    }

    /// How many instructions it has.
    fn n(&self) -> usize {
        self.lines.len().saturating_sub(1)
    }

    /// A line with an instruction; often the first or the last one.
    fn pick(&self, r: &mut Random) -> Option<usize> {
        match (self.n(), r.below(10)) {
            (0, _) => None,
            (_, 0 | 1) => Some(1),
            (n, 2 | 3) => Some(n),
            (n, _) => Some(1 + r.below(n)),
        }
    }
}

fn line(address: usize, name: &str) -> Line {
    vec![format!("{address:04}"), name.to_string()]
}

fn header_line(g: &str) -> Line {
    vec!["cells".to_string(), g.to_string()]
}

/// No lines, few lines, and as many as the limits of n and of four digits.
fn size(r: &mut Random) -> Sheet {
    let mut sheet = Sheet {
        lines: vec![header_line(&one_of(r, "1|1|4096|0"))],
        ended: true,
    };
    match r.below(12) {
        0..=2 => sheet.lines.clear(),
        3 | 4 => {}
        5 => sheet.ended = false,
        6 | 7 => sheet.lines.push(line(0, "halt")),
        // The longest text, and one line less or more; or the same with shorter lines.
        8..=10 => {
            let n = r.pick(&[4095, 4096, 4097]);
            let instruction = one_of(r, "loadc -8388608|halt|jump 4095|jump 4096");
            sheet.lines.extend((0..n).map(|i| line(i, &instruction)));
        }
        // After address 9999 nothing can follow: neither five digits nor 0000.
        _ => {
            let n = r.pick(&[9_999, 10_000, 10_001, 10_002]);
            let address = |i| if i > 9_999 && n == 10_001 { 0 } else { i };
            sheet.lines.extend((0..n).map(|i| line(address(i), "eq")));
        }
    }
    sheet
}

/// Changes the lines as wholes.
fn lines(r: &mut Random, sheet: &mut Sheet) {
    let Some(i) = sheet.pick(r) else {
        sheet.ended = !sheet.ended;
        return;
    };
    // Now and then it is the header.
    let i = if r.percent(10) { 0 } else { i };
    match r.below(8) {
        0 => {
            sheet.lines.remove(i);
        }
        1 => sheet.lines.insert(i, sheet.lines[i].clone()),
        2 => {
            let other = r.below(sheet.lines.len());
            sheet.lines.swap(i, other);
        }
        3 => {
            let next = (i + 1).min(sheet.n());
            sheet.lines.swap(i, next);
        }
        4 => sheet.lines[i] = vec![String::new()],
        5 => sheet.lines.insert(i, vec![String::new()]),
        6 => sheet.lines.push(vec![String::new()]),
        _ => sheet.ended = false,
    }
}

/// Changes the words of a line: it is then of another form, or its address isn't the one that
/// follows, or both.
fn words(r: &mut Random, sheet: &mut Sheet) {
    let Some(i) = sheet.pick(r) else {
        return header(r, sheet);
    };
    let line = &mut sheet.lines[i];
    match r.below(10) {
        0 | 1 => spaces(r, line),
        2 | 3 => change_address(r, line),
        4 | 5 => change_name(r, line),
        6..=8 => change_operand(r, line),
        // Both 41 and 42.
        _ => {
            change_address(r, line);
            r.pick(&[spaces, change_name, change_operand])(r, line);
        }
    }
}

/// Spaces too many, or something else where a space or a line's end should be.
fn spaces(r: &mut Random, line: &mut Line) {
    match r.below(4) {
        // In front, between two words, or at the end.
        0 | 1 => line.insert(r.below(line.len() + 1), String::new()),
        2 => line.push(one_of(r, "\r|\t|\0|1|;")),
        _ => *line = vec![line.join(&one_of(r, "\t||\r|_|\u{a0}"))],
    }
    // A carriage return that ends the line has no space in front of it.
    if line.last().is_some_and(|word| word == "\r") {
        line.pop();
        let last = line.last_mut().expect("it has an address");
        last.push('\r');
    }
}

fn change_address(r: &mut Random, line: &mut Line) {
    let address = &mut line[0];
    let number: i32 = address.parse().unwrap_or(0);
    *address = match r.below(8) {
        0 => format!("{number:03}"),
        1 => format!("{number:05}"),
        2 => format!("{number}"),
        3 => one_of(r, "|+001|-001|0x01|000a| 000|00 0"),
        4 => format!("{:04}", (number - 1).max(0)),
        5 => format!("{:04}", number + 1),
        6 => format!("{:04}", r.below(10_000)),
        // 256 or 4,096 further, where a number could come round.
        _ => format!("{:04}", (number + r.pick(&[256, 4096])) % 10_000),
    };
}

fn change_name(r: &mut Random, line: &mut Line) {
    let Some(name) = line.get_mut(1) else {
        return;
    };
    match r.below(9) {
        0 => *name = name.to_uppercase(),
        1 => {
            if let Some(first) = name.get_mut(..1) {
                first.make_ascii_uppercase();
            }
        }
        // The start of a name, which may be a name too: load of loadc.
        2 | 3 => {
            name.pop();
        }
        4 | 5 => name.push(r.pick(&['a', 'c', 'r', 'z', 's', '0', '-'])),
        6 => name.clear(),
        7 => *name = one_of(r, "nop|g|cells|sema|newsem|downs|release"),
        // Another instruction's, with or without the operand that it should have.
        _ => *name = r.pick(&Op::ALL).name(),
    }
}

/// Another form of the operand, one too many or one too few.
fn change_operand(r: &mut Random, line: &mut Line) {
    if line.len() < 3 && r.percent(50) {
        line.truncate(1);
        line.extend(["loadc".to_string(), "1".to_string()]);
    }
    if line.len() < 3 || r.percent(10) {
        line.push(one_of(r, "0|1|-1||-0|x"));
        return;
    }
    let operand = &mut line[2];
    let digits = operand.trim_start_matches('-').to_string();
    *operand = match r.below(10) {
        0 | 1 => "-0".to_string(),
        2 => format!("+{digits}"),
        3 => format!("0{digits}"),
        4 => format!("-0{digits}"),
        5 => format!("--{digits}"),
        6 => one_of(r, "|-|+|00|0x7|1.0|1e1|1_0|a"),
        7 => digits + &one_of(r, "-|a| |\t|,|;"),
        8 => format!("- {digits}"),
        _ => {
            line.pop();
            return;
        }
    };
}

/// One to three operands at both ends of their rules, or far beyond.
fn operands(r: &mut Random, sheet: &mut Sheet) {
    let n = sheet.n() as i128;
    for _ in 0..r.range(1, 3) {
        let Some(i) = sheet.pick(r) else { return };
        let (name, low, high) = r.pick(&[
            ("loadc", -8_388_608, 8_388_607),
            ("loadr", -128, 127),
            ("storer", -128, 127),
            ("alloc", 0, 127),
            ("jump", 0, n - 1),
            ("jumpz", 0, n - 1),
        ]);
        let k = match r.below(10) {
            0 | 1 => low,
            2 => low - 1,
            3 | 4 => high,
            5 => high + 1,
            6 => r.pick(&[-8_388_609, -8_388_608, 8_388_607, 8_388_608, 16_777_215]),
            _ => far(r, low, high),
        };
        let line = &mut sheet.lines[i];
        line.truncate(1);
        line.extend([name.to_string(), k.to_string()]);
    }
}

/// A number that is mostly far out of a range: often one that would fall into it if only its lower
/// bits were kept.
fn far(r: &mut Random, low: i128, high: i128) -> i128 {
    let inside = r.pick(&[low, high, 0, 1]);
    let bits = r.pick(&[8, 16, 24, 31, 32, 63, 64]);
    match r.below(6) {
        0 => 999_999_999_999,
        1 => -100_000_000_000,
        2 => 123_456_789_012_345_678_901_234_567_890,
        3 => -(1 << 100),
        4 => inside - (1 << bits),
        _ => inside + (1 << bits),
    }
}

/// Another header, or another g.
fn header(r: &mut Random, sheet: &mut Sheet) {
    let line = match r.below(5) {
        0 => vec![one_of(
            r,
            "Cells 1|CELLS 1|cells|cells |cell 1|cellss 1|cells1|cells\t1|cells  1|cells 1 | cells 1",
        )],
        1 => vec![one_of(
            r,
            "cells 1 1|cells 1 2|cells 1\r|cells 1,|cells 1a|cells a|cells 0x1|g 1|1|| |0000 halt",
        )],
        2 => header_line(&one_of(r, "+1|-1|-0|+0|00|01|0001|04096||-|+|--1|1.0")),
        3 => header_line(&one_of(r, "0|1|4095|4096|4097|65535")),
        // A g has no sign, so these are of the right form.
        _ => header_line(&far(r, 1, 4096).unsigned_abs().to_string()),
    };
    match sheet.lines.first_mut() {
        Some(first) => *first = line,
        None => sheet.lines.push(line),
    }
}

/// One of the words with bars between them.
fn one_of(r: &mut Random, words: &str) -> String {
    let words: Vec<&str> = words.split('|').collect();
    r.pick(&words).to_string()
}

/// Two to four things are wrong: which is told first?
fn several(r: &mut Random, sheet: &mut Sheet) {
    for _ in 0..r.range(2, 4) {
        let change = r.weighted(&[
            (3, lines as fn(&mut Random, &mut Sheet)),
            (3, words),
            (4, operands),
            (2, header),
        ]);
        change(r, sheet);
    }
}

/// Replaces, inserts or takes away one byte, mostly by one that has a meaning in a text.
fn change_byte(r: &mut Random, text: &mut Vec<u8>) {
    let telling = b"  \n\n\n\r\t00123456789--++aceloprstuxzACLZ";
    let byte = if r.percent(85) {
        r.pick(telling)
    } else {
        r.next() as u8
    };
    let at = match r.below(10) {
        // The header, and the end.
        0 | 1 => r.below(text.len().clamp(1, 10)),
        2 => text.len().saturating_sub(1 + r.below(3)),
        _ => r.below(text.len().max(1)),
    };
    match r.below(3) {
        _ if text.is_empty() => text.push(byte),
        0 => text[at] = byte,
        1 => text.insert(at, byte),
        _ => {
            text.remove(at);
        }
    }
}
