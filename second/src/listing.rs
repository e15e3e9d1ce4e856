//! Cards as text, both ways: the listing of an image, and the image of a text. Both are also made
//! with a mistake, on demand, so that a comparison can show that it would find it.

use crate::image::{encode, read, Card, Op, Refusal, LIMIT};
use crate::text::refusal_line;
use std::fmt::Write as _;
use std::sync::OnceLock;

/// The longest listing has so many bytes: `cells 4096` and 4,096 lines like `0000 loadc -8388608`.
pub const LONGEST: usize = 81_931;

/// A mistake of the listing.
#[derive(Clone, Copy, PartialEq, Eq, Debug)]
pub enum ListingMistake {
    /// The address has three digits.
    ShortAddress,
    /// An instruction without an operand is given the operand 0.
    OperandAlways,
    /// The last line has no line feed.
    LastFeedDropped,
    /// The operand is taken as 24 bits without a sign.
    OperandUnsigned,
}

impl ListingMistake {
    pub const ALL: [ListingMistake; 4] = [
        ListingMistake::ShortAddress,
        ListingMistake::OperandAlways,
        ListingMistake::LastFeedDropped,
        ListingMistake::OperandUnsigned,
    ];
}

/// A mistake of the importer.
#[derive(Clone, Copy, PartialEq, Eq, Debug)]
pub enum ImportMistake {
    /// An empty line is passed over.
    EmptyLineSkipped,
    /// g may have a sign.
    SignedGlobals,
    /// `-0` is a number.
    MinusZero,
    /// An address out of sequence is 42 before the rest of its line is looked at.
    SequenceFirst,
    /// The last line may be without its line feed.
    LastFeedMissing,
    /// 5 is tested before 3.
    OperandsFirst,
    /// The place is the number of the line, not its first byte.
    LineAsPlace,
}

impl ImportMistake {
    pub const ALL: [ImportMistake; 7] = [
        ImportMistake::EmptyLineSkipped,
        ImportMistake::SignedGlobals,
        ImportMistake::MinusZero,
        ImportMistake::SequenceFirst,
        ImportMistake::LastFeedMissing,
        ImportMistake::OperandsFirst,
        ImportMistake::LineAsPlace,
    ];
}

/// The listing of an image, or the line of its refusal.
pub fn listing(image: &[u8], mistake: Option<ListingMistake>) -> String {
    match read(image) {
        Err(refusal) => refusal_line(refusal) + "\n",
        Ok(card) => card_text(&card, mistake),
    }
}

/// The listing of a card.
pub fn card_text(card: &Card, mistake: Option<ListingMistake>) -> String {
    let makes = |which| mistake == Some(which);
    let mut text = format!("cells {}\n", card.globals);
    for (address, instruction) in card.code.iter().enumerate() {
        let width = if makes(ListingMistake::ShortAddress) {
            3
        } else {
            4
        };
        let _ = write!(text, "{address:0width$} {}", instruction.op.name());
        if instruction.op.has_operand() || makes(ListingMistake::OperandAlways) {
            let k = if makes(ListingMistake::OperandUnsigned) {
                instruction.k & 0xff_ffff
            } else {
                instruction.k
            };
            let _ = write!(text, " {k}");
        }
        text.push('\n');
    }
    if makes(ListingMistake::LastFeedDropped) {
        text.pop();
    }
    text
}

/// The image of a text.
pub fn import(text: &[u8], mistake: Option<ImportMistake>) -> Result<Vec<u8>, Refusal> {
    let Draft { globals, code } = Importer { mistake }.draft(text)?;
    let n = code.len();
    let against_rule = || code.iter().position(|&(op, k)| !allows(op, k, n));
    let refuse_operand = |place| Err(Refusal { number: 5, place });

    if mistake == Some(ImportMistake::OperandsFirst) {
        if let Some(index) = against_rule() {
            return refuse_operand(index);
        }
    }
    // 3: g or n out of range.
    if !(1..=LIMIT as i64).contains(&globals) || !(1..=LIMIT).contains(&n) {
        return Err(Refusal {
            number: 3,
            place: 5,
        });
    }
    // 5: the first instruction whose operand is against its rule.
    match against_rule() {
        Some(index) => refuse_operand(index),
        None => {
            let code = code.iter().map(|&(op, k)| (op as u8, k as i32));
            Ok(encode(globals as usize, code))
        }
    }
}

/// The line for an imported text, without the line feed: the image in hexadecimal digits, or the
/// refusal.
pub fn import_line(text: &[u8], mistake: Option<ImportMistake>) -> String {
    match import(text, mistake) {
        Ok(image) => hexadecimal(&image),
        Err(refusal) => refusal_line(refusal),
    }
}

/// Bytes as lower-case hexadecimal digits, two for each.
pub fn hexadecimal(bytes: &[u8]) -> String {
    let mut digits = String::with_capacity(2 * bytes.len());
    for byte in bytes {
        let _ = write!(digits, "{byte:02x}");
    }
    digits
}

/// Is the number, of any size, an operand of 24 bits that the instruction allows?
fn allows(op: Op, k: i64, n: usize) -> bool {
    (-(1 << 23)..1 << 23).contains(&k) && op.allows(k as i32, n)
}

/// What a text of the right form says. The numbers may still be against their rules.
struct Draft {
    globals: i64,
    code: Vec<(Op, i64)>,
}

/// Looks at the form of a text alone: 40, 41 and 42, the first such line.
struct Importer {
    mistake: Option<ImportMistake>,
}

impl Importer {
    fn makes(&self, which: ImportMistake) -> bool {
        self.mistake == Some(which)
    }

    fn draft(&self, text: &[u8]) -> Result<Draft, Refusal> {
        let mut lines = text.split_inclusive(|&byte| byte == b'\n');
        // An empty text has no line; its header is empty, and of another form.
        let header = lines.next().unwrap_or_default();
        let Some(globals) = self.header(header) else {
            return Err(Refusal {
                number: 40,
                place: 0,
            });
        };
        let mut code = Vec::new();
        let mut first_byte = header.len();
        for (i, line) in lines.enumerate() {
            let refuse = |number| {
                let line_number = self.makes(ImportMistake::LineAsPlace).then_some(i + 1);
                let place = line_number.unwrap_or(first_byte);
                Err(Refusal { number, place })
            };
            if line == b"\n" && self.makes(ImportMistake::EmptyLineSkipped) {
                first_byte += 1;
                continue;
            }
            if self.makes(ImportMistake::SequenceFirst) {
                let early = line.get(..4).and_then(address);
                if early.is_some_and(|address| address != code.len()) {
                    return refuse(42);
                }
            }
            match self.line(line) {
                None => return refuse(41),
                Some((address, ..)) if address != code.len() => return refuse(42),
                Some((_, op, k)) => code.push((op, k)),
            }
            first_byte += line.len();
        }
        Ok(Draft { globals, code })
    }

    /// The g of a first line.
    fn header(&self, line: &[u8]) -> Option<i64> {
        let word = self.ended(line)?.strip_prefix(b"cells ")?;
        if self.makes(ImportMistake::SignedGlobals) {
            let unsigned = word.strip_prefix(b"+").or(word.strip_prefix(b"-"));
            if let Some(digits) = unsigned {
                let sign = if word[0] == b'-' { -1 } else { 1 };
                return Some(sign * decimal(digits)?);
            }
        }
        decimal(word)
    }

    /// The address, the instruction and the operand of any other line.
    fn line(&self, line: &[u8]) -> Option<(usize, Op, i64)> {
        // Every space ends a word: where there are two, the word between them is empty.
        let mut words = self.ended(line)?.split(|&byte| byte == b' ');
        let address = address(words.next()?)?;
        let op = op_named(words.next()?)?;
        let k = if op.has_operand() {
            self.signed(words.next()?)?
        } else {
            0
        };
        words.next().is_none().then_some((address, op, k))
    }

    /// A line without its line feed, which has to be there.
    fn ended<'a>(&self, line: &'a [u8]) -> Option<&'a [u8]> {
        let missing = self.makes(ImportMistake::LastFeedMissing).then_some(line);
        line.strip_suffix(b"\n").or(missing)
    }

    /// A number with or without a minus.
    fn signed(&self, word: &[u8]) -> Option<i64> {
        match word.strip_prefix(b"-") {
            None => decimal(word),
            Some(digits) => {
                let number = decimal(digits)?;
                (number != 0 || self.makes(ImportMistake::MinusZero)).then_some(-number)
            }
        }
    }
}

/// An address: exactly four digits.
fn address(word: &[u8]) -> Option<usize> {
    (word.len() == 4 && word.iter().all(u8::is_ascii_digit)).then(|| {
        let digits = word.iter().map(|digit| (digit - b'0') as usize);
        digits.fold(0, |number, digit| 10 * number + digit)
    })
}

/// A number without leading zeros and without a sign. Any number of digits is allowed; what passes
/// 64 bits is held as the largest number there is, which is against every rule.
fn decimal(word: &[u8]) -> Option<i64> {
    let (&first, rest) = word.split_first()?;
    if !word.iter().all(u8::is_ascii_digit) || (first == b'0' && !rest.is_empty()) {
        return None;
    }
    let digits = word.iter().map(|digit| (digit - b'0') as i64);
    Some(digits.fold(0i64, |number, digit| {
        number.saturating_mul(10).saturating_add(digit)
    }))
}

fn op_named(name: &[u8]) -> Option<Op> {
    static NAMES: OnceLock<Vec<String>> = OnceLock::new();
    let names = NAMES.get_or_init(|| Op::ALL.iter().map(|op| op.name()).collect());
    let opcode = names.iter().position(|known| known.as_bytes() == name)?;
    Some(Op::ALL[opcode])
}
