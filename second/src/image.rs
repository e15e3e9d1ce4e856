//! The card image: the instructions, the operands they allow, the reader with its refusals, and the
//! bytes of an image.

/// At most so many instructions on a card, and at most so many global cells.
pub const LIMIT: usize = 4096;

/// The instructions, in the order of their opcode bytes.
#[derive(Clone, Copy, PartialEq, Eq, Debug)]
#[repr(u8)]
pub enum Op {
    Halt,
    Loadc,
    Load,
    Store,
    Loadr,
    Storer,
    Alloc,
    Pop,
    Dup,
    Add,
    Sub,
    Mul,
    Div,
    Mod,
    Neg,
    Eq,
    Neq,
    Less,
    Leq,
    Not,
    Jump,
    Jumpz,
    Mark,
    Call,
    Return,
    New,
    Create,
    Yield,
    Exit,
    Join,
    Finalize,
    Newmutex,
    Lock,
    Unlock,
    Newcond,
    Wait,
    Signal,
    Broadcast,
    Newsema,
    Up,
    Down,
}

impl Op {
    /// All of them; the place in this list is the opcode byte.
    pub const ALL: [Op; 41] = [
        Op::Halt,
        Op::Loadc,
        Op::Load,
        Op::Store,
        Op::Loadr,
        Op::Storer,
        Op::Alloc,
        Op::Pop,
        Op::Dup,
        Op::Add,
        Op::Sub,
        Op::Mul,
        Op::Div,
        Op::Mod,
        Op::Neg,
        Op::Eq,
        Op::Neq,
        Op::Less,
        Op::Leq,
        Op::Not,
        Op::Jump,
        Op::Jumpz,
        Op::Mark,
        Op::Call,
        Op::Return,
        Op::New,
        Op::Create,
        Op::Yield,
        Op::Exit,
        Op::Join,
        Op::Finalize,
        Op::Newmutex,
        Op::Lock,
        Op::Unlock,
        Op::Newcond,
        Op::Wait,
        Op::Signal,
        Op::Broadcast,
        Op::Newsema,
        Op::Up,
        Op::Down,
    ];

    /// The papers' name.
    pub fn name(self) -> String {
        format!("{:?}", self).to_lowercase()
    }

    /// Does the paper name an operand of it? Elsewhere the operand is 0 and isn't written in a text.
    pub fn has_operand(self) -> bool {
        matches!(
            self,
            Op::Loadc | Op::Loadr | Op::Storer | Op::Alloc | Op::Jump | Op::Jumpz
        )
    }

    /// Is the operand `k`, a number of 24 bits, allowed on a card of `n` instructions?
    pub fn allows(self, k: i32, n: usize) -> bool {
        match self {
            Op::Loadc => true,
            Op::Loadr | Op::Storer => (-128..=127).contains(&k),
            Op::Alloc => (0..=127).contains(&k),
            Op::Jump | Op::Jumpz => 0 <= k && (k as usize) < n,
            _ => k == 0,
        }
    }
}

/// One instruction: an opcode and its operand.
#[derive(Clone, Copy, PartialEq, Eq, Debug)]
pub struct Instruction {
    pub op: Op,
    pub k: i32,
}

/// A card that was accepted.
#[derive(Clone, Debug)]
pub struct Card {
    pub globals: usize,
    pub code: Vec<Instruction>,
}

/// A refusal: the papers' number, and the place: a byte of the image or of the text, or for 5 in a
/// text the instruction's index.
#[derive(Clone, Copy, PartialEq, Eq, Debug)]
pub struct Refusal {
    pub number: u8,
    pub place: usize,
}

/// Reads a card image.
pub fn read(image: &[u8]) -> Result<Card, Refusal> {
    let refuse = |number, place| Err(Refusal { number, place });
    let two = |at: usize| image[at] as usize * 256 + image[at + 1] as usize;

    // 1: under 4 bytes, L wrong for the length, or L < 5.
    if image.len() < 4 {
        return refuse(1, 0);
    }
    let l = two(0) * 65536 + two(2);
    if l != image.len() - 4 || l < 5 {
        return refuse(1, 0);
    }
    // 2: version not 1.
    if image[4] != 1 {
        return refuse(2, 4);
    }
    // 3: g or n out of range, or L != 5 + 4n.
    let globals = two(5);
    let n = two(7);
    if !(1..=LIMIT).contains(&globals) || !(1..=LIMIT).contains(&n) || l != 5 + 4 * n {
        return refuse(3, 5);
    }
    // 4 and 5: the first bad instruction; its opcode is looked at before its operand.
    let mut code = Vec::new();
    for i in 0..n {
        let at = 9 + 4 * i;
        let opcode = image[at] as usize;
        if opcode >= Op::ALL.len() {
            return refuse(4, at);
        }
        let op = Op::ALL[opcode];
        let unsigned = image[at + 1] as i32 * 65536 + two(at + 2) as i32;
        let k = if unsigned >= 1 << 23 {
            unsigned - (1 << 24)
        } else {
            unsigned
        };
        if !op.allows(k, n) {
            return refuse(5, at);
        }
        code.push(Instruction { op, k });
    }
    Ok(Card { globals, code })
}

/// The bytes of an image, by the format alone: nothing is tested. The instructions are opcode bytes
/// and operands, of which the lower 24 bits go in.
pub fn encode(globals: usize, code: impl ExactSizeIterator<Item = (u8, i32)>) -> Vec<u8> {
    let n = code.len();
    let mut image = Vec::with_capacity(9 + 4 * n);
    image.extend(((5 + 4 * n) as u32).to_be_bytes());
    image.push(1);
    image.extend((globals as u16).to_be_bytes());
    image.extend((n as u16).to_be_bytes());
    for (opcode, k) in code {
        image.push(opcode);
        image.extend(&k.to_be_bytes()[1..]);
    }
    image
}
