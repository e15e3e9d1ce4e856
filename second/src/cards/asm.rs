//! A small assembler: labels, shared cells with names, and a few short phrases of instructions.

use super::random::Random;
use crate::image::encode;
use crate::machine::{Op, LIMIT};

/// A place in the code, used before or after it is known.
#[derive(Clone, Copy, Debug)]
pub struct Label(usize);

#[derive(Clone, Copy, Debug)]
enum Operand {
    Number(i32),
    Label(Label),
}

/// The shared cell in which a card keeps a record of what happened, in order. Most cards end with
/// it as thread 0's result, so that the runner's line tells one order from another.
pub const LOG: i32 = 0;

/// A card's instructions with all operands known.
#[derive(Clone, Debug)]
pub struct Code {
    pub globals: usize,
    pub list: Vec<(Op, i32)>,
}

impl Code {
    /// The card's image.
    pub fn image(&self) -> Vec<u8> {
        let code = self.list.iter().map(|&(op, k)| (op as u8, k));
        encode(self.globals, code)
    }
}

pub struct Asm {
    code: Vec<(Op, Operand)>,
    labels: Vec<Option<usize>>,
    globals: i32,
}

impl Asm {
    /// Nothing but the cell for the log.
    pub fn new() -> Asm {
        Asm {
            code: Vec::new(),
            labels: Vec::new(),
            globals: LOG + 1,
        }
    }

    pub fn len(&self) -> usize {
        self.code.len()
    }

    /// The instructions with the labels filled in. What is too long for a card is cut off.
    pub fn finish(mut self) -> Code {
        if self.code.is_empty() {
            self.op(Op::Halt);
        }
        self.code.truncate(LIMIT);
        let n = self.code.len();
        let known = |operand: &Operand| match operand {
            Operand::Number(k) => *k,
            Operand::Label(label) => self.labels[label.0].unwrap_or(0).min(n - 1) as i32,
        };
        Code {
            globals: self.globals as usize,
            list: self
                .code
                .iter()
                .map(|(op, operand)| (*op, known(operand)))
                .collect(),
        }
    }

    pub fn op(&mut self, op: Op) {
        self.opk(op, 0);
    }

    pub fn opk(&mut self, op: Op, k: i32) {
        self.code.push((op, Operand::Number(k)));
    }

    /// An instruction whose operand is the place of a label.
    pub fn to(&mut self, op: Op, label: Label) {
        self.code.push((op, Operand::Label(label)));
    }

    pub fn label(&mut self) -> Label {
        self.labels.push(None);
        Label(self.labels.len() - 1)
    }

    pub fn place(&mut self, label: Label) {
        self.labels[label.0] = Some(self.code.len());
    }

    pub fn here(&mut self) -> Label {
        let label = self.label();
        self.place(label);
        label
    }

    pub fn constant(&mut self, k: i32) {
        self.opk(Op::Loadc, k);
    }

    /// Pushes any number, also one that has no room in an operand. Two cells are used on the way.
    pub fn number(&mut self, value: i32) {
        if (-(1 << 23)..1 << 23).contains(&value) {
            self.constant(value);
        } else {
            self.constant(value >> 8);
            self.constant(256);
            self.op(Op::Mul);
            self.constant(value & 255);
            self.op(Op::Add);
        }
    }

    // Shared cells.

    /// A fresh global cell.
    pub fn cell(&mut self) -> i32 {
        self.globals += 1;
        self.globals - 1
    }

    pub fn cells(&mut self, count: usize) -> Vec<i32> {
        (0..count).map(|_| self.cell()).collect()
    }

    /// How many global cells the card asks for, if not just those that were named.
    pub fn set_globals(&mut self, globals: i32) {
        self.globals = globals;
    }

    pub fn get(&mut self, cell: i32) {
        self.constant(cell);
        self.op(Op::Load);
    }

    /// Drops the top into a cell.
    pub fn set(&mut self, cell: i32) {
        self.constant(cell);
        self.op(Op::Store);
        self.op(Op::Pop);
    }

    pub fn set_to(&mut self, cell: i32, value: i32) {
        self.number(value);
        self.set(cell);
    }

    /// Adds `k` to a cell.
    pub fn add_to(&mut self, cell: i32, k: i32) {
        self.get(cell);
        self.constant(k);
        self.op(Op::Add);
        self.set(cell);
    }

    /// Takes the top into the log.
    pub fn log(&mut self) {
        self.constant(1009);
        self.op(Op::Mod);
        self.get(LOG);
        self.constant(31);
        self.op(Op::Mul);
        self.op(Op::Add);
        self.constant(65521);
        self.op(Op::Mod);
        self.set(LOG);
    }

    /// Takes a cell of the frame into the log.
    pub fn log_local(&mut self, k: i32) {
        self.opk(Op::Loadr, k);
        self.log();
    }

    // The frame. Cell -2 is the argument, and the result when the function or thread returns.

    /// Drops the top into a cell of the frame.
    pub fn put(&mut self, k: i32) {
        self.opk(Op::Storer, k);
        self.op(Op::Pop);
    }

    /// Calls a function with the top as its argument; its result takes the argument's place.
    pub fn call(&mut self, function: Label) {
        self.op(Op::Mark);
        self.to(Op::Loadc, function);
        self.op(Op::Call);
    }

    /// Ends the function or thread with the top.
    pub fn give(&mut self) {
        self.opk(Op::Storer, -2);
        self.op(Op::Return);
    }

    /// The same, in one of the two ways that a thread has.
    pub fn end_thread(&mut self, r: &mut Random) {
        if r.percent(50) {
            self.op(Op::Exit);
        } else {
            self.give();
        }
    }

    /// Ends the thread with the log.
    pub fn end_with_log(&mut self, r: &mut Random) {
        self.get(LOG);
        self.end_thread(r);
    }

    /// Does the body so many times, counting down in a cell of the frame.
    pub fn repeat(&mut self, times: i32, local: i32, body: impl FnOnce(&mut Asm)) {
        self.constant(times);
        self.put(local);
        let again = self.here();
        let done = self.label();
        self.opk(Op::Loadr, local);
        self.to(Op::Jumpz, done);
        body(self);
        self.opk(Op::Loadr, local);
        self.constant(1);
        self.op(Op::Sub);
        self.put(local);
        self.to(Op::Jump, again);
        self.place(done);
    }

    /// Does the body if the top, which goes, isn't 0.
    pub fn if_top(&mut self, body: impl FnOnce(&mut Asm)) {
        let done = self.label();
        self.to(Op::Jumpz, done);
        body(self);
        self.place(done);
    }

    // Threads, mutexes, conditions, semaphores.

    /// A fresh cell with a new mutex in it.
    pub fn mutex(&mut self) -> i32 {
        let cell = self.cell();
        self.op(Op::Newmutex);
        self.set(cell);
        cell
    }

    /// A fresh cell with a new condition in it.
    pub fn condition(&mut self) -> i32 {
        let cell = self.cell();
        self.op(Op::Newcond);
        self.set(cell);
        cell
    }

    /// A fresh cell with a new semaphore in it.
    pub fn semaphore(&mut self, start: i32) -> i32 {
        let cell = self.cell();
        self.number(start);
        self.op(Op::Newsema);
        self.set(cell);
        cell
    }

    /// Creates a thread and keeps its number in a fresh cell.
    pub fn fork(&mut self, entry: Label, argument: i32) -> i32 {
        let cell = self.cell();
        self.to(Op::Loadc, entry);
        self.constant(argument);
        self.op(Op::Create);
        self.set(cell);
        cell
    }

    /// Waits for the thread whose number is on top; its result takes the number's place. In some
    /// places the finalize of the lectures stands behind, which does nothing.
    pub fn join(&mut self, r: &mut Random) {
        self.op(Op::Join);
        if r.percent(40) {
            self.op(Op::Finalize);
        }
    }

    /// Waits for the thread in a cell and takes its result into the log.
    pub fn collect(&mut self, r: &mut Random, cell: i32) {
        self.get(cell);
        self.join(r);
        self.log();
    }

    pub fn lock(&mut self, mutex: i32) {
        self.get(mutex);
        self.op(Op::Lock);
    }

    pub fn unlock(&mut self, mutex: i32) {
        self.get(mutex);
        self.op(Op::Unlock);
    }

    pub fn signal(&mut self, condition: i32) {
        self.get(condition);
        self.op(Op::Signal);
    }

    pub fn broadcast(&mut self, condition: i32) {
        self.get(condition);
        self.op(Op::Broadcast);
    }

    /// Waits once, and locks again.
    pub fn wait(&mut self, mutex: i32, condition: i32) {
        self.get(mutex);
        self.get(condition);
        self.op(Op::Wait);
        self.op(Op::Lock);
    }

    /// Waits as long as `test` leaves something else than 0.
    pub fn wait_while(&mut self, mutex: i32, condition: i32, test: impl FnOnce(&mut Asm)) {
        let again = self.here();
        let done = self.label();
        test(self);
        self.to(Op::Jumpz, done);
        self.wait(mutex, condition);
        self.to(Op::Jump, again);
        self.place(done);
    }

    pub fn up(&mut self, semaphore: i32) {
        self.get(semaphore);
        self.op(Op::Up);
    }

    pub fn down(&mut self, semaphore: i32) {
        self.get(semaphore);
        self.op(Op::Down);
    }

    /// None to `most` yields.
    pub fn yields(&mut self, r: &mut Random, most: i32) {
        for _ in 0..r.range(0, most) {
            self.op(Op::Yield);
        }
    }
}
