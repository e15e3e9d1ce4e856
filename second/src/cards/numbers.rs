//! Cards that come to one instruction which names a thread, a mutex, a condition or a semaphore by a
//! number; or to finalize, which looks at none.

use super::asm::{Asm, Code};
use super::random::Random;
use crate::machine::Op;

/// The instructions. Wait comes more often, since it has two numbers.
const NAMING: [(usize, Op); 9] = [
    (2, Op::Join),
    (2, Op::Finalize),
    (2, Op::Lock),
    (2, Op::Unlock),
    (2, Op::Signal),
    (2, Op::Broadcast),
    (6, Op::Wait),
    (2, Op::Up),
    (2, Op::Down),
];

/// Makes a few of each kind, mostly not as many of one as of another, so that a look into the
/// wrong table shows; then one of the instructions, by thread 0 or by a thread of its own.
pub fn numbers(r: &mut Random) -> Code {
    let mut a = Asm::new();
    let (point, end) = (a.label(), a.label());
    let (mut threads, mutexes) = (r.range(1, 4), r.range(0, 4));
    let (conditions, semaphores) = (r.range(0, 4), r.range(0, 4));
    for _ in 0..mutexes {
        a.op(Op::Newmutex);
        a.op(Op::Pop);
    }
    for _ in 0..conditions {
        a.op(Op::Newcond);
        a.op(Op::Pop);
    }
    for _ in 0..semaphores {
        a.number(r.pick(&[0, 1, 2, i32::MAX]));
        a.op(Op::Newsema);
        a.op(Op::Pop);
    }
    for id in 1..threads {
        a.fork(end, id);
    }
    // Who owns the mutex is looked at after the numbers.
    if r.percent(50) {
        for m in 0..mutexes {
            a.constant(m);
            a.op(Op::Lock);
        }
    }
    // The others have ended by then, or not.
    a.yields(r, 1);
    if r.percent(25) {
        a.fork(point, threads);
        a.op(Op::Yield);
        threads += 1;
    }
    a.place(point);
    let op = r.weighted(&NAMING);
    // An exit tells what a join or a finalize has left on top.
    let last = match op {
        Op::Join | Op::Finalize if r.percent(50) => Op::Exit,
        _ => Op::Halt,
    };
    let mut numbers = match op {
        Op::Join | Op::Finalize => vec![beside(r, threads)],
        Op::Lock | Op::Unlock => vec![beside(r, mutexes)],
        Op::Signal | Op::Broadcast => vec![beside(r, conditions)],
        Op::Up | Op::Down => vec![beside(r, semaphores)],
        _ => vec![beside(r, mutexes), beside(r, conditions)],
    };
    // One cell too few: then no number is looked at. A thread starts with three.
    if r.percent(10) {
        for _ in 0..3 {
            a.op(Op::Pop);
        }
        numbers.remove(r.below(numbers.len()));
    }
    for number in numbers {
        a.number(number);
    }
    a.op(op);
    a.op(last);
    a.place(end);
    a.op(Op::Return);
    a.finish()
}

/// Where `made` are made: the first or the last of them, or a number beside, or far off.
fn beside(r: &mut Random, made: i32) -> i32 {
    r.pick(&[0, made - 1, made, -1, i32::MAX, i32::MIN])
}
