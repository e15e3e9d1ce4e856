//! Short plays about joins: who waits for an end and who comes late for it, what else is on their
//! stacks, and what becomes of the result. What happens is logged, as in the other plays.

use super::asm::{Asm, Code, Label};
use super::random::Random;
use super::scenes::Scene;
use crate::machine::Op;

/// All plays, each as often as its weight says.
pub const SCENES: [(usize, Scene); 6] = [
    (5, waiters),
    (2, chain),
    (2, tree),
    (4, refused_end),
    (2, lookups),
    (1, ring),
];

/// How many cells the stack has when join is reached, the number among them: one, a few, or all 128.
const HEIGHTS: [(usize, i32); 9] = [
    (3, 1),
    (1, 2),
    (1, 3),
    (3, 4),
    (3, 5),
    (2, 9),
    (1, 126),
    (2, 127),
    (4, 128),
];

/// A result: mostly a small number, which could be a thread's too.
pub fn result(r: &mut Random) -> i32 {
    match r.below(8) {
        0 | 1 => i32::MIN,
        2 => i32::MAX,
        3 => r.range(-8388608, 8388607),
        _ => r.range(-2, 9),
    }
}

/// The body of a thread that joins the thread which its argument names, with so many cells, and does
/// something with the result.
pub fn joiner(a: &mut Asm, r: &mut Random, height: i32) {
    match height {
        1 => {
            // The argument itself is all that is left.
            a.op(Op::Pop);
            a.op(Op::Pop);
        }
        2 => {
            a.op(Op::Pop);
            a.op(Op::Pop);
            a.op(Op::Dup);
        }
        3 => {
            a.op(Op::Pop);
            a.opk(Op::Loadr, -2);
        }
        _ => {
            let below = height - 4;
            let numbers = r.range(0, 2).min(below);
            a.opk(Op::Alloc, below - numbers);
            for _ in 0..numbers {
                a.constant(r.range(-99, 99));
            }
            a.opk(Op::Loadr, -2);
        }
    }
    a.join(r);
    match r.below(10) {
        // It stays on top and is the thread's own result.
        0..=2 => {}
        3 | 4 if height > 1 => {
            let ops = [Op::Sub, Op::Add, Op::Eq, Op::Neq, Op::Less, Op::Leq];
            a.op(r.pick(&ops));
        }
        _ => {
            if height > 125 {
                // There is no room for the log, so the cells below go, but for the frame's.
                a.put(1);
                for _ in 0..3 {
                    a.op(Op::Pop);
                }
                a.opk(Op::Loadr, 1);
            }
            a.op(Op::Dup);
            a.log();
        }
    }
    // With fewer than three cells there is no frame to return from.
    if height < 3 {
        a.op(Op::Exit);
    } else {
        a.end_thread(r);
    }
}

/// Two to six threads join one of a few workers, some of them late; some join thread 0 or the joiner
/// before. In some cards one joins itself, and lives on for good.
fn waiters(r: &mut Random) -> Code {
    let mut a = Asm::new();
    let workers = r.range(1, 3);
    let works: Vec<Label> = (0..workers).map(|_| a.label()).collect();
    let entries: Vec<Label> = (0..r.range(1, 3)).map(|_| a.label()).collect();
    let itself = r.percent(12);
    // Those whose end thread 0 can wait for.
    let mut ending = Vec::new();
    for (id, &work) in (1..).zip(&works) {
        ending.push((id, a.fork(work, id)));
        a.yields(r, 1);
    }
    // The argument is the thread to join. Thread 0 makes all threads, so a thread's number is known.
    let made = workers + r.range(2, 6);
    for id in workers + 1..=made {
        let before = ending.last().map_or(1, |&(id, _)| id);
        let target = match r.below(20) {
            0 | 1 if itself => id,
            2 => 0,
            3..=6 => before,
            _ => r.range(1, workers),
        };
        let entry = r.pick(&entries);
        let cell = a.fork(entry, target);
        if target != id && target != 0 {
            ending.push((id, cell));
        }
        a.yields(r, 2);
    }
    for (_, cell) in ending {
        if r.percent(75) {
            a.collect(r, cell);
        }
    }
    a.end_with_log(r);
    for work in works {
        a.place(work);
        a.opk(Op::Alloc, 1);
        a.repeat(r.range(0, 5), 1, |a| a.op(Op::Yield));
        a.number(result(r));
        a.end_thread(r);
    }
    for entry in entries {
        a.place(entry);
        a.yields(r, 3);
        let height = r.weighted(&HEIGHTS);
        joiner(&mut a, r, height);
    }
    a.finish()
}

/// Each thread makes the next one and waits for it, the last one ends, and the results go back.
fn chain(r: &mut Random) -> Code {
    let mut a = Asm::new();
    let entry = a.label();
    let most = r.pick(&[3, 3, 5, 5, 9, 31]);
    let length = r.range(2, most);
    a.to(Op::Loadc, entry);
    a.constant(1);
    a.op(Op::Create);
    a.yields(r, 2);
    a.join(r);
    a.log();
    a.end_with_log(r);
    a.place(entry);
    a.yields(r, 1);
    a.opk(Op::Loadr, -2);
    a.constant(length);
    a.op(Op::Neq);
    a.if_top(|a| {
        a.to(Op::Loadc, entry);
        a.opk(Op::Loadr, -2);
        a.constant(1);
        a.op(Op::Add);
        a.op(Op::Create);
        a.yields(r, 2);
        a.join(r);
        a.constant(10007);
        a.op(Op::Mod);
        a.opk(Op::Loadr, -2);
        a.op(Op::Add);
        a.end_thread(r);
    });
    a.number(result(r));
    a.end_thread(r);
    a.finish()
}

/// Each thread makes two others, joins the second and then the first, whose results meet on its
/// stack; the last ones count themselves.
fn tree(r: &mut Random) -> Code {
    let mut a = Asm::new();
    let (node, count) = (a.label(), a.cell());
    a.to(Op::Loadc, node);
    a.constant(r.pick(&[1, 1, 2, 2, 3, 4]));
    a.op(Op::Create);
    a.join(r);
    a.log();
    a.end_with_log(r);
    a.place(node);
    a.opk(Op::Loadr, -2);
    a.if_top(|a| {
        for _ in 0..2 {
            a.to(Op::Loadc, node);
            a.opk(Op::Loadr, -2);
            a.constant(1);
            a.op(Op::Sub);
            a.op(Op::Create);
            a.yields(r, 1);
        }
        // The first one's number is in the frame's cell 1, below the second's.
        a.join(r);
        a.constant(3);
        a.op(Op::Mul);
        a.opk(Op::Loadr, 1);
        a.join(r);
        a.op(Op::Add);
        a.constant(10007);
        a.op(Op::Mod);
        a.end_thread(r);
    });
    a.yields(r, 2);
    a.add_to(count, 1);
    a.get(count);
    a.end_thread(r);
    a.finish()
}

/// Thread 1 is about to end with a mutex its own, while others wait for its end: nobody may get its
/// result. In some cards it gives the mutex back first.
fn refused_end(r: &mut Random) -> Code {
    let mut a = Asm::new();
    let mutexes: Vec<i32> = (0..r.range(1, 3)).map(|_| a.mutex()).collect();
    let owner = a.label();
    let entries: Vec<Label> = (0..r.range(1, 2)).map(|_| a.label()).collect();
    let target = a.fork(owner, 7);
    for _ in 0..r.range(1, 4) {
        let entry = r.pick(&entries);
        a.fork(entry, 1);
        a.yields(r, 1);
    }
    if r.percent(50) {
        a.collect(r, target);
    } else {
        a.yields(r, 3);
    }
    a.end_with_log(r);
    a.place(owner);
    let m = r.pick(&mutexes);
    a.lock(m);
    a.log_local(-2);
    for _ in 0..r.range(1, 4) {
        a.op(Op::Yield);
    }
    if r.percent(20) {
        a.unlock(m);
    }
    a.number(result(r));
    a.end_thread(r);
    for entry in entries {
        a.place(entry);
        let height = r.weighted(&HEIGHTS);
        joiner(&mut a, r, height);
    }
    a.finish()
}

/// Finalize on any number, before a join and behind it: the number is what it was.
fn lookups(r: &mut Random) -> Code {
    let mut a = Asm::new();
    let entry = a.label();
    let made = r.range(1, 3);
    let threads: Vec<i32> = (1..=made).map(|id| a.fork(entry, 10 * id)).collect();
    for _ in 0..r.range(2, 6) {
        match r.below(4) {
            0 => a.get(r.pick(&threads)),
            1 => {
                a.get(r.pick(&threads));
                a.op(Op::Join);
            }
            2 => a.opk(Op::Loadr, r.range(-2, 0)),
            _ => a.number(r.pick(&[-1, 0, made, made + 1, 31, 32, i32::MIN, i32::MAX])),
        }
        for _ in 0..r.range(1, 2) {
            a.op(Op::Finalize);
        }
        a.log();
        a.yields(r, 1);
    }
    for cell in threads {
        a.collect(r, cell);
    }
    a.end_with_log(r);
    a.place(entry);
    a.yields(r, 2);
    a.number(result(r));
    a.end_thread(r);
    a.finish()
}

/// Threads that each join the next one round, or one that breaks the ring by ending.
fn ring(r: &mut Random) -> Code {
    let mut a = Asm::new();
    let (member, last) = (a.label(), a.label());
    let size = r.range(1, 4);
    for id in 1..size {
        a.fork(member, id + 1);
    }
    a.fork(if r.percent(50) { last } else { member }, 1);
    a.yields(r, 2);
    a.constant(r.range(1, size));
    a.join(r);
    a.log();
    a.end_with_log(r);
    a.place(last);
    a.yields(r, 2);
    a.number(result(r));
    a.end_thread(r);
    a.place(member);
    a.yields(r, 1);
    let height = r.weighted(&HEIGHTS);
    joiner(&mut a, r, height);
    a.finish()
}
