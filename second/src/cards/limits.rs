//! Cards near a limit: 32 threads and semaphores, 31 who wait for one end, 64 mutexes and conditions,
//! a semaphore's largest and least count, the ends of 32 bits, cell 127, 4,096 instructions, the last
//! shared cell; and cards that bring one instruction to its edges.

use super::asm::{Asm, Code, LOG};
use super::joins;
use super::random::Random;
use super::soup;
use crate::machine::{Op, LIMIT};

type Limit = fn(&mut Random) -> Code;

/// All of them, each as often as its weight says.
pub const LIMITS: [(usize, Limit); 12] = [
    (3, full_house),
    (2, many_threads),
    (2, many_joiners),
    (2, many_objects),
    (4, many_semaphores),
    (3, high_counts),
    (3, low_counts),
    (3, deep_frames),
    (3, big_numbers),
    (2, long),
    (2, room),
    (1, endless),
];

/// Creates 31 to 34 threads in as few steps as can be, then one or two with an entry that may be
/// none: that is tested before the room.
fn full_house(r: &mut Random) -> Code {
    let mut a = Asm::new();
    let (entry, past) = (a.label(), a.label());
    for id in 0..r.pick(&[30, 31, 31, 31, 32, 33]) {
        a.to(Op::Loadc, entry);
        a.constant(id);
        a.op(Op::Create);
    }
    for _ in 0..r.range(1, 2) {
        a.to(Op::Loadc, past);
        a.constant(r.pick(&[-1, 0, 1, 1, 2]));
        a.op(Op::Add);
        if r.percent(30) {
            a.op(Op::Neg);
        }
        a.constant(5);
        a.op(Op::Create);
        a.log();
    }
    a.yields(r, 2);
    a.op(Op::Dup);
    a.op(r.pick(&[Op::Join, Op::Finalize, Op::Pop]));
    a.end_with_log(r);
    a.place(entry);
    a.yields(r, 1);
    // The last instruction's place: its label plus 1 is n.
    a.place(past);
    a.op(r.pick(&[Op::Return, Op::Exit, Op::Halt]));
    a.finish()
}

/// Creates 28 to 40 threads. The last creates may have an entry that is none.
fn many_threads(r: &mut Random) -> Code {
    let mut a = Asm::new();
    let m = a.mutex();
    let entry = a.label();
    let made = r.pick(&[28, 30, 31, 31, 31, 32, 32, 33, 36, 40]);
    let base = a.cells(made as usize)[0];
    a.opk(Op::Alloc, 2);
    a.repeat(made, 1, |a| {
        a.to(Op::Loadc, entry);
        a.opk(Op::Loadr, 1);
        a.op(Op::Create);
        a.op(Op::Dup);
        a.log();
        // cell[base + counter - 1] = the number
        a.opk(Op::Loadr, 1);
        a.constant(base - 1);
        a.op(Op::Add);
        a.op(Op::Store);
        a.op(Op::Pop);
        a.yields(r, 1);
    });
    if r.percent(50) {
        // An entry that is none, or just one.
        let past = a.label();
        let by = r.pick(&[-1, 0, 1]);
        if r.percent(50) {
            a.to(Op::Loadc, past);
            a.constant(by + 1);
            a.op(Op::Add);
        } else {
            a.constant(by);
        }
        a.constant(5);
        a.op(Op::Create);
        a.log();
        finish_many(&mut a, r, m, entry, base, made);
        // The last instruction's place: its label plus 1 is n.
        a.place(past);
        a.op(Op::Halt);
        return a.finish();
    }
    finish_many(&mut a, r, m, entry, base, made);
    a.finish()
}

fn finish_many(
    a: &mut Asm,
    r: &mut Random,
    m: i32,
    entry: super::asm::Label,
    base: i32,
    made: i32,
) {
    // Joins all of them, in order, except where create gave -1.
    a.repeat(made, 1, |a| {
        a.opk(Op::Loadr, 1);
        a.constant(base - 1);
        a.op(Op::Add);
        a.op(Op::Load);
        a.put(2);
        a.constant(0);
        a.opk(Op::Loadr, 2);
        a.op(if r.percent(90) { Op::Leq } else { Op::Eq });
        a.if_top(|a| {
            a.opk(Op::Loadr, 2);
            a.join(r);
            a.log();
        });
    });
    a.end_with_log(r);
    a.place(entry);
    a.yields(r, 2);
    if r.percent(50) {
        a.lock(m);
        a.yields(r, 1);
        a.log_local(-2);
        a.unlock(m);
    }
    a.opk(Op::Loadr, -2);
    a.end_thread(r);
}

/// Up to 30 threads join thread 1, or up to 31 thread 0, in as few steps as can be; then that one
/// ends, and each has its result.
fn many_joiners(r: &mut Random) -> Code {
    let mut a = Asm::new();
    let (worker, joiner) = (a.label(), a.label());
    let awaited = r.range(0, 1);
    if awaited == 1 {
        a.fork(worker, 7);
    }
    for _ in 0..r.pick(&[28, 29, 30, 30, 31, 31]) {
        a.to(Op::Loadc, joiner);
        a.constant(awaited);
        a.op(Op::Create);
        a.op(Op::Pop);
    }
    a.op(Op::Yield);
    if awaited == 1 {
        for _ in 0..r.range(1, 2) {
            a.constant(r.pick(&[1, 2, 29]));
            a.join(r);
            a.log();
        }
        a.end_with_log(r);
    }
    a.place(worker);
    if r.percent(70) {
        a.op(Op::Yield);
    }
    a.number(joins::result(r));
    a.end_thread(r);
    a.place(joiner);
    let height = r.pick(&[1, 4, 5, 128]);
    joins::joiner(&mut a, r, height);
    a.finish()
}

/// Makes 60 to 70 mutexes and conditions and uses those at the ends.
fn many_objects(r: &mut Random) -> Code {
    let mut a = Asm::new();
    let last = a.cells(2);
    a.opk(Op::Alloc, 1);
    for (i, op) in [Op::Newmutex, Op::Newcond].into_iter().enumerate() {
        let times = r.pick(&[1, 60, 63, 64, 64, 65, 66, 70]);
        if r.percent(50) {
            a.repeat(times, 1, |a| {
                a.op(op);
                a.op(Op::Dup);
                a.log();
                a.set(last[i]);
            });
        } else {
            for _ in 1..times {
                a.op(op);
                a.op(Op::Pop);
            }
            a.op(op);
            a.set(last[i]);
        }
    }
    for _ in 0..r.range(2, 8) {
        let use_last = r.percent(30);
        let number = r.pick(&[0, 0, 1, 62, 63, 63, 64, -1]);
        let (cell, op) = r.pick(&[
            (last[0], Op::Lock),
            (last[0], Op::Unlock),
            (last[1], Op::Signal),
            (last[1], Op::Broadcast),
        ]);
        // A lock and its unlock, so that the unlock isn't at fault every time.
        let both = op == Op::Unlock && r.percent(80);
        for op in if both {
            vec![Op::Lock, Op::Unlock]
        } else {
            vec![op]
        } {
            if use_last {
                a.get(cell);
            } else {
                a.constant(number);
            }
            a.op(op);
        }
    }
    if r.percent(40) {
        a.constant(r.pick(&[0, 63, 64]));
        a.constant(r.pick(&[0, 63, 64]));
        a.op(Op::Wait);
    }
    a.end_with_log(r);
    a.finish()
}

/// Makes 30 to 33 semaphores in as few steps as can be, then one or two more, whose starting count
/// may be negative: that is tested before the room. Then it uses those at the ends.
fn many_semaphores(r: &mut Random) -> Code {
    let mut a = Asm::new();
    for _ in 0..r.pick(&[30, 31, 32, 32, 32, 32, 33]) {
        a.constant(r.pick(&[0, 1, 1, 2]));
        a.op(Op::Newsema);
        a.op(Op::Pop);
    }
    for _ in 0..r.range(1, 2) {
        a.number(r.pick(&[-1, -1, -1, 0, 1, 5, i32::MIN, i32::MAX]));
        a.op(Op::Newsema);
        a.op(Op::Dup);
        a.log();
    }
    for _ in 0..r.range(0, 6) {
        // What the last newsema gave is still on top.
        if r.percent(20) {
            a.op(Op::Dup);
        } else {
            a.constant(r.pick(&[0, 1, 30, 31, 31, 32, -1]));
        }
        a.op(r.pick(&[Op::Up, Op::Up, Op::Down]));
    }
    a.end_with_log(r);
    a.finish()
}

/// A semaphore that starts at the largest count or just below it, with ups and downs by one thread
/// or two.
fn high_counts(r: &mut Random) -> Code {
    let mut a = Asm::new();
    let s = a.semaphore(i32::MAX - r.weighted(&[(5, 0), (4, 1), (2, 2), (1, 9)]));
    let entry = a.label();
    let threads = if r.percent(40) {
        vec![a.fork(entry, 7)]
    } else {
        Vec::new()
    };
    high_acts(&mut a, r, s);
    for cell in threads {
        a.collect(r, cell);
    }
    a.end_with_log(r);
    a.place(entry);
    high_acts(&mut a, r, s);
    a.opk(Op::Loadr, -2);
    a.end_thread(r);
    a.finish()
}

fn high_acts(a: &mut Asm, r: &mut Random, s: i32) {
    for i in 0..r.range(1, 6) {
        if r.percent(70) {
            a.up(s);
        } else {
            a.down(s);
        }
        a.constant(i);
        a.log();
        a.yields(r, 1);
    }
}

/// Up to 31 threads wait for semaphore 0, so that its count is down to -31, in as few steps as can
/// be; thread 0 raises it again as often, or waits too.
fn low_counts(r: &mut Random) -> Code {
    let mut a = Asm::new();
    let entry = a.label();
    let act = |a: &mut Asm, op: Op| {
        a.constant(0);
        a.op(op);
    };
    a.constant(r.pick(&[0, 0, 0, 1]));
    a.op(Op::Newsema);
    a.op(Op::Pop);
    let waiters = r.pick(&[29, 30, 31, 31, 31]);
    for id in 1..=waiters {
        a.to(Op::Loadc, entry);
        a.constant(id);
        a.op(Op::Create);
        a.op(Op::Pop);
    }
    a.op(Op::Yield);
    let ups = r.pick(&[0, waiters - 1, waiters, waiters, waiters + 1]);
    for _ in 0..ups {
        act(&mut a, Op::Up);
    }
    if r.percent(30) {
        a.op(Op::Yield);
    }
    let downs = if ups == 0 { 1 } else { r.range(0, 2) };
    for _ in 0..downs {
        act(&mut a, Op::Down);
        a.constant(99);
        a.log();
    }
    if r.percent(70) {
        a.constant(r.range(1, waiters));
        a.join(r);
        a.log();
    }
    a.end_with_log(r);
    a.place(entry);
    act(&mut a, Op::Down);
    a.log_local(-2);
    a.opk(Op::Loadr, -2);
    a.end_thread(r);
    a.finish()
}

/// A function that calls itself until the stack is nearly, just or more than full, with frames of
/// various sizes and accesses at their edges.
fn deep_frames(r: &mut Random) -> Code {
    let mut a = Asm::new();
    let (down, bottom) = (a.label(), a.label());
    let size = r.range(0, 9);
    // What a level needs: the locals, then argument, mark and target.
    let level = size + 3;
    let depth = (125 / level + r.range(-2, 2)).max(1);
    a.opk(Op::Alloc, r.range(0, level));
    a.constant(depth);
    a.call(down);
    a.log();
    a.end_with_log(r);
    a.place(down);
    a.opk(Op::Alloc, size);
    a.opk(Op::Loadr, -2);
    a.constant(1);
    a.op(Op::Sub);
    a.op(Op::Dup);
    a.to(Op::Jumpz, bottom);
    a.call(down);
    a.give();
    a.place(bottom);
    // At the bottom: fill up to a cell near 127, then some instructions that push, or reach.
    a.opk(Op::Alloc, r.range(0, 12));
    for _ in 0..r.range(1, 6) {
        match r.below(9) {
            0 => a.op(Op::Dup),
            1 => a.op(Op::Mark),
            2 => a.op(Op::Newmutex),
            3 => a.op(Op::Newcond),
            4 => a.opk(
                Op::Loadr,
                r.pick(&[-128, -127, -126, -3, -2, 0, size, size + 1, 127]),
            ),
            5 => a.opk(
                Op::Storer,
                r.pick(&[-128, -127, -126, -5, 1, 2, 3, size, 127]),
            ),
            6 => a.opk(Op::Alloc, r.pick(&[0, 0, 1, 2, 3, 127])),
            7 => a.constant(7),
            _ => a.op(Op::Pop),
        }
    }
    a.give();
    a.finish()
}

/// Numbers that lie at the ends of what an instruction can meet.
const ENDS: [i32; 16] = [
    i32::MIN,
    i32::MIN + 1,
    i32::MIN / 2,
    -8388608,
    -65536,
    -46341,
    -2,
    -1,
    0,
    1,
    2,
    46340,
    46341,
    65536,
    i32::MAX - 1,
    i32::MAX,
];

/// Arithmetic at the ends of 32 bits, until it faults or a result comes out.
fn big_numbers(r: &mut Random) -> Code {
    let mut a = Asm::new();
    a.number(r.pick(&ENDS));
    if r.percent(30) {
        // The one pair that div and mod see differently.
        a.number(i32::MIN);
        a.constant(-1);
        a.op(r.pick(&[Op::Div, Op::Mod, Op::Mod, Op::Mul]));
        a.op(Op::Add);
    }
    for _ in 0..r.range(1, 12) {
        match r.below(8) {
            0 => a.op(Op::Neg),
            1 => a.op(Op::Not),
            2 => a.number(r.pick(&ENDS)),
            _ => {
                let value = if r.percent(50) {
                    r.pick(&ENDS)
                } else {
                    r.range(-3, 3)
                };
                a.number(value);
                a.op(r.pick(&[
                    Op::Add,
                    Op::Add,
                    Op::Sub,
                    Op::Sub,
                    Op::Mul,
                    Op::Div,
                    Op::Mod,
                    Op::Eq,
                    Op::Neq,
                    Op::Less,
                    Op::Leq,
                ]));
            }
        }
        if r.percent(20) {
            a.op(Op::Dup);
            a.op(r.pick(&[Op::Add, Op::Sub, Op::Mul, Op::Div, Op::Mod, Op::Eq]));
        }
    }
    a.end_thread(r);
    a.finish()
}

/// A card of 4,096 instructions or nearly so many, with jumps to its end.
fn long(r: &mut Random) -> Code {
    let n = LIMIT - r.pick(&[0, 0, 0, 1, 2, 1000]);
    let last = n as i32 - 1;
    let mut code = soup::soup(r, n);
    let opening: &[(Op, i32)] = match r.below(6) {
        0 => &[(Op::Jump, last)],
        1 => &[(Op::Loadc, 0), (Op::Jumpz, last)],
        2 => &[
            (Op::Loadc, 9),
            (Op::Mark, 0),
            (Op::Loadc, last),
            (Op::Call, 0),
        ],
        3 => &[
            (Op::Loadc, last),
            (Op::Loadc, 9),
            (Op::Create, 0),
            (Op::Yield, 0),
            (Op::Join, 0),
        ],
        4 => &[(Op::Loadc, n as i32), (Op::Loadc, 9), (Op::Create, 0)],
        _ => &[],
    };
    code.list[..opening.len()].copy_from_slice(opening);
    // What stands last: an end, a return, something to fall off the card from, or a call.
    let (op, k) = r.pick(&[
        (Op::Exit, 0),
        (Op::Halt, 0),
        (Op::Return, 0),
        (Op::Yield, 0),
        (Op::Mark, 0),
        (Op::Jump, last),
        (Op::Call, 0),
    ]);
    code.list[n - 1] = (op, if k == last && r.percent(50) { 0 } else { k });
    if op == Op::Call {
        // Then it is reached with a target below it, which returns to n: no place on the card.
        let back = 8;
        let way = [
            (Op::Loadc, 1),
            (Op::Mark, 0),
            (Op::Loadc, back),
            (Op::Jump, last),
        ];
        code.list[..4].copy_from_slice(&way);
        code.list[back as usize] = (Op::Return, 0);
    }
    code
}

/// Asks for fresh cells: just those that are left, one more, one, none, fewer than none.
fn room(r: &mut Random) -> Code {
    let mut a = Asm::new();
    let globals = r.pick(&[1, 2, 3, 100, 4094, 4095, 4096]);
    let mut left = LIMIT as i32 - globals;
    for _ in 0..r.range(1, 6) {
        let wanted = match r.below(10) {
            0 => left + 1,
            1 | 2 => left,
            3 => left - 1,
            4 => r.pick(&[i32::MAX, 4096, 4097]),
            5 => r.pick(&[0, -1, i32::MIN]),
            6 => left / 2,
            _ => 1,
        };
        a.number(wanted);
        a.op(Op::New);
        if 1 <= wanted && wanted <= left {
            left -= wanted;
        }
        if r.percent(70) {
            a.op(Op::Dup);
            a.log();
        }
        if r.percent(50) {
            // The first cell of the piece is written, and the last.
            a.op(Op::Dup);
            a.op(Op::Dup);
            a.op(Op::Store);
            a.op(Op::Pop);
            a.constant(wanted.clamp(-1, 5000) - r.range(0, 1));
            a.op(Op::Add);
            a.op(Op::Load);
            a.log();
        }
    }
    a.end_with_log(r);
    // The log lies in cell 0, which is a global cell whatever their number.
    a.set_globals(globals);
    a.finish()
}

/// Cards that never end, alone or with threads in between.
fn endless(r: &mut Random) -> Code {
    let mut a = Asm::new();
    // Most end all the same, since a million steps take a while.
    let limit = r.weighted(&[(9, 50), (2, 100_000_000)]);
    let entry = a.label();
    let m = a.mutex();
    a.opk(Op::Alloc, 1);
    for id in 1..=r.range(0, 3) {
        a.fork(entry, id);
    }
    a.place(entry);
    a.opk(Op::Alloc, 1);
    let again = a.here();
    if r.percent(50) {
        a.op(Op::Yield);
    }
    if r.percent(50) {
        a.lock(m);
        a.add_to(LOG, 1);
        a.yields(r, 1);
        a.unlock(m);
    } else {
        a.add_to(LOG, 1);
    }
    a.get(LOG);
    a.number(limit);
    a.op(Op::Leq);
    let done = a.label();
    a.to(Op::Jumpz, done);
    a.to(Op::Jump, again);
    a.place(done);
    a.end_with_log(r);
    a.finish()
}

/// A number to meet.
#[derive(Clone, Copy)]
enum Number {
    Is(i32),
    /// The place of the card's last instruction, plus this.
    Last(i32),
}

/// What an edge card has made before it comes to the point, and where its stack and frame are.
struct Made {
    mutexes: i32,
    conditions: i32,
    semaphores: i32,
    threads: i32,
    globals: i32,
}

/// Numbers on both sides of what an instruction can take: for top, and for the cell below it.
fn both_sides(op: Op, made: &Made) -> (Vec<Number>, Vec<Number>) {
    // The ends of "0 to `made` - 1", of the table, and of 32 bits.
    let of = |made: i32, limit: i32| {
        let (last, least, largest) = (made - 1, i32::MIN, i32::MAX);
        let ends = [-1, 0, 0, last, last, made, limit - 1, limit, least, largest];
        ends.map(Number::Is).to_vec()
    };
    let is = |values: &[i32]| {
        values
            .iter()
            .map(|&value| Number::Is(value))
            .collect::<Vec<_>>()
    };
    let mutexes = of(made.mutexes, 64);
    let conditions = of(made.conditions, 64);
    let semaphores = of(made.semaphores, 32);
    let threads = of(made.threads, 32);
    let places = [-1, 0, 1].map(Number::Last);
    let places = [&places[..], &is(&[-1, 0])].concat();
    let any = is(&[-2, -1, 0, 1, 2, 3]);
    match op {
        Op::Load | Op::Store => (is(&[-1, 0, 4095, 4096, 4097, i32::MIN]), any),
        Op::Call | Op::Return => (places, any),
        Op::Create => (any, places),
        Op::New => {
            let left = LIMIT as i32 - made.globals;
            (is(&[-1, 0, 1, left - 1, left, left + 1, i32::MAX]), any)
        }
        Op::Join | Op::Finalize => (threads, any),
        Op::Lock | Op::Unlock => (mutexes, any),
        Op::Signal | Op::Broadcast => (conditions, any),
        Op::Wait => (conditions, mutexes),
        Op::Newsema => (is(&[i32::MIN, -1, -1, 0, 1, i32::MAX]), any),
        Op::Up | Op::Down => (semaphores, any),
        Op::Div | Op::Mod => (
            is(&[-1, -1, 0, 1, 2]),
            is(&[i32::MIN, i32::MIN + 1, -7, i32::MAX]),
        ),
        Op::Neg => (is(&[i32::MIN, i32::MIN, i32::MIN + 1, i32::MAX, 0, 1]), any),
        Op::Add | Op::Sub | Op::Mul => (is(&ENDS), is(&ENDS)),
        Op::Eq | Op::Neq | Op::Less | Op::Leq => (is(&[-1, 0, 1, 2]), is(&[-1, 0, 1, i32::MIN])),
        _ => (any.clone(), any),
    }
}

/// Brings one instruction to its edges: a stack of hardly any cells or of nearly all, with numbers
/// on it that lie on both sides of some limit, and one to three instructions.
pub fn edge(r: &mut Random) -> Code {
    let mut a = Asm::new();
    let (child, after, end) = (a.label(), a.label(), a.label());
    let made = Made {
        mutexes: r.weighted(&[(3, 0), (6, 1), (6, 2), (3, 3), (1, 63), (2, 64)]),
        conditions: r.weighted(&[(3, 0), (6, 1), (6, 2), (1, 63), (2, 64)]),
        semaphores: r.weighted(&[(3, 0), (6, 1), (6, 2), (1, 31), (2, 32)]),
        threads: 1 + r.weighted(&[(5, 0), (5, 1), (5, 2), (1, 30), (2, 31)]),
        globals: 16,
    };
    // Those with many edges come a little more often.
    let often = [
        Op::Return,
        Op::Return,
        Op::Return,
        Op::Exit,
        Op::Exit,
        Op::Loadr,
        Op::Storer,
        Op::Store,
        Op::Dup,
        Op::Neg,
        Op::Call,
        Op::Join,
        Op::Join,
        Op::Finalize,
        Op::Wait,
        Op::Newsema,
        Op::Up,
        Op::Up,
        Op::Down,
    ];
    let mut ops = vec![if r.percent(35) {
        r.pick(&often)
    } else {
        r.pick(&Op::ALL)
    }];
    for _ in 0..r.weighted(&[(5, 0), (2, 1), (1, 2)]) {
        ops.push(r.pick(&Op::ALL));
    }

    // Numbers to meet, each in a shared cell, since a full stack has no room to compute them.
    let (top, below) = both_sides(ops[0], &made);
    let numbers = [
        r.pick(&top),
        r.pick(&below),
        r.pick(&top),
        Number::Is(r.pick(&ENDS)),
    ];
    let pool: Vec<i32> = a.cells(numbers.len());
    for (&number, &cell) in numbers.iter().zip(&pool) {
        match number {
            Number::Is(value) => a.number(value),
            Number::Last(more) => {
                a.to(Op::Loadc, end);
                a.constant(more);
                a.op(Op::Add);
            }
        }
        a.set(cell);
    }

    // Things to be named by a number. What thread 0 locks, it owns; what a child locks, it doesn't.
    for _ in 0..made.mutexes {
        a.op(Op::Newmutex);
        a.op(Op::Pop);
    }
    for _ in 0..made.conditions {
        a.op(Op::Newcond);
        a.op(Op::Pop);
    }
    // Where up comes to the point, mostly with a count that can't be raised any more, or just once.
    let starts: &[i32] = if ops[0] == Op::Up {
        &[0, i32::MAX - 1, i32::MAX, i32::MAX]
    } else {
        &[0, 0, 1, 1, 2]
    };
    let start = r.pick(starts);
    for _ in 0..made.semaphores {
        a.number(start);
        a.op(Op::Newsema);
        a.op(Op::Pop);
    }
    for id in 1..made.threads {
        a.to(Op::Loadc, child);
        a.constant(id);
        a.op(Op::Create);
        a.op(Op::Pop);
    }
    // Thread 0 owns none, the first one or two, or the last.
    let owned = match r.below(5) {
        0 | 1 => 0..0,
        2 => (made.mutexes - 1).max(0)..made.mutexes,
        _ => 0..made.mutexes.min(r.range(1, 2)),
    };
    for m in owned {
        a.constant(m);
        a.op(Op::Lock);
    }
    a.yields(r, 3);

    // Perhaps another frame.
    let (mut cells, mut fp) = (3, 2);
    if r.percent(if ops[0] == Op::Return { 75 } else { 35 }) {
        let between = r.pick(&[0, 0, 1, 5, 60, 118, 120, 121, 122]);
        let frame = a.label();
        a.opk(Op::Alloc, between);
        a.constant(3);
        a.call(frame);
        a.to(Op::Jump, after);
        a.place(frame);
        cells += between + 3;
        fp = cells - 1;
    }
    // Return takes what is in the frame: the old FP and the place to go on.
    if ops[0] == Op::Return && r.percent(70) {
        a.constant(r.pick(&[-2, -1, -1, 0, 1, 2, 2, fp - 2, fp - 1, fp - 1, fp, fp + 1]));
        a.put(-1);
        if r.percent(60) {
            a.get(r.pick(&pool));
            a.put(0);
        }
    }

    // The stack's height, and numbers on top.
    let mut height = r.weighted(&[
        (4, 0),
        (4, 1),
        (4, 2),
        (5, 3),
        (4, 5),
        (2, 126),
        (3, 127),
        (5, 128),
    ]);
    if ops[0] == Op::Return {
        height = r.pick(&[fp, fp + 1, fp + 1, fp + 2]).min(128);
    }
    if ops[0] == Op::Exit {
        height = r.pick(&[0, 0, 1, 3]);
    }
    let numbers = r.range(0, 3).min(height);
    let bottom = height - numbers;
    if bottom > cells {
        a.opk(Op::Alloc, bottom - cells);
    }
    for _ in bottom..cells {
        a.op(Op::Pop);
    }
    for i in (0..numbers).rev() {
        a.get(if r.percent(90) {
            pool[i as usize]
        } else {
            r.pick(&pool)
        });
    }

    // The instructions.
    for op in ops {
        match op {
            Op::Loadc => a.constant(r.range(-8388608, 8388607)),
            Op::Loadr | Op::Storer => {
                let sp = height - 1;
                let k = r.pick(&[
                    -fp - 1,
                    -fp,
                    -1,
                    0,
                    1,
                    sp - fp - 1,
                    sp - fp,
                    sp - fp + 1,
                    127,
                ]);
                a.opk(op, k.clamp(-128, 127));
            }
            Op::Alloc => {
                let left = 128 - height;
                a.opk(
                    op,
                    r.pick(&[0, 1, left - 1, left, left + 1, 127]).clamp(0, 127),
                );
            }
            Op::Jump | Op::Jumpz => a.to(op, r.pick(&[after, end, child])),
            _ => a.op(op),
        }
    }
    a.place(after);
    a.op(r.pick(&[Op::Halt, Op::Return, Op::Yield, Op::Exit, Op::Exit]));

    // The other threads: they end, wait, or hold what they locked.
    a.place(child);
    match r.below(7) {
        0 => a.op(Op::Yield),
        1 => {
            a.constant(0);
            a.op(Op::Join);
        }
        2 if made.mutexes > 0 => {
            a.constant(made.mutexes - 1);
            a.op(Op::Lock);
            if r.percent(60) {
                // Held until thread 0 has ended, so that no fault 31 comes before the point.
                a.constant(0);
                a.op(Op::Join);
            } else {
                a.op(Op::Yield);
            }
        }
        3 if made.mutexes > 0 && made.conditions > 0 => {
            a.constant(made.mutexes - 1);
            a.op(Op::Lock);
            a.constant(made.mutexes - 1);
            a.constant(0);
            a.op(Op::Wait);
            a.op(Op::Lock);
        }
        4 if made.semaphores > 0 => {
            a.constant(made.semaphores - 1);
            a.op(Op::Down);
        }
        _ => {}
    }
    a.place(end);
    a.op(r.pick(&[Op::Return, Op::Return, Op::Return, Op::Exit, Op::Yield]));
    a.set_globals(made.globals);
    a.finish()
}
