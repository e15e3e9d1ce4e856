//! Short plays with several threads, each with a known point: hand-over, buffers, barriers, joins.
//! What happens is logged, so that another order gives another result. Yields are strewn between.

use super::asm::{Asm, Code, Label, LOG};
use super::random::Random;
use crate::machine::Op;

pub type Scene = fn(&mut Random) -> Code;

/// All plays, each as often as its weight says.
pub const SCENES: [(usize, Scene); 11] = [
    (3, contention),
    (3, buffer),
    (3, barrier),
    (3, saver),
    (2, early_signal),
    (2, line_up),
    (2, joiners),
    (2, philosophers),
    (2, nested),
    (3, endings),
    (2, lawless),
];

/// Several threads lock the same mutex again and again, yielding inside and outside. Nobody may
/// get in between an unlock and the first waiter.
fn contention(r: &mut Random) -> Code {
    let mut a = Asm::new();
    let m = a.mutex();
    let entries: Vec<_> = (0..r.range(1, 3)).map(|_| a.label()).collect();
    let mut threads = Vec::new();
    for id in 1..=r.range(2, 6) {
        let entry = r.pick(&entries);
        threads.push(a.fork(entry, id));
        a.yields(r, 1);
    }
    if r.percent(50) {
        a.lock(m);
        a.yields(r, 3);
        a.constant(99);
        a.log();
        a.unlock(m);
        if r.percent(50) {
            // Straight away once more: the waiters come first.
            a.lock(m);
            a.constant(98);
            a.log();
            a.unlock(m);
        }
    }
    for cell in threads {
        a.collect(r, cell);
    }
    a.end_with_log(r);
    for entry in entries {
        a.place(entry);
        a.opk(Op::Alloc, 1);
        a.repeat(r.range(1, 4), 1, |a| {
            a.yields(r, 2);
            a.lock(m);
            a.log_local(-2);
            a.yields(r, 3);
            a.unlock(m);
            a.yields(r, 1);
        });
        a.opk(Op::Loadr, -2);
        a.end_thread(r);
    }
    a.finish()
}

/// Producers and consumers with a ring of cells between them.
fn buffer(r: &mut Random) -> Code {
    let mut a = Asm::new();
    let m = a.mutex();
    let not_full = a.condition();
    let not_empty = if r.percent(80) {
        a.condition()
    } else {
        not_full
    };
    let (count, head, tail, ring) = (a.cell(), a.cell(), a.cell(), a.cell());
    let capacity = r.range(1, 4);
    a.constant(capacity);
    a.op(Op::New);
    a.set(ring);
    let (producer, consumer) = (a.label(), a.label());
    let (producers, consumers, items) = (r.range(1, 3), r.range(1, 3), r.range(1, 4));
    let mut threads = Vec::new();
    for id in 1..=producers {
        threads.push(a.fork(producer, id));
    }
    for id in 1..=consumers {
        threads.push(a.fork(consumer, 10 * id));
        a.yields(r, 1);
    }
    for cell in threads {
        a.collect(r, cell);
    }
    a.end_with_log(r);

    let wake = r.pick(&[Op::Signal, Op::Signal, Op::Broadcast]);
    // Moves a place in the ring one on.
    let advance = |a: &mut Asm, place: i32| {
        a.get(place);
        a.constant(1);
        a.op(Op::Add);
        a.constant(capacity);
        a.op(Op::Mod);
        a.set(place);
    };

    a.place(producer);
    a.opk(Op::Alloc, 1);
    a.repeat(items, 1, |a| {
        a.yields(r, 1);
        a.lock(m);
        a.wait_while(m, not_full, |a| {
            a.get(count);
            a.constant(capacity);
            a.op(Op::Eq);
        });
        // ring[tail] = 10 * argument + counter
        a.opk(Op::Loadr, -2);
        a.constant(10);
        a.op(Op::Mul);
        a.opk(Op::Loadr, 1);
        a.op(Op::Add);
        a.get(ring);
        a.get(tail);
        a.op(Op::Add);
        a.op(Op::Store);
        a.op(Op::Pop);
        advance(a, tail);
        a.add_to(count, 1);
        a.get(not_empty);
        a.op(wake);
        a.yields(r, 1);
        a.unlock(m);
    });
    a.opk(Op::Loadr, -2);
    a.end_thread(r);

    a.place(consumer);
    a.opk(Op::Alloc, 2);
    a.repeat((producers * items / consumers).max(1), 1, |a| {
        a.lock(m);
        a.wait_while(m, not_empty, |a| {
            a.get(count);
            a.op(Op::Not);
        });
        a.get(ring);
        a.get(head);
        a.op(Op::Add);
        a.op(Op::Load);
        a.put(2);
        advance(a, head);
        a.add_to(count, -1);
        a.get(not_full);
        a.op(wake);
        a.unlock(m);
        a.yields(r, 1);
        a.opk(Op::Loadr, 2);
        a.opk(Op::Loadr, -2);
        a.op(Op::Add);
        a.log();
    });
    a.opk(Op::Loadr, 2);
    a.end_thread(r);
    a.finish()
}

/// Threads that meet: the last to come broadcasts, or the first signals a few times.
fn barrier(r: &mut Random) -> Code {
    let mut a = Asm::new();
    let m = a.mutex();
    let c = a.condition();
    let count = a.cell();
    let size = r.range(2, 7);
    let entry = a.label();
    let mut threads = Vec::new();
    for id in 1..=size {
        threads.push(a.fork(entry, id));
        a.yields(r, 1);
    }
    for cell in threads {
        a.collect(r, cell);
    }
    a.end_with_log(r);
    a.place(entry);
    a.opk(Op::Alloc, 1);
    a.repeat(r.range(1, 3), 1, |a| {
        a.lock(m);
        a.add_to(count, 1);
        let (last, met) = (a.label(), a.label());
        a.get(count);
        a.constant(size);
        a.op(Op::Neq);
        a.to(Op::Jumpz, last);
        a.wait(m, c);
        a.to(Op::Jump, met);
        a.place(last);
        a.set_to(count, 0);
        if r.percent(80) {
            a.broadcast(c);
        } else {
            for _ in 0..size - r.range(0, 1) {
                a.signal(c);
            }
        }
        a.yields(r, 1);
        a.place(met);
        a.log_local(-2);
        a.unlock(m);
        a.yields(r, 1);
    });
    a.opk(Op::Loadr, -2);
    a.end_thread(r);
    a.finish()
}

/// A saver waits for a vessel; the filler signals while it holds the mutex and then changes the
/// vessel again. The saver must read the last content, and only once it owns the mutex.
fn saver(r: &mut Random) -> Code {
    let mut a = Asm::new();
    let m = a.mutex();
    let c = a.condition();
    let vessel = a.cell();
    let (save, fill, busy) = (a.label(), a.label(), a.label());
    let mut threads = Vec::new();
    for id in 1..=r.range(1, 3) {
        threads.push(a.fork(save, id));
    }
    a.yields(r, 2);
    for id in 1..=r.range(1, 2) {
        threads.push(a.fork(fill, 10 * id));
    }
    for id in 1..=r.range(0, 2) {
        threads.push(a.fork(busy, 100 * id));
    }
    a.yields(r, 3);
    if r.percent(60) {
        // Lets the last savers go home.
        a.lock(m);
        a.broadcast(c);
        a.unlock(m);
    }
    for cell in threads {
        a.collect(r, cell);
    }
    a.end_with_log(r);

    a.place(save);
    a.lock(m);
    if r.percent(50) {
        a.wait(m, c);
    } else {
        a.wait_while(m, c, |a| {
            a.get(vessel);
            a.op(Op::Not);
        });
    }
    a.get(vessel);
    a.op(Op::Dup);
    a.log();
    a.set_to(vessel, 0);
    a.yields(r, 1);
    a.unlock(m);
    a.end_thread(r);

    a.place(fill);
    a.lock(m);
    a.opk(Op::Loadr, -2);
    a.set(vessel);
    if r.percent(75) {
        a.signal(c);
    } else {
        a.broadcast(c);
    }
    for _ in 0..r.range(1, 4) {
        a.op(Op::Yield);
    }
    a.add_to(vessel, 5);
    a.yields(r, 2);
    if r.percent(90) {
        a.unlock(m);
    }
    a.get(vessel);
    a.end_thread(r);

    a.place(busy);
    a.yields(r, 2);
    a.lock(m);
    a.add_to(vessel, 1);
    a.log_local(-2);
    a.yields(r, 2);
    a.unlock(m);
    a.opk(Op::Loadr, -2);
    a.end_thread(r);
    a.finish()
}

/// Signals and broadcasts that nobody waits for; they must not be remembered. A waiter comes later
/// and is woken, or not, by a later signal.
fn early_signal(r: &mut Random) -> Code {
    let mut a = Asm::new();
    let m = a.mutex();
    let c = a.condition();
    let other = a.condition();
    let waiter = a.label();
    for _ in 0..r.range(1, 3) {
        let condition = r.pick(&[c, c, other]);
        if r.percent(70) {
            a.signal(condition);
        } else {
            a.broadcast(condition);
        }
    }
    let mut threads = Vec::new();
    for id in 1..=r.range(1, 4) {
        threads.push(a.fork(waiter, id));
        a.yields(r, 1);
    }
    for _ in 0..r.range(0, 5) {
        a.op(Op::Yield);
        a.get(LOG);
        a.log();
        a.signal(c);
    }
    for cell in threads {
        a.collect(r, cell);
    }
    a.end_with_log(r);
    a.place(waiter);
    a.lock(m);
    a.yields(r, 1);
    a.wait(m, c);
    a.log_local(-2);
    a.unlock(m);
    a.opk(Op::Loadr, -2);
    a.end_thread(r);
    a.finish()
}

/// Many wait for one condition, in an order that the yields decide; then signals, then a broadcast.
fn line_up(r: &mut Random) -> Code {
    let mut a = Asm::new();
    let m = a.mutex();
    let c = a.condition();
    let (plain, late) = (a.label(), a.label());
    let mut threads = Vec::new();
    for id in 1..=r.range(2, 12) {
        let entry = r.pick(&[plain, plain, late]);
        threads.push(a.fork(entry, id));
    }
    for _ in 0..r.range(1, 5) {
        a.op(Op::Yield);
    }
    let holding = r.percent(60);
    if holding {
        a.lock(m);
    }
    for _ in 0..r.range(0, 2) {
        a.signal(c);
        a.yields(r, 1);
    }
    a.broadcast(c);
    a.yields(r, 1);
    if holding {
        a.unlock(m);
    }
    if r.percent(70) {
        for _ in 0..4 {
            a.op(Op::Yield);
        }
        a.broadcast(c);
    }
    for cell in threads {
        a.collect(r, cell);
    }
    a.end_with_log(r);
    a.place(late);
    a.op(Op::Yield);
    a.yields(r, 1);
    a.place(plain);
    a.lock(m);
    a.wait(m, c);
    a.log_local(-2);
    a.yields(r, 1);
    a.unlock(m);
    a.opk(Op::Loadr, -2);
    a.end_thread(r);
    a.finish()
}

/// Several threads wait for the end of one, in an order; some for themselves, for thread 0, or in
/// a chain.
fn joiners(r: &mut Random) -> Code {
    let mut a = Asm::new();
    let (worker, joiner) = (a.label(), a.label());
    let target = a.fork(worker, 7);
    let mut threads = Vec::new();
    for id in 0..r.range(2, 6) {
        // The argument is the thread to join: mostly thread 1, else the one before, itself, or 0.
        let argument = r.weighted(&[(6, 1), (3, id + 1), (1, id + 2), (1, 0)]);
        threads.push(a.fork(joiner, argument));
        a.yields(r, 1);
    }
    if r.percent(70) {
        a.collect(r, target);
    }
    for cell in threads {
        a.collect(r, cell);
    }
    a.end_with_log(r);
    a.place(worker);
    a.opk(Op::Alloc, 1);
    a.repeat(r.range(0, 4), 1, |a| a.op(Op::Yield));
    a.constant(r.range(-9, 9));
    a.end_thread(r);
    a.place(joiner);
    a.yields(r, 2);
    a.log_local(-2);
    a.opk(Op::Loadr, -2);
    a.join(r);
    a.op(Op::Dup);
    a.log();
    a.constant(1);
    a.op(Op::Add);
    a.end_thread(r);
    a.finish()
}

/// Philosophers around a table, each with a left and a right fork, which are mutexes or semaphores.
/// In some orders all are stuck.
fn philosophers(r: &mut Random) -> Code {
    let mut a = Asm::new();
    let seats = r.range(2, 6);
    let (take, lay_down) = r.pick(&[(Op::Lock, Op::Unlock), (Op::Down, Op::Up)]);
    let forks: Vec<i32> = (0..seats)
        .map(|_| match take {
            Op::Lock => a.mutex(),
            _ => a.semaphore(1),
        })
        .collect();
    let first = forks[0];
    let entry = a.label();
    let mut threads = Vec::new();
    for seat in 0..seats {
        threads.push(a.fork(entry, seat));
        a.yields(r, 1);
    }
    for cell in threads {
        a.collect(r, cell);
    }
    a.end_with_log(r);
    a.place(entry);
    a.opk(Op::Alloc, 3);
    // Cells 1 and 2 of the frame: the forks on the left and on the right.
    for k in [1, 2] {
        a.opk(Op::Loadr, -2);
        a.constant(k - 1);
        a.op(Op::Add);
        a.constant(seats);
        a.op(Op::Mod);
        a.constant(first);
        a.op(Op::Add);
        a.op(Op::Load);
        a.put(k);
    }
    if r.percent(40) {
        // The lower number first: then nobody gets stuck.
        a.opk(Op::Loadr, 2);
        a.opk(Op::Loadr, 1);
        a.op(Op::Less);
        a.if_top(|a| {
            a.opk(Op::Loadr, 1);
            a.opk(Op::Loadr, 2);
            a.put(1);
            a.put(2);
        });
    }
    a.repeat(r.range(1, 3), 3, |a| {
        for k in [1, 2] {
            a.opk(Op::Loadr, k);
            a.op(take);
            a.yields(r, 1);
        }
        a.log_local(-2);
        for k in [2, 1] {
            a.yields(r, 1);
            a.opk(Op::Loadr, k);
            a.op(lay_down);
        }
    });
    a.opk(Op::Loadr, -2);
    a.end_thread(r);
    a.finish()
}

/// Nested locks in functions that are called, waits with an outer mutex held, and hand-over
/// between two conditions.
fn nested(r: &mut Random) -> Code {
    let mut a = Asm::new();
    let (outer, inner) = (a.mutex(), a.mutex());
    let (ping, pong) = (a.condition(), a.condition());
    let turn = a.cell();
    let (entry, work) = (a.label(), a.label());
    let players = r.range(2, 4);
    let mut threads = Vec::new();
    for id in 0..players {
        threads.push(a.fork(entry, id));
        a.yields(r, 1);
    }
    for cell in threads {
        a.collect(r, cell);
    }
    a.end_with_log(r);

    // entry(id): take the inner mutex, wait for the turn, work, give the turn on.
    let outer_too = r.percent(20);
    let rounds = r.range(1, 3);
    a.place(entry);
    a.opk(Op::Alloc, 1);
    a.repeat(rounds, 1, |a| {
        if outer_too {
            a.lock(outer);
        }
        a.lock(inner);
        a.wait_while(inner, ping, |a| {
            a.get(turn);
            a.constant(players);
            a.op(Op::Mod);
            a.opk(Op::Loadr, -2);
            a.op(Op::Neq);
        });
        a.opk(Op::Loadr, -2);
        a.call(work);
        a.log();
        a.add_to(turn, 1);
        a.broadcast(ping);
        a.signal(pong);
        a.unlock(inner);
        a.yields(r, 1);
        if outer_too {
            a.unlock(outer);
        }
    });
    a.opk(Op::Loadr, 1);
    a.end_thread(r);

    // work(x): with the outer mutex, if the caller hasn't got it.
    a.place(work);
    if !outer_too {
        a.lock(outer);
    }
    a.yields(r, 2);
    a.opk(Op::Loadr, -2);
    a.op(Op::Dup);
    a.op(Op::Mul);
    a.op(Op::Neg);
    a.get(turn);
    a.op(Op::Sub);
    if !outer_too {
        a.unlock(outer);
    }
    a.give();
    a.finish()
}

/// Threads that end inside their locked part or behind it, by exit or by return, each with one of
/// several mutexes, while others wait for that mutex or for their end, or nobody does.
fn endings(r: &mut Random) -> Code {
    let mut a = Asm::new();
    let mutexes: Vec<i32> = (0..r.range(1, 4)).map(|_| a.mutex()).collect();
    let c = a.condition();
    let (work, watch) = (a.label(), a.label());
    let entries: Vec<_> = (0..r.range(1, 3)).map(|_| a.label()).collect();
    let made = r.range(1, 4);
    let mut threads = Vec::new();
    for id in 1..=made {
        let entry = r.pick(&entries);
        threads.push(a.fork(entry, id));
        a.yields(r, 1);
    }
    // The argument is the thread to join; thread 0 made them first, so they are 1 to `made`.
    for _ in 0..r.range(0, 2) {
        let target = r.range(1, made);
        threads.push(a.fork(watch, target));
        a.yields(r, 1);
    }
    if r.percent(30) {
        let m = r.pick(&mutexes);
        locked_part(&mut a, r, m, work);
        if r.percent(80) {
            a.unlock(m);
        }
    }
    // Lets those go who gave their mutex up in a wait.
    a.yields(r, 3);
    a.broadcast(c);
    if r.percent(60) {
        for cell in threads {
            a.collect(r, cell);
        }
    }
    a.end_with_log(r);

    for entry in entries {
        let m = r.pick(&mutexes);
        a.place(entry);
        a.yields(r, 2);
        locked_part(&mut a, r, m, work);
        match r.below(10) {
            0..=2 => {}
            3 => {
                // Given up in a wait, and not locked again.
                a.get(m);
                a.get(c);
                a.op(Op::Wait);
                a.op(Op::Pop);
            }
            4 => {
                // Given back, but another one is kept.
                let other = r.pick(&mutexes);
                a.unlock(m);
                a.lock(other);
            }
            _ => {
                a.unlock(m);
                a.yields(r, 1);
            }
        }
        a.opk(Op::Loadr, -2);
        a.end_thread(r);
    }

    // work(x): returns to its caller, who holds a mutex; for one x it ends the thread itself.
    a.place(work);
    a.yields(r, 1);
    a.opk(Op::Loadr, -2);
    a.constant(r.range(0, 9));
    a.op(Op::Eq);
    a.if_top(|a| {
        a.opk(Op::Loadr, -2);
        if r.percent(50) {
            a.op(Op::Exit);
        } else {
            // The frame is made to look like a thread's first.
            a.constant(-1);
            a.put(-1);
            a.give();
        }
    });
    a.opk(Op::Loadr, -2);
    a.op(Op::Neg);
    a.give();

    a.place(watch);
    a.opk(Op::Loadr, -2);
    a.join(r);
    a.op(Op::Dup);
    a.log();
    a.end_thread(r);
    a.finish()
}

/// Locks, and does something with the mutex held.
fn locked_part(a: &mut Asm, r: &mut Random, m: i32, work: Label) {
    a.lock(m);
    a.log_local(-2);
    a.yields(r, 2);
    if r.percent(60) {
        a.opk(Op::Loadr, -2);
        a.call(work);
        a.log();
    }
}

/// Threads that lock, unlock, wait, wake, raise and lower as it comes, with no discipline at all.
fn lawless(r: &mut Random) -> Code {
    let mut a = Asm::new();
    let mutexes: Vec<i32> = (0..r.range(1, 2)).map(|_| a.mutex()).collect();
    let conditions: Vec<i32> = (0..r.range(1, 2)).map(|_| a.condition()).collect();
    let semaphores: Vec<i32> = (0..r.range(1, 2))
        .map(|_| a.semaphore(r.range(0, 2)))
        .collect();
    let objects = [mutexes, conditions, semaphores];
    let entries: Vec<_> = (0..r.range(1, 3)).map(|_| a.label()).collect();
    let mut threads = Vec::new();
    for id in 1..=r.range(2, 4) {
        let entry = r.pick(&entries);
        threads.push(a.fork(entry, id));
    }
    lawless_acts(&mut a, r, &objects);
    for cell in threads {
        a.collect(r, cell);
    }
    a.end_with_log(r);
    for entry in entries {
        a.place(entry);
        lawless_acts(&mut a, r, &objects);
        a.opk(Op::Loadr, -2);
        a.end_thread(r);
    }
    a.finish()
}

fn lawless_acts(a: &mut Asm, r: &mut Random, objects: &[Vec<i32>; 3]) {
    for _ in 0..r.range(2, 8) {
        let [m, c, s] = [0, 1, 2].map(|kind| r.pick(&objects[kind]));
        match r.below(16) {
            0..=2 => a.lock(m),
            3 => a.unlock(m),
            4 => {
                a.lock(m);
                a.yields(r, 2);
                a.unlock(m);
            }
            5 => {
                a.lock(m);
                a.wait(m, c);
            }
            6 => {
                // Without the mutex, and without the lock behind.
                a.get(m);
                a.get(c);
                a.op(Op::Wait);
                a.op(Op::Pop);
            }
            7 => a.signal(c),
            8 => a.broadcast(c),
            9 => a.log_local(-2),
            10 | 11 => a.up(s),
            12 | 13 => a.down(s),
            _ => a.op(Op::Yield),
        }
    }
}
