//! Short plays with semaphores: as locks, as counters, between producers and consumers; by the
//! instructions, by the bodies of the lectures, and by both beside each other. What happens is
//! logged, as in the other plays.

use super::asm::{Asm, Code, Label, LOG};
use super::random::Random;
use super::scenes::Scene;
use crate::machine::Op;

/// All plays, each as often as its weight says.
pub const SCENES: [(usize, Scene); 7] = [
    (3, guard),
    (3, bounded_buffer),
    (2, rendezvous),
    (4, waiting_line),
    (2, relay),
    (2, woken_and_joined),
    (3, lectures),
];

/// The functions newSema, Up and Down of the lectures (document 000). Their semaphore is three
/// shared cells: a mutex, a condition and the count.
#[derive(Clone, Copy)]
struct Bodies {
    make: Label,
    up: Label,
    down: Label,
}

/// The semaphores of a play: the machine's, or those of the lectures.
#[derive(Clone, Copy)]
enum Way {
    Instructions,
    Lectures(Bodies),
}

impl Way {
    fn lectures(a: &mut Asm) -> Way {
        Way::Lectures(Bodies {
            make: a.label(),
            up: a.label(),
            down: a.label(),
        })
    }

    /// Mostly the instructions.
    fn pick(a: &mut Asm, r: &mut Random) -> Way {
        if r.percent(85) {
            Way::Instructions
        } else {
            Way::lectures(a)
        }
    }

    /// A fresh cell with a new semaphore in it.
    fn semaphore(self, a: &mut Asm, start: i32) -> i32 {
        match self {
            Way::Instructions => a.semaphore(start),
            Way::Lectures(bodies) => {
                let cell = a.cell();
                a.constant(start);
                a.call(bodies.make);
                a.set(cell);
                cell
            }
        }
    }

    fn up(self, a: &mut Asm, semaphore: i32) {
        a.get(semaphore);
        self.up_top(a);
    }

    fn down(self, a: &mut Asm, semaphore: i32) {
        a.get(semaphore);
        self.down_top(a);
    }

    /// Up of the semaphore on top.
    fn up_top(self, a: &mut Asm) {
        match self {
            Way::Instructions => a.op(Op::Up),
            Way::Lectures(bodies) => {
                a.call(bodies.up);
                a.op(Op::Pop);
            }
        }
    }

    /// Down of the semaphore on top.
    fn down_top(self, a: &mut Asm) {
        match self {
            Way::Instructions => a.op(Op::Down),
            Way::Lectures(bodies) => {
                a.call(bodies.down);
                a.op(Op::Pop);
            }
        }
    }

    /// Puts the bodies behind the rest of the card, if it uses them. They are the lectures' own
    /// translation, but for wait: theirs is wait, dup, unlock, next, lock, ours wait, lock.
    fn bodies(self, a: &mut Asm) {
        let Way::Lectures(Bodies { make, up, down }) = self else {
            return;
        };
        // The address of a cell of the semaphore that the argument points to.
        let part = |a: &mut Asm, k: i32| {
            a.opk(Op::Loadr, -2);
            a.constant(k);
            a.op(Op::Add);
        };

        // newSema(n)
        a.place(make);
        a.opk(Op::Alloc, 1);
        a.constant(3);
        a.op(Op::New);
        a.put(1);
        a.op(Op::Newmutex);
        a.opk(Op::Loadr, 1);
        a.op(Op::Store);
        a.op(Op::Pop);
        a.op(Op::Newcond);
        a.opk(Op::Loadr, 1);
        a.constant(1);
        a.op(Op::Add);
        a.op(Op::Store);
        a.op(Op::Pop);
        a.opk(Op::Loadr, -2);
        a.opk(Op::Loadr, 1);
        a.constant(2);
        a.op(Op::Add);
        a.op(Op::Store);
        a.op(Op::Pop);
        a.opk(Op::Loadr, 1);
        a.give();

        // Down(s) and Up(s): the mutex is in the frame's cell 1.
        for (body, by, test) in [(down, Op::Sub, Op::Less), (up, Op::Add, Op::Leq)] {
            let done = a.label();
            a.place(body);
            a.opk(Op::Alloc, 1);
            a.opk(Op::Loadr, -2);
            a.op(Op::Load);
            a.opk(Op::Storer, 1);
            a.op(Op::Lock);
            part(a, 2);
            a.op(Op::Load);
            a.constant(1);
            a.op(by);
            part(a, 2);
            a.op(Op::Store);
            a.constant(0);
            a.op(test);
            a.to(Op::Jumpz, done);
            if by == Op::Sub {
                a.opk(Op::Loadr, 1);
                part(a, 1);
                a.op(Op::Load);
                a.op(Op::Wait);
                a.op(Op::Lock);
            } else {
                part(a, 1);
                a.op(Op::Load);
                a.op(Op::Signal);
            }
            a.place(done);
            a.opk(Op::Loadr, 1);
            a.op(Op::Unlock);
            a.op(Op::Return);
        }
    }
}

/// A semaphore as a lock: mostly one thread is in at a time, now and then more, or none until
/// thread 0 lets the first one in. A few threads end inside, which is no fault: nobody owns a
/// semaphore.
fn guard(r: &mut Random) -> Code {
    let mut a = Asm::new();
    let way = Way::pick(&mut a, r);
    let start = r.weighted(&[(6, 1), (2, 2), (1, 3), (2, 0)]);
    let s = way.semaphore(&mut a, start);
    let entries: Vec<_> = (0..r.range(1, 3)).map(|_| a.label()).collect();
    let mut threads = Vec::new();
    for id in 1..=r.range(2, 6) {
        let entry = r.pick(&entries);
        threads.push(a.fork(entry, id));
        a.yields(r, 1);
    }
    if start == 0 || r.percent(20) {
        a.yields(r, 3);
        a.constant(99);
        a.log();
        way.up(&mut a, s);
    }
    if start > 0 && r.percent(40) {
        way.down(&mut a, s);
        a.constant(98);
        a.log();
        a.yields(r, 3);
        way.up(&mut a, s);
    }
    for cell in threads {
        a.collect(r, cell);
    }
    a.end_with_log(r);
    for entry in entries {
        a.place(entry);
        a.opk(Op::Alloc, 1);
        a.repeat(r.range(1, 4), 1, |a| {
            a.yields(r, 2);
            way.down(a, s);
            a.log_local(-2);
            a.yields(r, 3);
            way.up(a, s);
            a.yields(r, 1);
        });
        if r.percent(10) {
            way.down(&mut a, s);
        }
        a.opk(Op::Loadr, -2);
        a.end_thread(r);
    }
    way.bodies(&mut a);
    a.finish()
}

/// Producers and consumers with a ring of cells between them: one semaphore counts the free cells,
/// one the filled ones, and a mutex, another semaphore or nothing guards the ring.
fn bounded_buffer(r: &mut Random) -> Code {
    let mut a = Asm::new();
    let way = Way::pick(&mut a, r);
    let capacity = r.range(1, 4);
    // Now and then there is a cell more to be had than the ring has.
    let start = capacity + r.percent(10) as i32;
    let free = way.semaphore(&mut a, start);
    let filled = way.semaphore(&mut a, 0);
    let (mutex, single) = (a.mutex(), way.semaphore(&mut a, 1));
    let (head, tail, ring) = (a.cell(), a.cell(), a.cell());
    a.constant(capacity);
    a.op(Op::New);
    a.set(ring);
    let (producer, consumer) = (a.label(), a.label());
    let (producers, consumers, items) = (r.range(1, 3), r.range(1, 3), r.range(1, 4));
    let mut threads = Vec::new();
    for id in 1..=producers {
        threads.push(a.fork(producer, id));
    }
    for id in 1..=consumers {
        threads.push(a.fork(consumer, 10 * id));
        a.yields(r, 1);
    }
    for cell in threads {
        a.collect(r, cell);
    }
    a.end_with_log(r);

    let guard = r.below(3);
    let enter = |a: &mut Asm| match guard {
        0 => a.lock(mutex),
        1 => way.down(a, single),
        _ => {}
    };
    let leave = |a: &mut Asm| match guard {
        0 => a.unlock(mutex),
        1 => way.up(a, single),
        _ => {}
    };
    // The address of a place in the ring, and the place one on.
    let address = |a: &mut Asm, place: i32| {
        a.get(ring);
        a.get(place);
        a.op(Op::Add);
    };
    let advance = |a: &mut Asm, place: i32| {
        a.get(place);
        a.constant(1);
        a.op(Op::Add);
        a.constant(capacity);
        a.op(Op::Mod);
        a.set(place);
    };

    a.place(producer);
    a.opk(Op::Alloc, 1);
    a.repeat(items, 1, |a| {
        a.yields(r, 1);
        way.down(a, free);
        enter(a);
        // ring[tail] = 10 * argument + counter
        a.opk(Op::Loadr, -2);
        a.constant(10);
        a.op(Op::Mul);
        a.opk(Op::Loadr, 1);
        a.op(Op::Add);
        address(a, tail);
        a.op(Op::Store);
        a.op(Op::Pop);
        advance(a, tail);
        a.yields(r, 1);
        leave(a);
        way.up(a, filled);
    });
    a.opk(Op::Loadr, -2);
    a.end_thread(r);

    a.place(consumer);
    a.opk(Op::Alloc, 2);
    a.repeat((producers * items / consumers).max(1), 1, |a| {
        way.down(a, filled);
        enter(a);
        address(a, head);
        a.op(Op::Load);
        a.put(2);
        advance(a, head);
        leave(a);
        way.up(a, free);
        a.yields(r, 1);
        a.opk(Op::Loadr, 2);
        a.opk(Op::Loadr, -2);
        a.op(Op::Add);
        a.log();
    });
    a.opk(Op::Loadr, 2);
    a.end_thread(r);
    way.bodies(&mut a);
    a.finish()
}

/// Two threads meet: each says by an up that it is there and waits by a down for the other. Now and
/// then both wait first, and are stuck.
fn rendezvous(r: &mut Random) -> Code {
    let mut a = Asm::new();
    let way = Way::pick(&mut a, r);
    let sides = [way.semaphore(&mut a, 0), way.semaphore(&mut a, 0)];
    let entries = [a.label(), a.label()];
    let mut threads = Vec::new();
    for (id, entry) in (1..).zip(entries) {
        threads.push(a.fork(entry, id));
        a.yields(r, 2);
    }
    for cell in threads {
        a.collect(r, cell);
    }
    a.end_with_log(r);
    let rounds = r.range(1, 4);
    let wait_first = r.percent(8);
    for (side, entry) in entries.into_iter().enumerate() {
        let (mine, other) = (sides[side], sides[1 - side]);
        a.place(entry);
        a.opk(Op::Alloc, 1);
        a.repeat(rounds, 1, |a| {
            a.yields(r, 2);
            a.log_local(-2);
            if wait_first {
                way.down(a, other);
                way.up(a, mine);
            } else {
                way.up(a, mine);
                a.yields(r, 1);
                way.down(a, other);
            }
            a.log_local(1);
        });
        a.opk(Op::Loadr, -2);
        a.end_thread(r);
    }
    way.bodies(&mut a);
    a.finish()
}

/// Many wait for one semaphore, in an order that the yields decide; then as many ups as there are
/// threads, or a few more or fewer, while others are ready.
fn waiting_line(r: &mut Random) -> Code {
    let mut a = Asm::new();
    let way = Way::pick(&mut a, r);
    let start = r.weighted(&[(6, 0), (2, 1), (1, 2)]);
    let s = way.semaphore(&mut a, start);
    let (plain, late, busy) = (a.label(), a.label(), a.label());
    let size = r.range(2, 10);
    let mut threads = Vec::new();
    for id in 1..=size {
        let entry = r.pick(&[plain, plain, late]);
        threads.push(a.fork(entry, id));
    }
    for _ in 0..r.range(1, 3) {
        a.op(Op::Yield);
    }
    for id in 1..=r.range(0, 2) {
        threads.push(a.fork(busy, 20 * id));
    }
    let ups = size - start + r.weighted(&[(8, 0), (2, 1), (1, -1)]);
    for i in 0..ups {
        way.up(&mut a, s);
        if r.percent(30) {
            a.constant(100 + i);
            a.log();
        }
        a.yields(r, 1);
    }
    for cell in threads {
        a.collect(r, cell);
    }
    a.end_with_log(r);
    a.place(late);
    a.op(Op::Yield);
    a.yields(r, 1);
    a.place(plain);
    way.down(&mut a, s);
    a.log_local(-2);
    a.yields(r, 1);
    a.opk(Op::Loadr, -2);
    a.end_thread(r);
    a.place(busy);
    a.opk(Op::Alloc, 1);
    a.repeat(r.range(1, 4), 1, |a| {
        a.log_local(-2);
        a.op(Op::Yield);
    });
    a.opk(Op::Loadr, -2);
    a.end_thread(r);
    way.bodies(&mut a);
    a.finish()
}

/// A token goes round: each thread waits for its own semaphore and raises the next one's. The first
/// semaphore belongs to thread 0, which starts each round.
fn relay(r: &mut Random) -> Code {
    let mut a = Asm::new();
    let way = Way::pick(&mut a, r);
    let runners = r.range(2, 5);
    let semaphores: Vec<i32> = (0..=runners).map(|_| way.semaphore(&mut a, 0)).collect();
    let (first, entry) = (semaphores[0], a.label());
    let rounds = r.range(1, 4);
    let mut threads = Vec::new();
    for id in 1..=runners {
        threads.push(a.fork(entry, id));
    }
    a.opk(Op::Alloc, 1);
    a.repeat(rounds, 1, |a| {
        way.up(a, semaphores[1]);
        a.yields(r, 2);
        way.down(a, first);
        a.log_local(1);
    });
    for cell in threads {
        a.collect(r, cell);
    }
    a.end_with_log(r);
    // The semaphores' cells follow each other: the argument says which is the thread's own, and the
    // one behind it, or the first, is the next thread's. Both go into the frame.
    a.place(entry);
    a.opk(Op::Alloc, 3);
    let (mine, next) = (2, 3);
    for (local, more) in [(mine, 0), (next, 1)] {
        a.opk(Op::Loadr, -2);
        a.constant(more);
        a.op(Op::Add);
        a.constant(runners + 1);
        a.op(Op::Mod);
        a.constant(first);
        a.op(Op::Add);
        a.op(Op::Load);
        a.put(local);
    }
    a.repeat(rounds, 1, |a| {
        a.opk(Op::Loadr, mine);
        way.down_top(a);
        a.log_local(-2);
        a.yields(r, 2);
        a.opk(Op::Loadr, next);
        way.up_top(a);
    });
    a.opk(Op::Loadr, -2);
    a.end_thread(r);
    way.bodies(&mut a);
    a.finish()
}

/// A thread is woken from a semaphore and ends; two or three wait for its end, in an order, and go
/// on then.
fn woken_and_joined(r: &mut Random) -> Code {
    let mut a = Asm::new();
    let way = Way::pick(&mut a, r);
    let s = way.semaphore(&mut a, 0);
    let (worker, joiner) = (a.label(), a.label());
    let workers = r.range(1, 2);
    let mut threads = Vec::new();
    for id in 1..=workers {
        threads.push(a.fork(worker, id));
    }
    // The argument's last digit is the thread to join; thread 0 made the workers first.
    for id in 1..=r.range(2, 3) {
        let target = r.range(1, workers);
        threads.push(a.fork(joiner, 10 * id + target));
        a.yields(r, 1);
    }
    for _ in 0..r.range(0, 3) {
        a.op(Op::Yield);
    }
    for _ in 0..workers {
        way.up(&mut a, s);
        a.constant(99);
        a.log();
        a.yields(r, 1);
    }
    if r.percent(70) {
        for cell in threads {
            a.collect(r, cell);
        }
    } else {
        a.yields(r, 6);
    }
    a.end_with_log(r);
    a.place(worker);
    a.yields(r, 1);
    way.down(&mut a, s);
    a.log_local(-2);
    a.yields(r, 1);
    a.constant(r.range(-9, 9));
    a.end_thread(r);
    a.place(joiner);
    a.yields(r, 2);
    a.opk(Op::Loadr, -2);
    a.constant(10);
    a.op(Op::Mod);
    a.join(r);
    a.op(Op::Dup);
    a.log();
    a.log_local(-2);
    a.end_thread(r);
    way.bodies(&mut a);
    a.finish()
}

/// The same work by the instructions and by the bodies of the lectures: one after the other, and
/// then it comes to the same order of things, or both at once.
fn lectures(r: &mut Random) -> Code {
    let mut a = Asm::new();
    let ways = [Way::Instructions, Way::lectures(&mut a)];
    let (give, take) = (r.range(1, 3), r.range(1, 3));
    let (rounds, room) = (r.range(1, 3), r.range(1, 3));
    let together = r.percent(35);
    let logs = a.cells(ways.len());
    let mut parts = Vec::new();
    let mut threads = Vec::new();
    for (way, log) in ways.into_iter().zip(logs.clone()) {
        let free = way.semaphore(&mut a, room);
        let filled = way.semaphore(&mut a, 0);
        let (giver, taker) = (a.label(), a.label());
        for id in 1..=give {
            threads.push(a.fork(giver, id));
        }
        for id in 1..=take {
            threads.push(a.fork(taker, 10 * id));
        }
        if !together {
            for cell in threads.drain(..) {
                a.collect(r, cell);
            }
            a.get(LOG);
            a.set(log);
            a.set_to(LOG, 0);
        }
        parts.push((way, free, filled, giver, taker));
    }
    for cell in threads {
        a.collect(r, cell);
    }
    for &log in &logs {
        a.get(log);
        a.log();
    }
    a.get(logs[0]);
    a.get(logs[1]);
    a.op(Op::Eq);
    a.log();
    a.end_with_log(r);

    // The yields are the same in both ways.
    let yields: Vec<i32> = (0..4).map(|_| r.range(0, 2)).collect();
    let yields = |a: &mut Asm, place: usize| {
        for _ in 0..yields[place] {
            a.op(Op::Yield);
        }
    };
    for (way, free, filled, giver, taker) in parts {
        a.place(giver);
        a.opk(Op::Alloc, 1);
        a.repeat(take * rounds, 1, |a| {
            way.down(a, free);
            a.log_local(-2);
            yields(a, 0);
            way.up(a, filled);
            yields(a, 1);
        });
        a.opk(Op::Loadr, -2);
        a.op(Op::Exit);
        a.place(taker);
        a.opk(Op::Alloc, 1);
        a.repeat(give * rounds, 1, |a| {
            way.down(a, filled);
            a.log_local(-2);
            yields(a, 2);
            way.up(a, free);
            yields(a, 3);
        });
        a.opk(Op::Loadr, -2);
        a.op(Op::Exit);
    }
    for way in ways {
        way.bodies(&mut a);
    }
    a.finish()
}
