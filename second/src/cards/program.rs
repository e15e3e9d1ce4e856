//! Random programs with a structure: statements in blocks, loops, functions, threads, mutexes that
//! are locked and unlocked in pairs, semaphores that are used the same way or count, conditions with
//! a flag each. Every statement leaves the stack as high as it found it, so most of these cards run
//! to their end.

use super::asm::{Asm, Code, Label};
use super::random::Random;
use crate::machine::{Op, LIMIT};

/// Where a statement stands.
#[derive(Clone)]
struct Place {
    /// What the thread holds here: mutexes (their places in `mutexes`) and guards (their places
    /// behind the mutexes).
    held: Vec<usize>,
    /// How deep in blocks.
    depth: usize,
    /// How deep in loops.
    loops: usize,
    /// In a function that is only called, and does nothing with mutexes, semaphores and conditions.
    pure: bool,
}

/// Frame cells 1 and 2 are locals; 3 and 4 count loops.
const LOCALS: i32 = 4;
const LOOPS: usize = 2;

struct Program<'r> {
    r: &'r mut Random,
    a: Asm,
    mutexes: Vec<i32>,
    /// Semaphores used as locks.
    guards: Vec<i32>,
    /// Semaphores that any thread raises and lowers.
    counters: Vec<i32>,
    conditions: Vec<i32>,
    /// A flag for each condition: those who wait go on when it is set.
    flags: Vec<i32>,
    threads: Vec<i32>,
    variables: Vec<i32>,
    /// Thread bodies, which may also be called.
    bodies: Vec<Label>,
    /// Functions that only compute.
    functions: Vec<Label>,
    /// A function that calls itself as often as its argument says.
    recursive: Label,
    /// Locks are nested only in the order of their numbers, so that no ring can close.
    ordered: bool,
}

/// A random program.
pub fn program(r: &mut Random) -> Code {
    let ordered = r.percent(70);
    let mut a = Asm::new();
    let bodies = (0..r.range(1, 4)).map(|_| a.label()).collect();
    let functions = (0..r.range(1, 3)).map(|_| a.label()).collect();
    let recursive = a.label();
    let mutexes = (0..r.range(1, 4)).map(|_| a.mutex()).collect();
    let guards = (0..r.range(0, 2)).map(|_| a.semaphore(1)).collect();
    let starts = [0, 0, 1, 2, 8_388_607, i32::MAX - 1000];
    let counters = (0..r.range(0, 2))
        .map(|_| a.semaphore(r.pick(&starts)))
        .collect();
    let conditions: Vec<i32> = (0..r.range(1, 3)).map(|_| a.condition()).collect();
    let flags = a.cells(conditions.len());
    let variables = a.cells(3);
    let threads = Vec::new();
    let mut p = Program {
        r,
        a,
        mutexes,
        guards,
        counters,
        conditions,
        flags,
        threads,
        variables,
        bodies,
        functions,
        recursive,
        ordered,
    };
    p.whole();
    p.a.finish()
}

impl Program<'_> {
    fn whole(&mut self) {
        let top = Place {
            held: Vec::new(),
            depth: 0,
            loops: 0,
            pure: false,
        };

        // Thread 0.
        self.a.opk(Op::Alloc, LOCALS);
        for _ in 0..self.r.range(1, 6) {
            let body = self.r.pick(&self.bodies);
            let argument = self.r.range(-3, 9);
            let cell = self.a.fork(body, argument);
            self.threads.push(cell);
            self.a.yields(self.r, 1);
        }
        self.block(&top, 4);
        // Those who still wait for a counter or a condition are let go.
        if self.r.percent(85) {
            for &counter in &self.counters {
                let times = self.r.range(5, 20);
                self.a.repeat(times, 1, |a| a.up(counter));
            }
        }
        if self.r.percent(85) {
            for c in 0..self.conditions.len() {
                let mutex = self.mutex_of(c);
                self.a.lock(mutex);
                self.a.set_to(self.flags[c], 1);
                self.a.broadcast(self.conditions[c]);
                self.a.unlock(mutex);
            }
        }
        for cell in self.threads.clone() {
            self.a.collect(self.r, cell);
        }
        self.a.end_with_log(self.r);

        for body in self.bodies.clone() {
            self.a.place(body);
            self.a.opk(Op::Alloc, LOCALS);
            self.block(&top, 5);
            self.expression(2);
            match self.r.below(40) {
                0 => {
                    // Ends while owning a mutex: fault 31.
                    let m = self.r.pick(&self.mutexes);
                    self.a.lock(m);
                    self.a.end_thread(self.r);
                }
                1 => self.a.op(Op::Halt),
                2 => self.a.op(Op::Return),
                _ => self.a.end_thread(self.r),
            }
        }
        for function in self.functions.clone() {
            self.a.place(function);
            self.a.opk(Op::Alloc, LOCALS);
            self.block(
                &Place {
                    pure: true,
                    ..top.clone()
                },
                3,
            );
            self.expression(2);
            self.a.give();
        }
        self.recursion();
    }

    /// A function of x that calls itself with x - 1 until x is 0.
    fn recursion(&mut self) {
        self.a.place(self.recursive);
        let more = self.a.label();
        self.a.opk(Op::Loadr, -2);
        self.a.op(Op::Not);
        self.a.to(Op::Jumpz, more);
        self.a.constant(1);
        self.a.give();
        self.a.place(more);
        self.a.yields(self.r, 1);
        self.a.opk(Op::Loadr, -2);
        self.a.constant(1);
        self.a.op(Op::Sub);
        self.a.call(self.recursive);
        self.a.opk(Op::Loadr, -2);
        self.a.op(Op::Add);
        self.a.constant(1000);
        self.a.op(Op::Mod);
        self.a.give();
    }

    /// The mutex that goes with a condition.
    fn mutex_of(&self, c: usize) -> i32 {
        self.mutexes[c % self.mutexes.len()]
    }

    fn block(&mut self, place: &Place, most: i32) {
        for _ in 0..self.r.range(1, most) {
            if self.a.len() < LIMIT - 600 {
                self.statement(place);
            }
        }
    }

    fn statement(&mut self, place: &Place) {
        let inside = Place {
            depth: place.depth + 1,
            ..place.clone()
        };
        let deep = place.depth >= 3;
        match self.r.below(106) {
            0..=9 => {
                self.expression(2);
                self.a.log();
            }
            10..=17 => {
                self.expression(2);
                let cell = self.r.pick(&self.variables);
                self.a.set(cell);
            }
            18..=24 => {
                self.expression(2);
                let local = self.r.range(1, 2);
                self.a.put(local);
            }
            25..=34 => self.a.op(Op::Yield),
            35..=46 if !place.pure && !deep => self.locked(place),
            47..=52 if !deep && place.loops < LOOPS => {
                let local = 3 + place.loops as i32;
                let times = self.r.range(0, 3);
                let inside = Place {
                    loops: place.loops + 1,
                    ..inside
                };
                self.a.constant(times);
                self.a.put(local);
                let again = self.a.here();
                let done = self.a.label();
                self.a.opk(Op::Loadr, local);
                self.a.to(Op::Jumpz, done);
                self.block(&inside, 3);
                self.a.opk(Op::Loadr, local);
                self.a.constant(-1);
                self.a.op(Op::Add);
                self.a.put(local);
                self.a.to(Op::Jump, again);
                self.a.place(done);
            }
            53..=60 if !deep => {
                self.expression(2);
                let (other, done) = (self.a.label(), self.a.label());
                self.a.to(Op::Jumpz, other);
                self.block(&inside, 2);
                self.a.to(Op::Jump, done);
                self.a.place(other);
                self.block(&inside, 2);
                self.a.place(done);
            }
            61..=67 => self.called(place),
            68..=74 if !place.pure => self.waiting(place),
            75..=82 if !place.pure => self.waking(place),
            83..=86 => {
                // A few fresh cells, one of them written and read.
                let size = self.r.range(1, 5);
                self.a.constant(size);
                self.a.op(Op::New);
                self.a.put(2);
                self.expression(1);
                self.a.opk(Op::Loadr, 2);
                self.a.op(Op::Store);
                self.a.op(Op::Pop);
                self.a.opk(Op::Loadr, 2);
                self.a.op(Op::Load);
                self.a.log();
            }
            87..=89 if !place.pure && place.depth == 0 => {
                let body = self.r.pick(&self.bodies);
                let cell = self.r.pick(&self.threads);
                self.a.to(Op::Loadc, body);
                self.expression(1);
                self.a.op(Op::Create);
                self.a.set(cell);
            }
            90..=92 if !place.pure && place.held.is_empty() => {
                // Waits for a thread, mostly with a guard against -1.
                let cell = self.r.pick(&self.threads);
                let guarded = self.r.percent(80);
                let skip = self.a.label();
                if guarded {
                    self.a.constant(0);
                    self.a.get(cell);
                    self.a.op(Op::Less);
                    self.a.to(Op::Jumpz, skip);
                }
                self.a.collect(self.r, cell);
                self.a.place(skip);
            }
            93..=94 => {
                self.a.op(Op::Mark);
                self.a.log();
            }
            100..=105 if !place.pure && !self.counters.is_empty() => self.counting(place),
            _ => {
                self.expression(3);
                self.a.op(Op::Dup);
                self.a.log();
                self.a.op(Op::Pop);
            }
        }
    }

    /// A block with a mutex or a guard held.
    fn locked(&mut self, place: &Place) {
        let m = self.r.below(self.mutexes.len() + self.guards.len());
        let free = match place.held.last() {
            Some(&last) if self.ordered => m > last,
            _ => !place.held.contains(&m),
        };
        // Now and then a thread locks what it holds already.
        if !free && !self.r.percent(2) {
            self.a.op(Op::Yield);
            return;
        }
        let mut inside = Place {
            depth: place.depth + 1,
            ..place.clone()
        };
        inside.held.push(m);
        let guard = m.checked_sub(self.mutexes.len());
        match guard {
            Some(guard) => self.a.down(self.guards[guard]),
            None => self.a.lock(self.mutexes[m]),
        }
        self.block(&inside, 3);
        // Now and then the thread may leave in the middle of its locked part.
        if self.r.percent(2) {
            self.expression(1);
            let r = &mut *self.r;
            self.a.if_top(|a| a.end_with_log(r));
        }
        match guard {
            Some(guard) => self.a.up(self.guards[guard]),
            None => self.a.unlock(self.mutexes[m]),
        }
    }

    /// Raises a counter, or lowers it, mostly with nothing held.
    fn counting(&mut self, place: &Place) {
        let counter = self.r.pick(&self.counters);
        let lowers = if place.held.is_empty() { 50 } else { 5 };
        if self.r.percent(lowers) {
            self.a.down(counter);
        } else {
            self.a.up(counter);
        }
    }

    /// A call of a function, or now and then of a thread body.
    fn called(&mut self, place: &Place) {
        match self.r.below(10) {
            0..=3 => {
                let depth = self.r.range(0, 9);
                self.a.constant(depth);
                self.a.call(self.recursive);
            }
            4 if !place.pure && place.held.is_empty() && place.depth == 0 => {
                let body = self.r.pick(&self.bodies);
                // Only sometimes, since bodies call each other without end.
                self.a.get(self.variables[0]);
                self.a.constant(1);
                self.a.op(Op::Eq);
                let (skip, done) = (self.a.label(), self.a.label());
                self.a.to(Op::Jumpz, skip);
                self.expression(1);
                self.a.call(body);
                self.a.to(Op::Jump, done);
                self.a.place(skip);
                self.a.constant(5);
                self.a.place(done);
            }
            _ if !place.pure => {
                self.expression(1);
                let function = self.r.pick(&self.functions);
                self.a.call(function);
            }
            _ => self.a.constant(3),
        }
        self.a.log();
    }

    /// Waits for a condition, with its mutex.
    fn waiting(&mut self, place: &Place) {
        let c = self.r.below(self.conditions.len());
        let m = c % self.mutexes.len();
        let (mutex, condition, flag) = (self.mutexes[m], self.conditions[c], self.flags[c]);
        let held = place.held.contains(&m);
        if !held && !place.held.is_empty() && self.r.percent(90) {
            self.a.op(Op::Yield);
            return;
        }
        if !held {
            self.a.lock(mutex);
        }
        if self.r.percent(90) {
            self.a.wait_while(mutex, condition, |a| {
                a.get(flag);
                a.op(Op::Not);
            });
        } else {
            self.a.wait(mutex, condition);
        }
        if self.r.percent(30) {
            self.a.set_to(flag, 0);
        }
        if !held {
            self.a.unlock(mutex);
        }
    }

    /// Signals or broadcasts, with or without the mutex, with or without the flag.
    fn waking(&mut self, place: &Place) {
        let c = self.r.below(self.conditions.len());
        let m = c % self.mutexes.len();
        let take = place.held.is_empty() && self.r.percent(60);
        if take {
            self.a.lock(self.mutexes[m]);
        }
        if self.r.percent(70) {
            self.a.set_to(self.flags[c], 1);
        }
        if self.r.percent(65) {
            self.a.signal(self.conditions[c]);
        } else {
            self.a.broadcast(self.conditions[c]);
        }
        if take {
            if self.r.percent(40) {
                self.a.op(Op::Yield);
            }
            self.a.unlock(self.mutexes[m]);
        }
    }

    /// Pushes a number, mostly a small one.
    fn expression(&mut self, depth: usize) {
        if depth == 0 || self.r.percent(25) {
            match self.r.below(6) {
                0 | 1 => {
                    let k = self.r.range(-2, 9);
                    self.a.constant(k);
                }
                2 => self.a.opk(Op::Loadr, -2),
                3 => {
                    let local = self.r.range(1, 2);
                    self.a.opk(Op::Loadr, local);
                }
                4 => {
                    let cell = self.r.pick(&self.variables);
                    self.a.get(cell);
                }
                _ => {
                    let k = self.r.range(-1000, 1000);
                    self.a.constant(k);
                }
            }
            return;
        }
        self.expression(depth - 1);
        match self.r.below(10) {
            0 => self.a.op(Op::Not),
            1 => self.a.op(Op::Neg),
            2 | 3 => {
                let op = self.r.pick(&[Op::Mul, Op::Div, Op::Mod]);
                let k = self.r.pick(&[-7, -3, -2, -1, 1, 2, 3, 5, 10]);
                self.a.constant(k);
                self.a.op(op);
            }
            4..=6 => {
                let op = self.r.pick(&[Op::Eq, Op::Neq, Op::Less, Op::Leq]);
                self.expression(depth - 1);
                self.a.op(op);
            }
            _ => {
                let op = self.r.pick(&[Op::Add, Op::Sub]);
                self.expression(depth - 1);
                self.a.op(op);
            }
        }
        self.a.constant(1000);
        self.a.op(Op::Mod);
    }
}
