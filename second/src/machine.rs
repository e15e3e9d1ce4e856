//! The machine, in the most obvious way: a queue per object, a struct per thread with its own
//! stack, one match over the instructions.
//!
//! Every instruction makes all its tests before it changes anything, so a fault leaves the machine
//! as it was. The tests stand in the paper's order: 21 and 22 first, then the others.

pub use crate::image::{read, Card, Instruction, Op, Refusal, LIMIT};
use std::collections::VecDeque;

/// Shared cells; the store's first half.
pub const SHARED: usize = 4096;
/// Cells of one thread's stack.
pub const STACK: usize = 128;
/// At most so many threads are ever made.
pub const THREADS: usize = 32;
/// At most so many mutexes are ever made.
pub const MUTEXES: usize = 64;
/// At most so many conditions are ever made.
pub const CONDITIONS: usize = 64;
/// At most so many semaphores are ever made.
pub const SEMAPHORES: usize = 32;

/// The fault of a number that names no mutex.
const NO_MUTEX: u8 = 27;
/// The fault of a number that names no condition.
const NO_CONDITION: u8 = 32;
/// The fault of a number that names no thread.
const NO_THREAD: u8 = 33;
/// The fault of a number that names no semaphore.
const NO_SEMAPHORE: u8 = 34;

/// What a machine is; the numbers are those of the state line.
#[derive(Clone, Copy, PartialEq, Eq, Debug)]
pub enum State {
    Halted = 0,
    Running = 1,
    Stuck = 2,
    Faulted = 3,
}

/// A thread. Its program counter, stack and frame live here whether it runs or not.
#[derive(Clone, Debug)]
pub struct Thread {
    pub pc: usize,
    /// How many cells the stack has: SP + 1.
    pub cells: usize,
    pub fp: usize,
    /// All 128 cells. What lies above the top is what was once there.
    pub stack: [i32; STACK],
    /// The result, once the thread has ended.
    pub result: Option<i32>,
    /// Those who wait for its end, first come first.
    pub joiners: VecDeque<usize>,
}

impl Thread {
    /// A new thread: cell 0 is the argument, cells 1 and 2 are -1, FP = SP = 2.
    fn new(entry: usize, argument: i32) -> Thread {
        let mut stack = [0; STACK];
        stack[0] = argument;
        stack[1] = -1;
        stack[2] = -1;
        Thread {
            pc: entry,
            cells: 3,
            fp: 2,
            stack,
            result: None,
            joiners: VecDeque::new(),
        }
    }

    /// Fault 21 if there are fewer than `count` cells.
    fn has(&self, count: usize) -> Result<(), u8> {
        if self.cells < count {
            Err(21)
        } else {
            Ok(())
        }
    }

    /// Fault 22 if there is no room for `count` more cells.
    fn room(&self, count: usize) -> Result<(), u8> {
        if self.cells + count > STACK {
            Err(22)
        } else {
            Ok(())
        }
    }

    fn top(&self) -> i32 {
        self.stack[self.cells - 1]
    }

    fn below(&self) -> i32 {
        self.stack[self.cells - 2]
    }

    fn set_top(&mut self, value: i32) {
        self.stack[self.cells - 1] = value;
    }

    fn push(&mut self, value: i32) {
        self.stack[self.cells] = value;
        self.cells += 1;
    }

    /// Drops the top. The cell itself keeps its value.
    fn drop_top(&mut self) {
        self.cells -= 1;
    }

    /// The place of cell FP + k, or fault 23 unless 0 <= FP + k <= SP.
    fn frame_cell(&self, k: i32) -> Result<usize, u8> {
        let place = self.fp as i32 + k;
        if place < 0 || place >= self.cells as i32 {
            Err(23)
        } else {
            Ok(place as usize)
        }
    }
}

/// A mutex: who owns it, and who waits for it.
#[derive(Clone, Debug, Default)]
pub struct Mutex {
    pub owner: Option<usize>,
    pub waiters: VecDeque<usize>,
}

/// A condition: who waits for it.
#[derive(Clone, Debug, Default)]
pub struct Condition {
    pub waiters: VecDeque<usize>,
    /// Used only by the mistake `SignalRemembered`.
    remembered: usize,
}

/// A semaphore: its count, and who waits for it.
#[derive(Clone, Debug, Default)]
pub struct Semaphore {
    pub count: i32,
    pub waiters: VecDeque<usize>,
}

/// The paper's "Errors that look right", 1 to 5, and those that requests Two, Three, Four and Six
/// invite, 6 to 9, 10 to 13, 14 to 21 and 22 to 26. A machine makes none of them unless it is told
/// to; only the showing that the comparison can fail tells it to.
#[derive(Clone, Copy, PartialEq, Eq, Debug)]
pub enum Mistake {
    /// 1. A condition's waiter is woken straight past its lock.
    WokenPastLock,
    /// 2. Unlock frees the mutex and lets the waiter try again.
    UnlockFrees,
    /// 3. A signal is remembered for a later wait.
    SignalRemembered,
    /// 4. Broadcast in reverse order.
    BroadcastReversed,
    /// 5. Create gives -1 before it tests the entry.
    CreateRoomFirst,
    /// 6. A thread that owns a mutex ends and leaves it owned, as before request Two.
    EndsOwning,
    /// 7. When a thread ends, only mutex 0 is looked at.
    OnlyMutexZero,
    /// 8. Fault 31 is given after those who wait for the thread were sent to the ready tail.
    JoinersWokenFirst,
    /// 9. A return to a caller gives fault 31 too.
    CallerReturnFaulted,
    /// 10. A bad condition number gives fault 33, a bad thread number 32.
    KindsSwapped,
    /// 11. Wait looks at the mutex's number before the condition's.
    WaitMutexFirst,
    /// 12. A thread's number is checked against the mutexes made.
    ThreadAmongMutexes,
    /// 13. Fault 27 for all three kinds, as before request Three.
    KindsNotTold,
    /// 14. Down waits already when the count is now 0.
    DownWaitsAtZero,
    /// 15. Up wakes only if the count is then negative, so the last waiter sleeps on.
    LastLeftAsleep,
    /// 16. Up wakes the last of the queue.
    LastWokenFirst,
    /// 17. Newsema gives -1 before it tests the starting count.
    NewsemaRoomFirst,
    /// 18. The count is the running thread's, not the semaphore's.
    CountOfThread,
    /// 19. Up sends the waiter to the front of the ready queue.
    WokenToFront,
    /// 20. Up at the largest count is carried out and leaves it there.
    UpSaturates,
    /// 21. A bad semaphore number gives fault 27.
    SemaphoreNotTold,
    /// 22. The result is written to the cell below the waiter's top.
    DeliveredBelowTop,
    /// 23. The result is written to the ending thread's own stack, as high as the waiter's top.
    DeliveredToItself,
    /// 24. Waiters are woken without the result: their top is still the number.
    WokenWithoutResult,
    /// 25. A join of a thread that has ended leaves the number.
    LateWithoutResult,
    /// 26. Fault 31 is given after the result was written to those who wait for the thread.
    DeliveredFirst,
}

impl Mistake {
    pub const ALL: [Mistake; 26] = [
        Mistake::WokenPastLock,
        Mistake::UnlockFrees,
        Mistake::SignalRemembered,
        Mistake::BroadcastReversed,
        Mistake::CreateRoomFirst,
        Mistake::EndsOwning,
        Mistake::OnlyMutexZero,
        Mistake::JoinersWokenFirst,
        Mistake::CallerReturnFaulted,
        Mistake::KindsSwapped,
        Mistake::WaitMutexFirst,
        Mistake::ThreadAmongMutexes,
        Mistake::KindsNotTold,
        Mistake::DownWaitsAtZero,
        Mistake::LastLeftAsleep,
        Mistake::LastWokenFirst,
        Mistake::NewsemaRoomFirst,
        Mistake::CountOfThread,
        Mistake::WokenToFront,
        Mistake::UpSaturates,
        Mistake::SemaphoreNotTold,
        Mistake::DeliveredBelowTop,
        Mistake::DeliveredToItself,
        Mistake::WokenWithoutResult,
        Mistake::LateWithoutResult,
        Mistake::DeliveredFirst,
    ];
}

/// The whole machine.
#[derive(Clone, Debug)]
pub struct Machine {
    pub code: Vec<Instruction>,
    pub state: State,
    /// The fault's number when faulted, else 0.
    pub fault: u8,
    /// The running thread, if one runs.
    pub running: Option<usize>,
    /// The thread that ran last; the same as the running one while one runs.
    pub last: usize,
    /// The next free shared cell.
    pub free: usize,
    pub shared: Vec<i32>,
    pub threads: Vec<Thread>,
    pub mutexes: Vec<Mutex>,
    pub conditions: Vec<Condition>,
    pub semaphores: Vec<Semaphore>,
    pub ready: VecDeque<usize>,
    mistake: Option<Mistake>,
    /// Used only by the mistake `CountOfThread`.
    thread_counts: [i32; THREADS],
}

impl Machine {
    /// Setting up: thread 0 runs at PC 0 with argument 0, nothing else is made.
    pub fn new(card: &Card) -> Machine {
        Machine::with_mistake(card, None)
    }

    /// The same, and the machine makes this mistake.
    pub fn with_mistake(card: &Card, mistake: Option<Mistake>) -> Machine {
        Machine {
            code: card.code.clone(),
            state: State::Running,
            fault: 0,
            running: Some(0),
            last: 0,
            free: card.globals,
            shared: vec![0; SHARED],
            threads: vec![Thread::new(0, 0)],
            mutexes: Vec::new(),
            conditions: Vec::new(),
            semaphores: Vec::new(),
            ready: VecDeque::new(),
            mistake,
            thread_counts: [0; THREADS],
        }
    }

    /// At most `steps` steps; fewer if the machine stops. Gives the instructions carried out.
    pub fn run(&mut self, steps: u64) -> u64 {
        let mut count = 0;
        while count < steps && self.step() {
            count += 1;
        }
        count
    }

    /// One step. Says whether an instruction was carried out: not on a machine that doesn't run,
    /// and not if the instruction faults.
    pub fn step(&mut self) -> bool {
        if self.state != State::Running {
            return false;
        }
        let t = self
            .running
            .expect("a running machine has a running thread");
        let pc = self.threads[t].pc;
        if pc >= self.code.len() {
            self.state = State::Faulted;
            self.fault = 20;
            return false;
        }
        self.threads[t].pc = pc + 1;
        match self.carry_out(t, self.code[pc]) {
            Ok(()) => true,
            Err(number) => {
                self.threads[t].pc = pc;
                self.state = State::Faulted;
                self.fault = self.told(number);
                false
            }
        }
    }

    /// Carries out one instruction for thread `t`, whose PC is already past it.
    fn carry_out(&mut self, t: usize, Instruction { op, k }: Instruction) -> Result<(), u8> {
        let n = self.code.len();
        let made = self.threads.len();
        let me = &mut self.threads[t];
        match op {
            Op::Halt => self.state = State::Halted,

            // Cells.
            Op::Loadc => {
                me.room(1)?;
                me.push(k);
            }
            Op::Load => {
                me.has(1)?;
                let address = shared_address(me.top())?;
                me.set_top(self.shared[address]);
            }
            Op::Store => {
                me.has(2)?;
                let address = shared_address(me.top())?;
                self.shared[address] = me.below();
                me.drop_top();
            }
            Op::Loadr => {
                me.room(1)?;
                let place = me.frame_cell(k)?;
                me.push(me.stack[place]);
            }
            Op::Storer => {
                me.has(1)?;
                let place = me.frame_cell(k)?;
                me.stack[place] = me.top();
            }
            Op::Alloc => {
                me.room(k as usize)?;
                for _ in 0..k {
                    me.push(0);
                }
            }
            Op::Pop => {
                me.has(1)?;
                me.drop_top();
            }
            Op::Dup => {
                me.has(1)?;
                me.room(1)?;
                me.push(me.top());
            }

            // Numbers: the cell below top is combined with top.
            Op::Add
            | Op::Sub
            | Op::Mul
            | Op::Div
            | Op::Mod
            | Op::Eq
            | Op::Neq
            | Op::Less
            | Op::Leq => {
                me.has(2)?;
                let value = combine(op, me.below(), me.top())?;
                me.drop_top();
                me.set_top(value);
            }
            Op::Neg => {
                me.has(1)?;
                let value = cell(-(me.top() as i64))?;
                me.set_top(value);
            }
            Op::Not => {
                me.has(1)?;
                let value = (me.top() == 0) as i32;
                me.set_top(value);
            }

            // Jumps, calls and returns.
            Op::Jump => me.pc = k as usize,
            Op::Jumpz => {
                me.has(1)?;
                if me.top() == 0 {
                    me.pc = k as usize;
                }
                me.drop_top();
            }
            Op::Mark => {
                me.room(1)?;
                me.push(me.fp as i32);
            }
            Op::Call => {
                me.has(3)?;
                let target = code_address(me.top(), n)?;
                me.set_top(me.pc as i32);
                me.fp = me.cells - 1;
                me.pc = target;
            }
            Op::Return => {
                let fp = me.fp;
                if fp >= me.cells {
                    return Err(26);
                }
                let old_fp = me.stack[fp - 1];
                if old_fp == -1 {
                    let result = me.stack[fp - 2];
                    self.end(t, result)?;
                } else {
                    if old_fp < 2 || old_fp > fp as i32 - 1 {
                        return Err(26);
                    }
                    let old_pc = me.stack[fp];
                    if old_pc < 0 || old_pc as usize >= n {
                        return Err(26);
                    }
                    if self.mistake == Some(Mistake::CallerReturnFaulted) {
                        owns_none(t, &self.mutexes)?;
                    }
                    // SP = FP - 2, so FP - 1 cells are left.
                    me.cells = fp - 1;
                    me.pc = old_pc as usize;
                    me.fp = old_fp as usize;
                }
            }

            // Making things.
            Op::New => {
                me.has(1)?;
                let wanted = me.top();
                if wanted < 1 {
                    return Err(30);
                }
                if wanted as usize <= SHARED - self.free {
                    me.set_top(self.free as i32);
                    self.free += wanted as usize;
                } else {
                    me.set_top(0);
                }
            }
            Op::Create => {
                me.has(2)?;
                let argument = me.top();
                let full = made == THREADS;
                if full && self.mistake == Some(Mistake::CreateRoomFirst) {
                    me.drop_top();
                    me.set_top(-1);
                    return Ok(());
                }
                let entry = code_address(me.below(), n)?;
                me.drop_top();
                if full {
                    me.set_top(-1);
                } else {
                    // Threads count from 0, so the new one's number is how many there were.
                    me.set_top(made as i32);
                    self.threads.push(Thread::new(entry, argument));
                    self.ready.push_back(made);
                }
            }
            Op::Newmutex => {
                me.room(1)?;
                if self.mutexes.len() == MUTEXES {
                    me.push(-1);
                } else {
                    me.push(self.mutexes.len() as i32);
                    self.mutexes.push(Mutex::default());
                }
            }
            Op::Newcond => {
                me.room(1)?;
                if self.conditions.len() == CONDITIONS {
                    me.push(-1);
                } else {
                    me.push(self.conditions.len() as i32);
                    self.conditions.push(Condition::default());
                }
            }
            Op::Newsema => {
                me.has(1)?;
                let count = me.top();
                let full = self.semaphores.len() == SEMAPHORES;
                if full && self.mistake == Some(Mistake::NewsemaRoomFirst) {
                    me.set_top(-1);
                    return Ok(());
                }
                if count < 0 {
                    return Err(30);
                }
                if full {
                    me.set_top(-1);
                } else {
                    me.set_top(self.semaphores.len() as i32);
                    self.semaphores.push(Semaphore {
                        count,
                        waiters: VecDeque::new(),
                    });
                    self.thread_counts[t] = count;
                }
            }

            // Threads.
            Op::Yield => {
                self.ready.push_back(t);
                self.next();
            }
            Op::Exit => {
                me.has(1)?;
                let result = me.top();
                self.end(t, result)?;
            }
            Op::Join => {
                me.has(1)?;
                let top = me.top();
                let other = self.other_thread(top)?;
                match self.threads[other].result {
                    Some(result) => {
                        if self.mistake != Some(Mistake::LateWithoutResult) {
                            self.threads[t].set_top(result);
                        }
                    }
                    None => {
                        // Top stays the number until the other one ends.
                        self.threads[other].joiners.push_back(t);
                        self.next();
                    }
                }
            }
            // The result is there already: it needs its cell and does nothing.
            Op::Finalize => me.has(1)?,

            // Mutexes.
            Op::Lock => {
                me.has(1)?;
                let m = mutex_number(me.top(), &self.mutexes)?;
                me.drop_top();
                if self.mutexes[m].owner.is_none() {
                    self.mutexes[m].owner = Some(t);
                } else {
                    if self.mistake == Some(Mistake::UnlockFrees) {
                        // The waiter will try this very lock again.
                        me.pc -= 1;
                        me.cells += 1;
                    }
                    self.mutexes[m].waiters.push_back(t);
                    self.next();
                }
            }
            Op::Unlock => {
                me.has(1)?;
                let m = mutex_number(me.top(), &self.mutexes)?;
                if self.mutexes[m].owner != Some(t) {
                    return Err(28);
                }
                me.drop_top();
                self.unlock(m);
            }

            // Conditions.
            Op::Wait => {
                me.has(2)?;
                if self.mistake == Some(Mistake::WaitMutexFirst) {
                    mutex_number(me.below(), &self.mutexes)?;
                }
                let c = condition_number(me.top(), &self.conditions)?;
                let m = mutex_number(me.below(), &self.mutexes)?;
                if self.mutexes[m].owner != Some(t) {
                    return Err(28);
                }
                me.drop_top();
                if self.mistake == Some(Mistake::SignalRemembered)
                    && self.conditions[c].remembered > 0
                {
                    self.conditions[c].remembered -= 1;
                    self.ready.push_back(t);
                } else {
                    self.conditions[c].waiters.push_back(t);
                }
                self.unlock(m);
                self.next();
            }
            Op::Signal => {
                me.has(1)?;
                let c = condition_number(me.top(), &self.conditions)?;
                me.drop_top();
                match self.conditions[c].waiters.pop_front() {
                    Some(waiter) => self.wake(waiter),
                    None => self.conditions[c].remembered += 1,
                }
            }
            Op::Broadcast => {
                me.has(1)?;
                let c = condition_number(me.top(), &self.conditions)?;
                me.drop_top();
                let mut waiters = std::mem::take(&mut self.conditions[c].waiters);
                if self.mistake == Some(Mistake::BroadcastReversed) {
                    waiters.make_contiguous().reverse();
                }
                for waiter in waiters {
                    self.wake(waiter);
                }
            }

            // Semaphores.
            Op::Up => {
                me.has(1)?;
                let s = semaphore_number(me.top(), &self.semaphores)?;
                let raised = cell(*self.count(t, s) as i64 + 1);
                let count = match self.mistake {
                    Some(Mistake::UpSaturates) => raised.unwrap_or(i32::MAX),
                    _ => raised?,
                };
                self.threads[t].drop_top();
                *self.count(t, s) = count;
                let wakes = match self.mistake {
                    Some(Mistake::LastLeftAsleep) => count < 0,
                    _ => count <= 0,
                };
                if wakes {
                    self.wake_from_semaphore(s);
                }
            }
            Op::Down => {
                me.has(1)?;
                let s = semaphore_number(me.top(), &self.semaphores)?;
                me.drop_top();
                // Whoever makes it negative waits, so it is never under -32.
                *self.count(t, s) -= 1;
                let count = *self.count(t, s);
                let waits = match self.mistake {
                    Some(Mistake::DownWaitsAtZero) => count <= 0,
                    _ => count < 0,
                };
                if waits {
                    self.semaphores[s].waiters.push_back(t);
                    self.next();
                }
            }
        }
        Ok(())
    }

    /// The thread that join names, or fault 33.
    fn other_thread(&self, value: i32) -> Result<usize, u8> {
        if self.mistake != Some(Mistake::ThreadAmongMutexes) {
            return thread_number(value, &self.threads);
        }
        let other = number(value, self.mutexes.len(), NO_THREAD)?;
        // One that isn't made hasn't ended; the running one, which hasn't either, stands for it.
        Ok(if other < self.threads.len() {
            other
        } else {
            self.last
        })
    }

    /// The number that is told of a fault: its own, but for three of the mistakes.
    fn told(&self, fault: u8) -> u8 {
        match (self.mistake, fault) {
            (Some(Mistake::KindsSwapped), NO_CONDITION) => NO_THREAD,
            (Some(Mistake::KindsSwapped), NO_THREAD) => NO_CONDITION,
            (Some(Mistake::KindsNotTold), NO_CONDITION | NO_THREAD) => NO_MUTEX,
            (Some(Mistake::SemaphoreNotTold), NO_SEMAPHORE) => NO_MUTEX,
            _ => fault,
        }
    }

    /// Next: the first of the ready queue runs. With none ready the machine is halted if no thread
    /// lives, else stuck.
    fn next(&mut self) {
        self.running = self.ready.pop_front();
        match self.running {
            Some(t) => self.last = t,
            None if self.threads.iter().all(|thread| thread.result.is_some()) => {
                self.state = State::Halted
            }
            None => self.state = State::Stuck,
        }
    }

    /// Ending: the result is kept, all who wait for the thread get it and go to the ready tail in
    /// their order, then Next. But a thread that owns a mutex doesn't end: that is fault 31, and
    /// then nobody gets anything.
    fn end(&mut self, t: usize, result: i32) -> Result<(), u8> {
        if let Err(fault) = owns_none(t, self.looked_at()) {
            match self.mistake {
                Some(Mistake::JoinersWokenFirst) => {
                    let joiners = std::mem::take(&mut self.threads[t].joiners);
                    self.ready.extend(joiners);
                }
                Some(Mistake::DeliveredFirst) => {
                    for joiner in self.threads[t].joiners.clone() {
                        self.deliver(t, result, joiner);
                    }
                }
                _ => {}
            }
            return Err(fault);
        }
        self.threads[t].result = Some(result);
        while let Some(joiner) = self.threads[t].joiners.pop_front() {
            self.deliver(t, result, joiner);
            self.ready.push_back(joiner);
        }
        self.next();
        Ok(())
    }

    /// The result of thread `t` is written to the top cell of one who waits for its end. There is
    /// such a cell: join needs it, and nobody takes it away while the thread waits.
    fn deliver(&mut self, t: usize, result: i32, joiner: usize) {
        let top = self.threads[joiner].cells - 1;
        match self.mistake {
            // Where there is no cell below, nothing is written.
            Some(Mistake::DeliveredBelowTop) if top == 0 => {}
            Some(Mistake::DeliveredBelowTop) => self.threads[joiner].stack[top - 1] = result,
            Some(Mistake::DeliveredToItself) => self.threads[t].stack[top] = result,
            Some(Mistake::WokenWithoutResult) => {}
            _ => self.threads[joiner].stack[top] = result,
        }
    }

    /// The mutexes that are looked at when a thread ends: all, but for two of the mistakes.
    fn looked_at(&self) -> &[Mutex] {
        let count = match self.mistake {
            Some(Mistake::EndsOwning) => 0,
            Some(Mistake::OnlyMutexZero) => self.mutexes.len().min(1),
            _ => self.mutexes.len(),
        };
        &self.mutexes[..count]
    }

    /// The mutex goes to its first waiter, who becomes ready, or to nobody.
    fn unlock(&mut self, m: usize) {
        let waiter = self.mutexes[m].waiters.pop_front();
        self.mutexes[m].owner = waiter;
        if let Some(waiter) = waiter {
            self.ready.push_back(waiter);
        }
        if self.mistake == Some(Mistake::UnlockFrees) {
            self.mutexes[m].owner = None;
        }
    }

    /// The count that an up or down by thread `t` is about: the semaphore's, but for one of the
    /// mistakes.
    fn count(&mut self, t: usize, s: usize) -> &mut i32 {
        if self.mistake == Some(Mistake::CountOfThread) {
            &mut self.thread_counts[t]
        } else {
            &mut self.semaphores[s].count
        }
    }

    /// The semaphore's first waiter goes to the ready tail. Its down is done: it goes on behind it.
    fn wake_from_semaphore(&mut self, s: usize) {
        let waiters = &mut self.semaphores[s].waiters;
        let waiter = match self.mistake {
            Some(Mistake::LastWokenFirst) => waiters.pop_back(),
            _ => waiters.pop_front(),
        };
        // There is one, since the count was negative; only with a mistake there may be none.
        match (waiter, self.mistake) {
            (Some(waiter), Some(Mistake::WokenToFront)) => self.ready.push_front(waiter),
            (Some(waiter), _) => self.ready.push_back(waiter),
            (None, mistake) => assert!(mistake.is_some(), "a negative count has a waiter"),
        }
    }

    /// A condition's waiter goes to the ready tail. It has to execute its lock itself.
    fn wake(&mut self, waiter: usize) {
        if self.mistake == Some(Mistake::WokenPastLock) {
            self.skip_lock(waiter);
        }
        self.ready.push_back(waiter);
    }

    /// The mistake `WokenPastLock`: if the waiter's next instruction is its lock, it is taken as
    /// done, and the waiter owns the mutex at most if nobody else does.
    fn skip_lock(&mut self, waiter: usize) {
        let thread = &mut self.threads[waiter];
        if thread.pc < self.code.len() && self.code[thread.pc].op == Op::Lock {
            let m = thread.top() as usize;
            thread.drop_top();
            thread.pc += 1;
            if self.mutexes[m].owner.is_none() {
                self.mutexes[m].owner = Some(waiter);
            }
        }
    }
}

/// A shared cell's address, or fault 23.
fn shared_address(value: i32) -> Result<usize, u8> {
    if value < 0 || value as usize >= SHARED {
        Err(23)
    } else {
        Ok(value as usize)
    }
}

/// A target of call or create on a card of `n` instructions, or fault 25.
fn code_address(value: i32, n: usize) -> Result<usize, u8> {
    if value < 0 || value as usize >= n {
        Err(25)
    } else {
        Ok(value as usize)
    }
}

/// The number of a mutex made, or fault 27. This and the next three take their own table, so that
/// no number is looked for in another.
fn mutex_number(value: i32, mutexes: &[Mutex]) -> Result<usize, u8> {
    number(value, mutexes.len(), NO_MUTEX)
}

/// The number of a condition made, or fault 32.
fn condition_number(value: i32, conditions: &[Condition]) -> Result<usize, u8> {
    number(value, conditions.len(), NO_CONDITION)
}

/// The number of a thread made, or fault 33.
fn thread_number(value: i32, threads: &[Thread]) -> Result<usize, u8> {
    number(value, threads.len(), NO_THREAD)
}

/// The number of a semaphore made, or fault 34.
fn semaphore_number(value: i32, semaphores: &[Semaphore]) -> Result<usize, u8> {
    number(value, semaphores.len(), NO_SEMAPHORE)
}

/// The number of something of which `made` were made, or the fault.
fn number(value: i32, made: usize, fault: u8) -> Result<usize, u8> {
    if value < 0 || value as usize >= made {
        Err(fault)
    } else {
        Ok(value as usize)
    }
}

/// Fault 31 if thread `t` owns any of the mutexes.
fn owns_none(t: usize, mutexes: &[Mutex]) -> Result<(), u8> {
    if mutexes.iter().any(|mutex| mutex.owner == Some(t)) {
        Err(31)
    } else {
        Ok(())
    }
}

/// A number as a cell, or fault 24 if it is beyond 32 bits.
fn cell(value: i64) -> Result<i32, u8> {
    i32::try_from(value).map_err(|_| 24)
}

/// What a two-number instruction gives. The 64 bits hold every exact result, so only the last
/// step can fail; division truncates toward zero.
fn combine(op: Op, left: i32, right: i32) -> Result<i32, u8> {
    let (a, b) = (left as i64, right as i64);
    match op {
        Op::Add => cell(a + b),
        Op::Sub => cell(a - b),
        Op::Mul => cell(a * b),
        Op::Div | Op::Mod if b == 0 => Err(24),
        Op::Div => cell(a / b),
        Op::Mod => cell(a % b),
        Op::Eq => Ok((a == b) as i32),
        Op::Neq => Ok((a != b) as i32),
        Op::Less => Ok((a < b) as i32),
        Op::Leq => Ok((a <= b) as i32),
        _ => unreachable!("not a two-number instruction"),
    }
}
