//! The rules about who runs, waits and owns, and the machine's errors.

mod common;

use common::{check, image, line, machine};
use second::machine::{read, Machine, Mistake, State};
use second::text::{runner_line, state_line};

/// The state line after so many steps.
fn after(text: &str, steps: u64) -> String {
    let mut m = machine(text);
    m.run(steps);
    state_line(&m)
}

#[test]
fn state_lines_of_the_readme() {
    // newmutex, dup, lock, lock: thread 0 waits for its own mutex for good.
    let text = "newmutex, dup, lock, lock";
    for (steps, expected) in [
        "1 0 0 0 3 2 1 1 0 0 0 34fcf18305d74f87 r:[]",
        "1 0 0 1 4 2 1 1 1 0 0 34fcf18305d74f87 r:[]",
        "1 0 0 2 5 2 1 1 1 0 0 34fcf18305d74f87 r:[]",
        "1 0 0 3 4 2 1 1 1 0 0 34fcf18305d74f87 r:[] o0=0",
        "2 0 32 4 3 2 1 1 1 0 0 34fcf18305d74f87 r:[] m0:[0] o0=0 s0=(4,3,2)",
    ]
    .into_iter()
    .enumerate()
    {
        assert_eq!(after(text, steps as u64), expected);
    }
}

#[test]
fn a_changed_cell_changes_the_hash() {
    assert_eq!(
        after("loadc 7, halt", 1),
        "1 0 0 1 4 2 1 1 0 0 0 fc1bbcc7052ceb7e r:[]"
    );
    // A popped cell stays.
    assert_eq!(
        after("loadc 7, pop", 2),
        "1 0 0 2 3 2 1 1 0 0 0 fc1bbcc7052ceb7e r:[]"
    );
}

#[test]
fn registers_after_the_last_end() {
    // Nobody runs any more: the registers keep what the last thread had.
    let text = "loadc 3, loadc 5, create, return";
    let line = after(text, 9);
    assert!(line.starts_with("0 0 32 4 3 2 1 2 0 0 0 "), "{line}");
    assert!(line.ends_with(" r:[] v0=0 v1=5"), "{line}");
    // Halted by halt, the thread stays the running one and the others stay where they were.
    let line = after("loadc 3, loadc 5, create, halt", 9);
    assert!(line.starts_with("0 0 0 4 4 2 1 2 0 0 0 "), "{line}");
    assert!(line.ends_with(" r:[1] s1=(3,3,2)"), "{line}");
    // A fault leaves PC at the instruction.
    let line = after("loadc 3, loadc -1, load", 9);
    assert!(line.starts_with("3 23 0 2 5 2 1 1 0 0 0 "), "{line}");
}

#[test]
fn yields_go_round() {
    // Thread 0 creates two, all yield: 0 1 2 0 1 2.
    let m = &mut machine("loadc 6, loadc 1, create, loadc 6, loadc 2, create, yield, jump 6");
    m.run(6);
    let mut order = Vec::new();
    for _ in 0..12 {
        order.push(m.running.unwrap());
        m.run(1);
    }
    assert_eq!(order, [0, 1, 2, 0, 0, 1, 1, 2, 2, 0, 0, 1]);
}

#[test]
fn popped_cells_stay_in_the_store() {
    let mut m = machine("loadc 7, pop, loadc 8, dup, lock");
    m.run(4);
    assert_eq!(m.threads[0].stack[..6], [0, -1, -1, 8, 8, 0]);
    m.run(2);
    assert_eq!(m.state, State::Faulted);
    // create: both go, the number is pushed; the argument's old cell stays as it was.
    let mut m = machine("loadc 3, loadc 5, create, halt");
    m.run(3);
    assert_eq!(m.threads[0].stack[..5], [0, -1, -1, 1, 5]);
    assert_eq!(m.threads[1].stack[..4], [5, -1, -1, 0]);
}

#[test]
fn join_wakes_in_order() {
    // Threads 1 and 2 join thread 0, which joins nobody and ends.
    let text = "loadc 9, loadc 0, create, loadc 9, loadc 0, create, yield, return, halt, \
                loadc 0, join, finalize, exit";
    let mut m = machine(text);
    m.run(11);
    assert_eq!(m.threads[0].joiners, [1, 2]);
    assert_eq!(m.running, Some(0));
    m.run(1);
    assert_eq!(m.running, Some(1));
    assert_eq!(m.ready, [2]);
    // The join isn't done again: the waiter goes on behind it.
    assert_eq!(m.threads[1].pc, 11);
    m.run(10);
    assert_eq!(m.state, State::Halted);
}

/// Threads 0, 2, 3 and 4 join thread 1, in this order: thread 0 with five cells, 2 with one, 3 with
/// five, 4 with 128. Thread 1 yields once, so that all four wait when it ends with 9 by `end`, after
/// 30 steps.
fn four_joiners(end: &str) -> String {
    format!(
        "loadc 16, loadc 7, create, loadc 20, loadc 1, create, pop, \
         loadc 24, loadc 1, create, pop, loadc 28, loadc 1, create, pop, jump 32, \
         yield, loadc 9, storer -2, {end}, \
         pop, pop, join, exit, \
         loadc 5, loadr -2, join, exit, \
         alloc 124, loadr -2, join, exit, \
         loadc 1, join, sub, exit"
    )
}

#[test]
fn an_end_writes_the_result_to_each_waiter() {
    for end in ["exit", "return"] {
        let text = four_joiners(end);
        let mut m = machine(&text);
        assert_eq!(m.run(30), 30);
        assert_eq!((m.running, m.threads[1].pc), (Some(1), 19));
        assert_eq!(m.threads[1].joiners, [0, 2, 3, 4]);
        assert!(m.ready.is_empty());
        let before = m.clone();
        // Who waits has the number on top.
        let tops = [(0, 4), (2, 0), (3, 4), (4, 127)];
        for (t, top) in tops {
            assert_eq!(m.threads[t].cells, top + 1, "thread {t}");
            assert_eq!(m.threads[t].stack[top], 1, "thread {t}");
        }
        assert!(m.step());
        assert_eq!(m.threads[1].result, Some(9));
        assert!(m.threads[1].joiners.is_empty());
        assert_eq!((m.running, &m.ready), (Some(0), &[2, 3, 4].into()));
        // The top cells are written, and no other; SP, FP and PC of a waiter stay as they are.
        let mut same = before;
        for (t, top) in tops {
            same.threads[t].stack[top] = 9;
        }
        for t in 0..5 {
            let (now, then) = (&m.threads[t], &same.threads[t]);
            assert_eq!(now.stack, then.stack, "thread {t}");
            if t != 1 {
                assert_eq!((now.cells, now.fp), (then.cells, then.fp), "thread {t}");
                assert_eq!(now.pc, then.pc, "thread {t}");
            }
        }
        // Each goes on behind its join with the result: thread 0 has 1 - 9.
        m.run(9);
        assert_eq!(m.state, State::Halted);
        let results: Vec<_> = m.threads.iter().map(|thread| thread.result).collect();
        assert_eq!(results, [-8, 9, 9, 9, 9].map(Some));
        assert_eq!(line(&text), "halted 36 -8", "{end}");
    }
}

#[test]
fn a_late_join_takes_the_result_at_once() {
    // Thread 1 has ended with 7 when thread 0 joins it, with others on the stack and again.
    let text = "loadc 7, loadc 7, create, yield, dup, join, halt, return";
    let mut m = machine(text);
    m.run(6);
    let mut same = m.clone();
    assert!(m.step());
    // Only PC and the top cell are others, and thread 0 goes on.
    same.threads[0].pc += 1;
    same.threads[0].stack[4] = 7;
    assert_eq!(format!("{m:?}"), format!("{same:?}"));
    check(&[
        (
            "loadc 8, loadc 7, create, yield, dup, join, sub, exit, return",
            "halted 9 -6",
        ),
        // What was delivered is a number as any other: a second join looks it up.
        (
            "loadc 7, loadc 7, create, yield, join, join, exit, return",
            "fault 33 0 5 6",
        ),
        (
            "loadc 7, loadc 1, create, yield, join, join, exit, return",
            "halted 8 1",
        ),
        // A full stack, and one cell.
        (
            "loadc 6, loadc 7, create, alloc 123, yield, jump 7, return, \
             loadr 1, join, exit",
            "halted 10 7",
        ),
        (
            "loadc 10, loadc 7, create, storer -2, 3*pop, yield, join, exit, return",
            "halted 11 7",
        ),
    ]);
}

#[test]
fn results_of_all_sizes_are_delivered() {
    for (number, result) in [
        ("loadc -8388608, loadc 256, mul", "-2147483648"),
        (
            "loadc 8388607, loadc 256, mul, loadc 255, add",
            "2147483647",
        ),
        ("loadc 0", "0"),
        ("loadc -1", "-1"),
    ] {
        // Waited for, and late.
        for (entry, between) in [(5, ""), (6, "yield, ")] {
            let text =
                format!("loadc {entry}, loadc 0, create, {between} join, exit, {number}, exit");
            let line = line(&text);
            assert!(line.starts_with("halted "), "{text}: {line}");
            assert!(line.ends_with(&format!(" {result}")), "{text}: {line}");
        }
    }
}

#[test]
fn a_thread_that_joins_itself_waits_for_good() {
    check(&[
        ("loadc 0, join", "stuck 2"),
        ("2*pop, join", "stuck 3"),
        // Thread 1 joins itself, thread 0 ends: its result goes to nobody.
        (
            "loadc 5, loadc 1, create, loadc 3, exit, loadr -2, join",
            "stuck 7",
        ),
        // Threads 0 and 1 join each other.
        ("loadc 4, loadc 0, create, join, loadc 0, join", "stuck 6"),
    ]);
    let mut m = machine("loadc 0, join");
    m.run(9);
    assert_eq!(m.threads[0].joiners, [0]);
    // Its top stays the number.
    assert_eq!((m.threads[0].cells, m.threads[0].stack[3]), (4, 0));
}

#[test]
fn a_chain_of_joins_passes_the_result_on() {
    // Thread 0 joins 1, which joins 2, which joins 3; each adds 1 to what it gets.
    let text = "loadc 8, loadc 2, create, loadc 8, loadc 3, create, jump 14, halt, \
                loadr -2, join, loadc 1, add, exit, halt, \
                loadc 22, loadc 0, create, loadc 1, join, loadc 1, add, exit, \
                yield, loadc 40, exit";
    let mut m = machine(text);
    m.run(99);
    let results: Vec<_> = m.threads.iter().map(|thread| thread.result).collect();
    assert_eq!(results, [43, 42, 41, 40].map(Some));
}

/// Thread 1 is to end with mutex 0 its own; thread 0 wants the mutex after that.
const DEAD_OWNER: &str =
    "newmutex, loadc 8, loadc 0, create, pop, yield, lock, halt, loadc 0, lock, return";

#[test]
fn an_owner_does_not_end() {
    assert_eq!(line(DEAD_OWNER), "fault 31 1 10 8");
    let mut m = machine(DEAD_OWNER);
    m.run(20);
    assert_eq!(m.mutexes[0].owner, Some(1));
    assert_eq!(m.threads[1].result, None);
    assert_eq!((m.running, m.threads[1].pc), (Some(1), 10));
    // Thread 0 never comes to its lock.
    assert_eq!(m.ready, [0]);
    // The old rule: thread 1 ends, the mutex stays its own, and the box says stuck.
    let card = read(&image(DEAD_OWNER)).unwrap();
    let mut m = Machine::with_mistake(&card, Some(Mistake::EndsOwning));
    assert_eq!(m.run(20), 10);
    assert_eq!(m.state, State::Stuck);
    assert_eq!(m.mutexes[0].owner, Some(1));
    assert_eq!(m.mutexes[0].waiters, [0]);
    assert_eq!(m.threads[1].result, Some(0));
}

/// Thread 1 owns mutex 0, and `end` is its next instruction after 21 steps; threads 0 and 2 wait
/// for its end, thread 3 for the mutex.
fn awaited_owner(end: &str) -> String {
    format!(
        "newmutex, pop, loadc 14, loadc 7, create, loadc 19, loadc 1, create, \
         loadc 22, loadc 0, create, loadc 1, join, halt, \
         loadc 0, lock, yield, loadc 9, {end}, \
         loadc 1, join, halt, \
         loadc 0, lock, halt"
    )
}

#[test]
fn fault_31_changes_nothing_but_the_state() {
    for end in ["exit", "return"] {
        let text = awaited_owner(end);
        assert_eq!(line(&text), "fault 31 1 18 21", "{end}");
        let mut before = machine(&text);
        assert_eq!(before.run(21), 21);
        let mut m = before.clone();
        assert!(!m.step());
        assert_eq!((m.state, m.fault), (State::Faulted, 31));
        assert_eq!((m.running, m.threads[1].pc), (Some(1), 18));
        // Who waited still waits, the result isn't kept, the mutex is still owned.
        assert_eq!(m.threads[1].joiners, [0, 2]);
        assert!(m.ready.is_empty());
        assert_eq!(m.threads[1].result, None);
        assert_eq!(m.mutexes[0].owner, Some(1));
        assert_eq!(m.mutexes[0].waiters, [3]);
        let line = state_line(&m);
        assert!(
            line.ends_with(" r:[] m0:[3] e1:[0,2] o0=1 s0=(13,7,2) s2=(21,4,2) s3=(24,3,2)"),
            "{line}"
        );
        // Nothing else is another than before, and nothing follows.
        (before.state, before.fault) = (State::Faulted, 31);
        assert_eq!(format!("{m:?}"), format!("{before:?}"));
        assert_eq!(m.run(9), 0);
        assert_eq!(format!("{m:?}"), format!("{before:?}"));
    }
}

#[test]
fn who_waits_for_a_mutex_does_not_own_it_yet() {
    check(&[
        // Its own mutex: it never comes to its exit.
        ("newmutex, dup, lock, lock, exit", "stuck 4"),
        // Thread 1 is handed the mutex while it waits and ends with it, or gives it back first.
        // Thread 0 ends in between: it owns nothing any more.
        (
            "newmutex, lock, loadc 9, loadc 5, create, yield, loadc 0, unlock, exit, \
             loadc 0, lock, exit",
            "fault 31 1 11 11",
        ),
        (
            "newmutex, lock, loadc 9, loadc 5, create, yield, loadc 0, unlock, return, \
             loadc 0, lock, return",
            "fault 31 1 11 11",
        ),
        (
            "newmutex, lock, loadc 9, loadc 5, create, yield, loadc 0, unlock, exit, \
             loadc 0, lock, loadc 0, unlock, exit",
            "halted 14 1",
        ),
        // Thread 1 gives back what it was handed, and still owns mutex 1.
        (
            "newmutex, lock, loadc 9, loadc 5, create, yield, loadc 0, unlock, exit, \
             newmutex, lock, loadc 0, lock, loadc 0, unlock, exit",
            "fault 31 1 15 15",
        ),
    ]);
}

#[test]
fn a_wait_gives_the_mutex_up() {
    // Thread 1 waits, thread 0 signals and ends. Then thread 1 ends without its lock, or with it.
    let made = "newmutex, newcond, loadc 9, loadc 5, create, yield, loadc 0, signal, exit, \
                loadc 0, lock, loadc 0, loadc 0, wait";
    let rows = [
        (format!("{made}, exit"), "halted 15 1"),
        (format!("{made}, return"), "halted 15 1"),
        (format!("{made}, lock, exit"), "fault 31 1 15 15"),
        (format!("{made}, lock, return"), "fault 31 1 15 15"),
        (
            format!("{made}, lock, loadc 0, unlock, exit"),
            "halted 18 1",
        ),
    ];
    for (text, expected) in rows {
        assert_eq!(line(&text), expected, "{text}");
    }
    // Another mutex than the one given up is still owned.
    let text = "newmutex, newcond, loadc 9, loadc 5, create, yield, loadc 0, signal, exit, \
                newmutex, lock, loadc 0, lock, loadc 0, loadc 0, wait, exit";
    assert_eq!(line(text), "fault 31 1 16 16");
}

#[test]
fn what_others_own_does_not_matter() {
    // Thread 0 owns mutexes 0 and 1 and waits for thread 1, which owns none and ends.
    for end in ["exit", "return"] {
        let text =
            format!("newmutex, lock, newmutex, lock, loadc 9, loadc 5, create, join, halt, {end}");
        assert_eq!(line(&text), "halted 10 -", "{end}");
    }
    // Thread 0 ends while thread 1 owns mutex 0: a mutex's number is no thread's.
    let mut m = machine(
        "newmutex, pop, loadc 7, loadc 5, create, yield, exit, loadc 0, lock, yield, jump 9",
    );
    assert_eq!(m.run(10), 10);
    assert_eq!(m.threads[0].result, Some(1));
    assert_eq!(m.mutexes[0].owner, Some(1));
    assert_eq!(m.running, Some(1));
}

#[test]
fn unlock_hands_over_to_the_first_waiter() {
    // Thread 0 holds mutex 0; 1 and 2 want it; 0 unlocks and locks again: it is behind both.
    let text = "newmutex, lock, \
                loadc 15, loadc 1, create, loadc 15, loadc 2, create, \
                yield, loadc 0, unlock, loadc 0, lock, halt, halt, \
                loadc 0, lock, yield, loadc 0, unlock, return";
    let mut m = machine(text);
    m.run(9 + 4 + 2);
    assert_eq!(m.mutexes[0].owner, Some(1));
    assert_eq!(m.ready, [1]);
    assert_eq!(m.mutexes[0].waiters, [2]);
    m.run(2);
    assert_eq!(m.running, Some(1));
    assert_eq!(m.mutexes[0].waiters, [2, 0]);
    assert_eq!(runner_line(&image(text), None), "halted 26 -");
    assert_ne!(
        runner_line(&image(text), Some(Mistake::UnlockFrees)),
        "halted 26 -"
    );
}

/// Mutex 0, condition 0, cell 0 the vessel. The saver waits; the filler signals while it holds the
/// mutex, yields, and fills in something else before it unlocks.
const SAVER: &str = "newmutex, newcond, loadc 13, loadc 0, create, join, finalize, exit, 5*halt, \
    loadc 28, loadc 0, create, pop, loadc 0, lock, loadc 0, loadc 0, wait, lock, \
    loadc 0, load, loadc 0, unlock, exit, \
    loadc 0, lock, loadc 5, loadc 0, store, loadc 0, signal, yield, yield, \
    loadc 6, loadc 0, store, loadc 0, unlock, return";

#[test]
fn the_saver_reads_the_new_vessel() {
    assert!(line(SAVER).ends_with(" 6"), "{}", line(SAVER));
    // Woken past its lock it reads the old one, and the mutex isn't its own to unlock.
    let card = read(&image(SAVER)).unwrap();
    let mut m = Machine::with_mistake(&card, Some(Mistake::WokenPastLock));
    m.run(99);
    assert_eq!((m.fault, m.running), (28, Some(1)));
    assert_eq!(m.threads[1].stack[3], 5);
}

#[test]
fn wait_leaves_the_mutex_on_the_stack() {
    let mut m = machine("newmutex, dup, lock, loadc 0, newcond, wait");
    m.run(9);
    assert_eq!(m.state, State::Stuck);
    assert_eq!(m.conditions[0].waiters, [0]);
    assert_eq!(m.mutexes[0].owner, None);
    assert_eq!((m.threads[0].pc, m.threads[0].cells), (6, 5));
}

#[test]
fn a_signal_is_not_remembered() {
    let text = "newmutex, newcond, signal, dup, lock, loadc 0, wait, halt";
    assert_eq!(line(text), "stuck 7");
    assert_eq!(
        runner_line(&image(text), Some(Mistake::SignalRemembered)),
        "halted 8 -"
    );
}

#[test]
fn broadcast_in_order() {
    let text = "newmutex, newcond, \
                loadc 14, loadc 0, create, loadc 14, loadc 0, create, yield, \
                loadc 0, broadcast, yield, halt, halt, \
                loadc 0, lock, loadc 0, loadc 0, wait, lock, halt";
    let mut m = machine(text);
    // Both wait, and thread 0 is about to broadcast.
    m.run(9 + 10 + 1);
    assert_eq!(m.conditions[0].waiters, [1, 2]);
    m.run(1);
    assert_eq!(m.ready, [1, 2]);
    assert!(m.conditions[0].waiters.is_empty());
    let card = read(&image(text)).unwrap();
    let mut m = Machine::with_mistake(&card, Some(Mistake::BroadcastReversed));
    m.run(9 + 10 + 2);
    assert_eq!(m.ready, [2, 1]);
}

#[test]
fn create_tests_the_entry_first() {
    let full = "loadc 0, loadc 0, create, pop, ".repeat(31);
    let text = format!("{full} loadc @0, loadc 9, create, halt");
    assert_eq!(line(&text), "fault 25 0 126 126");
    assert_eq!(
        runner_line(&image(&text), Some(Mistake::CreateRoomFirst)),
        "halted 128 -"
    );
}

#[test]
fn all_mutexes_are_looked_at() {
    let wrong = |text: &str| runner_line(&image(text), Some(Mistake::OnlyMutexZero));
    let second = "newmutex, pop, newmutex, lock, exit";
    assert_eq!(line(second), "fault 31 0 4 4");
    assert_eq!(wrong(second), "halted 5 -1");
    let first = "newmutex, lock, newmutex, exit";
    assert_eq!(line(first), "fault 31 0 3 3");
    assert_eq!(wrong(first), "fault 31 0 3 3");
    // With no mutex made there is none to look at.
    assert_eq!(wrong("exit"), "halted 1 -1");
}

#[test]
fn joiners_are_not_woken_by_a_fault() {
    let text = awaited_owner("exit");
    let card = read(&image(&text)).unwrap();
    let mut m = Machine::with_mistake(&card, Some(Mistake::JoinersWokenFirst));
    assert_eq!(m.run(99), 21);
    assert_eq!((m.state, m.fault), (State::Faulted, 31));
    assert_eq!(m.ready, [0, 2]);
    // The runner's line doesn't show it.
    let wrong = runner_line(&image(&text), Some(Mistake::JoinersWokenFirst));
    assert_eq!(wrong, line(&text));
}

#[test]
fn a_fault_delivers_nothing() {
    let text = awaited_owner("exit");
    let card = read(&image(&text)).unwrap();
    let mut m = Machine::with_mistake(&card, Some(Mistake::DeliveredFirst));
    assert_eq!(m.run(99), 21);
    assert_eq!((m.state, m.fault), (State::Faulted, 31));
    // Threads 0 and 2 still wait, and have got the 9.
    assert_eq!(m.threads[1].joiners, [0, 2]);
    assert!(m.ready.is_empty());
    assert_eq!((m.threads[0].stack[6], m.threads[2].stack[3]), (9, 9));
    // The runner's line doesn't show it, the state line does, by the hash.
    let wrong = runner_line(&image(&text), Some(Mistake::DeliveredFirst));
    assert_eq!(wrong, line(&text));
    let mut right = machine(&text);
    right.run(99);
    assert_eq!(
        (right.threads[0].stack[6], right.threads[2].stack[3]),
        (1, 1)
    );
    assert_ne!(state_line(&m), state_line(&right));
    // Where nobody waits, or no mutex is owned, it is no mistake.
    for text in ["newmutex, lock, exit", &four_joiners("exit")] {
        let wrong = runner_line(&image(text), Some(Mistake::DeliveredFirst));
        assert_eq!(wrong, line(text));
    }
}

#[test]
fn the_result_goes_to_the_top_of_the_waiter() {
    // Thread 1 has 5 below the number 2 and waits for the end of thread 2, which ends with 7, or comes
    // too late; then it ends with the difference, for which thread 0 waits.
    let early = "loadc 8, loadc 0, create, loadc 16, loadc 7, create, jump 13, halt, \
                 loadc 5, loadc 2, join, sub, exit, loadc 1, join, exit, return";
    let late = "loadc 8, loadc 0, create, loadc 17, loadc 7, create, jump 14, halt, \
                loadc 5, yield, loadc 2, join, sub, exit, loadc 1, join, exit, return";
    assert_eq!(line(early), "halted 16 -2");
    assert_eq!(line(late), "halted 17 -2");
    for (mistake, early_line, late_line) in [
        // Thread 0's top is still the number of thread 1.
        (Mistake::DeliveredBelowTop, "halted 16 1", "halted 17 1"),
        (Mistake::DeliveredToItself, "halted 16 1", "halted 17 1"),
        (Mistake::WokenWithoutResult, "halted 16 1", "halted 17 1"),
        // Thread 1 has 5 - 2.
        (Mistake::LateWithoutResult, "halted 16 -2", "halted 17 3"),
    ] {
        let wrong = |text: &str| runner_line(&image(text), Some(mistake));
        assert_eq!(wrong(early), early_line, "{mistake:?}");
        assert_eq!(wrong(late), late_line, "{mistake:?}");
    }
    // Thread 1 where it waits: 5 - 7, or 7 - 2 where the 7 is below, or 5 - 2 where it isn't there.
    for (mistake, result) in [
        (None, -2),
        (Some(Mistake::DeliveredBelowTop), 5),
        (Some(Mistake::DeliveredToItself), 3),
        (Some(Mistake::WokenWithoutResult), 3),
        (Some(Mistake::LateWithoutResult), -2),
    ] {
        let card = read(&image(early)).unwrap();
        let mut m = Machine::with_mistake(&card, mistake);
        m.run(99);
        assert_eq!(m.threads[1].result, Some(result), "{mistake:?}");
        assert_eq!(m.threads[2].result, Some(7), "{mistake:?}");
        // Thread 1's top was cell 4: only with one of the mistakes is that of thread 2 written.
        let itself = mistake == Some(Mistake::DeliveredToItself);
        assert_eq!(m.threads[2].stack[4], if itself { 7 } else { 0 });
    }
}

#[test]
fn a_return_to_a_caller_is_not_an_ending() {
    let text = "newmutex, lock, loadc 5, mark, loadc 7, call, halt, return";
    assert_eq!(line(text), "halted 8 -");
    let wrong = runner_line(&image(text), Some(Mistake::CallerReturnFaulted));
    assert_eq!(wrong, "fault 31 0 7 6");
}

#[test]
fn conditions_and_threads_are_told_apart() {
    // The right number, with 32 and 33 swapped, and the old answer.
    for (text, right, swapped, old) in [
        ("loadc 0, lock", 27, 27, 27),
        ("loadc 0, unlock", 27, 27, 27),
        ("loadc 0, signal", 32, 33, 27),
        ("loadc 0, broadcast", 32, 33, 27),
        ("loadc 1, join", 33, 32, 27),
    ] {
        let told = |mistake| runner_line(&image(text), mistake);
        let fault = |number: u8| format!("fault {number} 0 1 1");
        assert_eq!(told(None), fault(right), "{text}");
        assert_eq!(told(Some(Mistake::KindsSwapped)), fault(swapped), "{text}");
        assert_eq!(told(Some(Mistake::KindsNotTold)), fault(old), "{text}");
    }
    // Other faults stay as they are.
    for mistake in [Mistake::KindsSwapped, Mistake::KindsNotTold] {
        let wrong = |text: &str| runner_line(&image(text), Some(mistake));
        assert_eq!(wrong("newmutex, unlock"), "fault 28 0 1 1");
        assert_eq!(wrong("newmutex, lock, exit"), "fault 31 0 2 2");
    }
}

#[test]
fn wait_looks_at_the_condition_first() {
    // One mutex and one condition: both numbers are bad, or one, or none.
    for (mutex, condition, right, wrong) in [
        (1, 1, 32, 27),
        (-1, -1, 32, 27),
        (0, 1, 32, 32),
        (1, 0, 27, 27),
        (0, 0, 28, 28),
    ] {
        let text = format!("newmutex, newcond, loadc {mutex}, loadc {condition}, wait");
        assert_eq!(line(&text), format!("fault {right} 0 4 4"), "{text}");
        let told = runner_line(&image(&text), Some(Mistake::WaitMutexFirst));
        assert_eq!(told, format!("fault {wrong} 0 4 4"), "{text}");
    }
}

#[test]
fn a_thread_is_not_looked_for_among_the_mutexes() {
    for (text, right, wrong) in [
        // A thread and no mutex.
        ("loadc 0, join", "stuck 2", "fault 33 0 1 1"),
        // Two mutexes and one thread; thread 1 isn't made, and so it never ends.
        ("newmutex, newmutex, join", "fault 33 0 2 2", "stuck 3"),
        // As many of the one as of the other.
        ("newmutex, join", "stuck 2", "stuck 2"),
        (
            "newmutex, loadc 1, join",
            "fault 33 0 2 2",
            "fault 33 0 2 2",
        ),
    ] {
        assert_eq!(line(text), right, "{text}");
        let told = runner_line(&image(text), Some(Mistake::ThreadAmongMutexes));
        assert_eq!(told, wrong, "{text}");
    }
}
