//! Semaphores, sentence by sentence of request Four, and the errors that it invites.

mod common;

use common::{check, image, line, machine};
use second::machine::{read, Machine, Mistake, State};
use second::text::{runner_line, state_line};

/// The largest number of 32 bits, as instructions that push it.
const MAX: &str = "loadc 8388607, loadc 256, mul, loadc 255, add";

/// The machine after so many steps, all of them carried out.
fn after(text: &str, steps: u64) -> Machine {
    let mut m = machine(text);
    assert_eq!(m.run(steps), steps, "{text}");
    m
}

/// The same of a machine that makes the mistake.
fn wrong_after(text: &str, steps: u64, mistake: Mistake) -> Machine {
    let card = read(&image(text)).unwrap();
    let mut m = Machine::with_mistake(&card, Some(mistake));
    assert_eq!(m.run(steps), steps, "{text}");
    m
}

fn wrong_line(text: &str, mistake: Mistake) -> String {
    runner_line(&image(text), Some(mistake))
}

fn counts(m: &Machine) -> Vec<i32> {
    m.semaphores.iter().map(|s| s.count).collect()
}

#[test]
fn state_lines() {
    // The count of each semaphore made is there, 0 too; those who wait only if there are any.
    let text = "loadc 2, newsema, pop, loadc 0, newsema, down";
    let line = |steps| state_line(&after(text, steps));
    assert_eq!(line(0), "1 0 0 0 3 2 1 1 0 0 0 34fcf18305d74f87 r:[]");
    assert_eq!(
        state_line(&after("loadc 0, newsema, down", 3)),
        "2 0 32 3 3 2 1 1 0 0 1 34fcf18305d74f87 r:[] p0:[0] k0=-1 s0=(3,3,2)"
    );
    assert!(line(2).starts_with("1 0 0 2 4 2 1 1 0 0 1 "), "{}", line(2));
    assert!(line(2).ends_with(" r:[] k0=2"), "{}", line(2));
    assert!(line(5).starts_with("1 0 0 5 4 2 1 1 0 0 2 "), "{}", line(5));
    assert!(line(5).ends_with(" r:[] k0=2 k1=0"), "{}", line(5));
    assert!(
        line(6).starts_with("2 0 32 6 3 2 1 1 0 0 2 "),
        "{}",
        line(6)
    );
    assert!(
        line(6).ends_with(" r:[] p1:[0] k0=2 k1=-1 s0=(6,3,2)"),
        "{}",
        line(6)
    );
}

#[test]
fn the_groups_of_a_state_line_in_their_order() {
    // Thread 0 owns mutex 0. Thread 1 waits for condition 0, 2 for mutex 0, 3 for the end of
    // thread 0, 4 and 5 for semaphore 1, 6 has ended with 9, and 7 is ready.
    let entries = [42, 48, 51, 54, 54, 57, 59];
    let created: String = (1..)
        .zip(entries)
        .map(|(id, entry)| format!("loadc {entry}, loadc {id}, create, "))
        .collect();
    let text = format!(
        "newmutex, newmutex, newcond, loadc 5, newsema, loadc 0, newsema, 7*pop, \
         loadc 0, lock, {created} yield, 4*halt, \
         loadc 1, lock, loadc 1, loadc 0, wait, lock, \
         loadc 0, lock, halt, \
         loadc 0, join, halt, \
         loadc 1, down, halt, \
         loadc 9, exit, \
         yield, jump 59"
    );
    let m = after(&text, 38 + 5 + 2 + 2 + 2 + 2 + 2 + 1);
    let line = state_line(&m);
    assert!(line.starts_with("1 0 0 38 "), "{line}");
    assert!(
        line.ends_with(
            " r:[7] m0:[2] c0:[1] e0:[3] p1:[4,5] o0=0 k0=5 k1=-2 s1=(47,4,2) s2=(50,3,2) \
             s3=(53,4,2) s4=(56,3,2) s5=(56,3,2) s7=(60,3,2) v6=9"
        ),
        "{line}"
    );
}

#[test]
fn newsema_replaces_the_starting_count() {
    let text = format!("loadc 7, newsema, loadc 0, newsema, {MAX}, newsema, halt");
    let m = after(&text, 10);
    // The numbers take the counts' places, and the counts are kept apart.
    assert_eq!((m.threads[0].cells, m.threads[0].fp), (6, 2));
    assert_eq!(m.threads[0].stack[3..6], [0, 1, 2]);
    assert_eq!(counts(&m), [7, 0, i32::MAX]);
    assert!(m.semaphores.iter().all(|s| s.waiters.is_empty()));
    // The 33rd changes nothing but its own top.
    let full = "loadc 7, newsema, pop, ".repeat(32);
    let before = after(&format!("{full} loadc 9, newsema, halt"), 97);
    let mut m = before.clone();
    assert!(m.step());
    assert_eq!(m.threads[0].stack[3], -1);
    assert_eq!(counts(&m), [7; 32]);
    m.threads[0].stack[3] = 9;
    m.threads[0].pc -= 1;
    assert_eq!(format!("{m:?}"), format!("{before:?}"));
}

#[test]
fn down_waits_when_the_count_is_negative() {
    let text = "loadc 2, newsema, pop, loadc 0, down, loadc 0, down, loadc 0, down, halt";
    assert_eq!(counts(&after(text, 5)), [1]);
    let m = after(text, 7);
    assert_eq!((counts(&m), m.state), (vec![0], State::Running));
    // It pops, it is carried out and counted, and the thread waits behind it.
    let m = after(text, 9);
    assert_eq!((counts(&m), m.state), (vec![-1], State::Stuck));
    assert_eq!(m.semaphores[0].waiters, [0]);
    assert_eq!((m.threads[0].pc, m.threads[0].cells), (9, 3));
    assert_eq!(line(text), "stuck 9");
}

/// Threads 1 to 3 wait for semaphore 0, and thread 4 is ready, when thread 0 raises the semaphore
/// three times and then lowers it. The others end with their arguments.
const LINE: &str = "loadc 0, newsema, pop, \
    loadc 22, loadc 1, create, loadc 22, loadc 2, create, loadc 22, loadc 3, create, \
    yield, \
    loadc 24, loadc 4, create, \
    loadc 0, up, loadc 0, up, loadc 0, up, \
    loadc 0, down, return";

#[test]
fn up_sends_the_first_waiter_to_the_ready_tail() {
    let mut m = after(LINE, 13 + 3 * 2 + 3);
    assert_eq!(counts(&m), [-3]);
    assert_eq!(m.semaphores[0].waiters, [1, 2, 3]);
    assert_eq!((m.running, m.ready.clone()), (Some(0), [4].into()));
    // Thread 0 goes on, and the waiters come behind thread 4, first come first.
    for (count, waiters, ready) in [
        (-2, &[2, 3][..], &[4, 1][..]),
        (-1, &[3], &[4, 1, 2]),
        (0, &[], &[4, 1, 2, 3]),
    ] {
        assert_eq!(m.run(2), 2);
        assert_eq!(m.running, Some(0));
        assert_eq!(counts(&m), [count]);
        assert_eq!(m.semaphores[0].waiters, waiters);
        assert_eq!(m.ready, ready);
    }
    // Then thread 0 waits itself. The woken ones go on behind their downs and lower nothing again.
    assert_eq!(m.run(2), 2);
    assert_eq!((m.running, counts(&m)), (Some(4), vec![-1]));
    assert_eq!(m.threads[1].pc, 24);
    assert_eq!(m.run(9), 4);
    assert_eq!((m.state, counts(&m)), (State::Stuck, vec![-1]));
    assert_eq!(m.semaphores[0].waiters, [0]);
    let results: Vec<_> = m.threads.iter().map(|t| t.result).collect();
    assert_eq!(results, [None, Some(1), Some(2), Some(3), Some(4)]);
}

#[test]
fn up_is_remembered() {
    let text = "loadc 0, newsema, dup, up, dup, up, dup, down, dup, down, down";
    assert_eq!(counts(&after(text, 6)), [2]);
    assert_eq!(counts(&after(text, 10)), [0]);
    assert_eq!(line(text), "stuck 11");
}

#[test]
fn a_semaphore_has_no_owner() {
    check(&[
        // A thread ends after its down: that is no fault, and nobody is woken.
        ("loadc 1, newsema, down, return", "halted 4 0"),
        ("loadc 1, newsema, down, exit", "halted 4 -1"),
        // Another thread than the one that lowered it raises it.
        (
            "loadc 1, newsema, dup, down, loadc 10, loadc 0, create, pop, down, halt, \
             loadc 0, up, return",
            "halted 13 -",
        ),
        // With a mutex owned it is a fault all the same.
        (
            "newmutex, lock, loadc 1, newsema, down, return",
            "fault 31 0 5 5",
        ),
    ]);
}

#[test]
fn who_waits_for_a_semaphore_lives() {
    // Thread 0 ends while thread 1 waits: stuck, not halted.
    let text = "loadc 0, newsema, loadc 7, loadc 5, create, yield, return, loadc 0, down, return";
    let m = after(text, 9);
    assert_eq!((m.state, m.running), (State::Stuck, None));
    assert_eq!(m.semaphores[0].waiters, [1]);
    assert_eq!(m.threads[1].result, None);
    // Woken, it ends, and those go on who wait for its end: 0, then 2.
    let text = "loadc 0, newsema, pop, loadc 14, loadc 5, create, \
                loadc 17, loadc 6, create, loadc 1, join, finalize, exit, halt, \
                loadc 0, down, return, \
                loadc 0, up, loadc 1, join, return";
    let mut m = after(text, 11 + 2 + 4);
    assert_eq!((m.running, m.ready.len()), (Some(1), 0));
    assert_eq!(m.threads[1].joiners, [0, 2]);
    assert_eq!(m.run(1), 1);
    assert_eq!((m.running, m.ready.clone()), (Some(0), [2].into()));
    assert_eq!(line(text), "halted 21 5");
}

#[test]
fn semaphores_are_apart_from_mutexes_and_conditions() {
    // All have the number 0. A broadcast wakes nobody who waits for a semaphore, an up nobody who
    // waits for a condition.
    let text = "newmutex, newcond, loadc 0, newsema, \
                loadc 16, loadc 0, create, loadc 18, loadc 0, create, yield, \
                loadc 0, broadcast, loadc 0, up, halt, \
                loadc 0, down, \
                loadc 0, lock, loadc 0, loadc 0, wait, lock, halt";
    let m = after(text, 11 + 2 + 5);
    assert_eq!(m.semaphores[0].waiters, [1]);
    assert_eq!(m.conditions[0].waiters, [2]);
    let m = after(text, 11 + 2 + 5 + 2);
    assert_eq!(m.semaphores[0].waiters, [1]);
    assert_eq!(m.ready, [2]);
    let m = after(text, 11 + 2 + 5 + 4);
    assert_eq!(m.ready, [2, 1]);
    // Semaphore 1 and semaphore 0 are two.
    let text = "loadc 3, newsema, loadc 5, newsema, down, down, loadc 1, up, loadc 1, up, halt";
    assert_eq!(counts(&after(text, 6)), [2, 4]);
    assert_eq!(counts(&after(text, 10)), [2, 6]);
}

#[test]
fn all_threads_wait() {
    // 31 threads wait, and thread 0 too: the count is down to -32.
    let created = "loadc @-2, loadc 0, create, pop, ".repeat(31);
    let text = format!("loadc 0, newsema, pop, {created} loadc 0, down");
    let steps = 3 + 31 * 4 + 2 * 32;
    let m = after(&text, steps);
    assert_eq!((m.state, counts(&m)), (State::Stuck, vec![-32]));
    let all: Vec<usize> = (0..32).collect();
    assert_eq!(m.semaphores[0].waiters, all);
    assert_eq!(line(&text), format!("stuck {steps}"));
}

/// Up and Down of the lectures (document 000), as they are translated there, at the addresses from
/// `at` on; wait, dup, unlock, next and lock are our wait and lock.
fn down_body(at: usize) -> String {
    format!(
        "alloc 1, loadr -2, load, storer 1, lock, \
         loadr -2, loadc 2, add, load, loadc 1, sub, loadr -2, loadc 2, add, store, \
         loadc 0, less, jumpz {}, loadr 1, loadr -2, loadc 1, add, load, wait, lock, \
         loadr 1, unlock, return",
        at + 25
    )
}

fn up_body(at: usize) -> String {
    format!(
        "alloc 1, loadr -2, load, storer 1, lock, \
         loadr -2, loadc 2, add, load, loadc 1, add, loadr -2, loadc 2, add, store, \
         loadc 0, leq, jumpz {}, loadr -2, loadc 1, add, load, signal, \
         loadr 1, unlock, return",
        at + 23
    )
}

fn length(text: &str) -> usize {
    (image(text).len() - 9) / 4
}

/// A card on which threads lower and raise two semaphores and log what they do in cell 20: by the
/// instructions, or by the lectures' bodies with the semaphores in cells 1 to 3 and 4 to 6. The
/// semaphores' numbers or first cells are in cells 11 and 12.
fn play(lectures: bool, starts: [i32; 2], yields: [usize; 4]) -> String {
    // The bodies stand first, behind a jump, also where they aren't used.
    let down = down_body(1);
    let up = up_body(1 + length(&down));
    let (down_at, up_at) = (1, 1 + length(&down));
    let main = up_at + length(&up);
    let make = |cell: usize, start: i32| match lectures {
        false => format!(
            "loadc {start}, newsema, loadc {}, store, pop",
            cell / 3 + 11
        ),
        true => format!(
            "newmutex, loadc {cell}, store, pop, newcond, loadc {}, store, pop, \
             loadc {start}, loadc {}, store, pop, loadc {cell}, loadc {}, store, pop",
            cell + 1,
            cell + 2,
            cell / 3 + 11
        ),
    };
    let act = |down: bool, which: usize| {
        let at = if down { down_at } else { up_at };
        match (lectures, down) {
            (true, _) => format!("loadc {}, load, mark, loadc {at}, call, pop", 11 + which),
            (false, true) => format!("loadc {}, load, down", 11 + which),
            (false, false) => format!("loadc {}, load, up", 11 + which),
        }
    };
    // cell 20 = cell 20 * 3 + the argument, modulo 65521
    let log = "loadc 20, load, loadc 3, mul, loadr -2, add, loadc 65521, mod, loadc 20, store, pop";
    let pause = |times: usize| format!("{times}*yield");
    let round = |first: usize| {
        [
            act(true, first),
            log.into(),
            pause(yields[2 * first]),
            act(false, 1 - first),
            pause(yields[2 * first + 1]),
        ]
        .join(", ")
    };
    // Three threads give, three take, each three times.
    let worker = |first: usize| {
        let round = round(first);
        format!("{round}, {round}, {round}, return")
    };
    let start = format!("{}, {}", make(1, starts[0]), make(4, starts[1]));
    let creates = |entries: [usize; 2]| {
        let one = |id: usize| {
            let entry = entries[id % 2];
            format!("loadc {entry}, loadc {id}, create, pop")
        };
        (1..=6).map(one).collect::<Vec<_>>().join(", ")
    };
    let joins = (1..=6)
        .map(|id| format!("loadc {id}, join, pop"))
        .collect::<Vec<_>>()
        .join(", ");
    let body = |entries| {
        format!(
            "{start}, {}, {joins}, loadc 20, load, exit",
            creates(entries)
        )
    };
    let giver = main + length(&body([0, 0]));
    let taker = giver + length(&worker(0));
    format!(
        "jump {main}, {down}, {up}, {}, {}, {}",
        body([taker, giver]),
        worker(0),
        worker(1)
    )
}

#[test]
fn the_lectures_bodies_come_to_the_same() {
    let mut results = std::collections::BTreeSet::new();
    for starts in [[1, 0], [2, 0], [0, 1], [3, 0], [1, 1], [9, 9]] {
        for mix in 0..81 {
            let yields = [mix % 3, mix / 3 % 3, mix / 9 % 3, mix / 27];
            let end = |lectures| {
                let text = play(lectures, starts, yields);
                let mut m = machine(&text);
                m.run(100_000);
                assert_eq!(m.state, State::Halted, "{starts:?} {yields:?}");
                m.threads[0].result
            };
            assert_eq!(end(false), end(true), "{starts:?} {yields:?}");
            results.insert(end(false));
        }
    }
    // The plays tell different orders apart.
    assert!(results.len() > 20, "{}", results.len());
    // And with too small a count both are stuck.
    for lectures in [false, true] {
        let mut m = machine(&play(lectures, [0, 0], [0; 4]));
        m.run(100_000);
        assert_eq!(m.state, State::Stuck);
    }
}

#[test]
fn down_does_not_wait_at_0() {
    let text = "loadc 1, newsema, down, halt";
    assert_eq!(line(text), "halted 4 -");
    assert_eq!(wrong_line(text, Mistake::DownWaitsAtZero), "stuck 3");
    // With 2 to start the mistake doesn't matter.
    let text = "loadc 2, newsema, down, halt";
    assert_eq!(wrong_line(text, Mistake::DownWaitsAtZero), line(text));
}

#[test]
fn the_last_waiter_is_woken_too() {
    let mut m = wrong_after(LINE, 13 + 3 * 2 + 3 + 6, Mistake::LastLeftAsleep);
    assert_eq!(counts(&m), [0]);
    assert_eq!(m.semaphores[0].waiters, [3]);
    assert_eq!(m.ready, [4, 1, 2]);
    assert_eq!(m.run(99), 5);
    assert_eq!(m.state, State::Stuck);
    assert_ne!(wrong_line(LINE, Mistake::LastLeftAsleep), line(LINE));
}

#[test]
fn the_first_waiter_is_woken_first() {
    let steps = 13 + 3 * 2 + 3 + 2;
    let right = after(LINE, steps);
    assert_eq!(right.semaphores[0].waiters, [2, 3]);
    assert_eq!(right.ready, [4, 1]);
    let wrong = wrong_after(LINE, steps, Mistake::LastWokenFirst);
    assert_eq!(wrong.semaphores[0].waiters, [1, 2]);
    assert_eq!(wrong.ready, [4, 3]);
    let wrong = wrong_after(LINE, steps, Mistake::WokenToFront);
    assert_eq!(wrong.semaphores[0].waiters, [2, 3]);
    assert_eq!(wrong.ready, [1, 4]);
}

#[test]
fn newsema_tests_the_starting_count_first() {
    let full = "loadc 1, newsema, pop, ".repeat(32);
    let negative = format!("{full} loadc -1, newsema, exit");
    assert_eq!(line(&negative), "fault 30 0 97 97");
    let wrong = wrong_line(&negative, Mistake::NewsemaRoomFirst);
    assert_eq!(wrong, "halted 99 -1");
    // With room it faults all the same, and without a negative count it is the same.
    for text in [
        "loadc -1, newsema, exit",
        &format!("{full} loadc 0, newsema, exit"),
    ] {
        assert_eq!(wrong_line(text, Mistake::NewsemaRoomFirst), line(text));
    }
}

#[test]
fn the_count_is_the_semaphores() {
    // Thread 0 raises, thread 1 lowers.
    let text = "loadc 0, newsema, up, loadc 8, loadc 0, create, join, halt, loadc 0, down, return";
    assert_eq!(line(text), "halted 11 -");
    let m = after(text, 9);
    assert_eq!((counts(&m), m.state), (vec![0], State::Running));
    let m = wrong_after(text, 9, Mistake::CountOfThread);
    assert_eq!(m.state, State::Stuck);
    assert_eq!(m.semaphores[0].waiters, [1]);
    assert_eq!(wrong_line(text, Mistake::CountOfThread), "stuck 9");
}

#[test]
fn up_faults_at_the_largest_count() {
    let text = format!("{MAX}, newsema, dup, up, down, halt");
    assert_eq!(line(&text), "fault 24 0 7 7");
    assert_eq!(wrong_line(&text, Mistake::UpSaturates), "halted 10 -");
    let m = wrong_after(&text, 8, Mistake::UpSaturates);
    assert_eq!(counts(&m), [i32::MAX]);
    // One below it the mistake doesn't matter.
    let text = format!("{MAX}, loadc -1, add, newsema, dup, up, halt");
    assert_eq!(line(&text), "halted 11 -");
    assert_eq!(wrong_line(&text, Mistake::UpSaturates), line(&text));
}

#[test]
fn a_bad_semaphore_is_told_apart() {
    for op in ["up", "down"] {
        for number in [-1, 1] {
            let text = format!("loadc 1, newsema, newmutex, newmutex, loadc {number}, {op}");
            assert_eq!(line(&text), "fault 34 0 5 5", "{text}");
            let wrong = wrong_line(&text, Mistake::SemaphoreNotTold);
            assert_eq!(wrong, "fault 27 0 5 5", "{text}");
        }
    }
    // The errors of request Three leave it alone, and this one leaves the other kinds alone.
    for mistake in [Mistake::KindsSwapped, Mistake::KindsNotTold] {
        assert_eq!(wrong_line("loadc 0, up", mistake), "fault 34 0 1 1");
    }
    for text in ["loadc 0, lock", "loadc 0, signal", "loadc 1, join"] {
        assert_eq!(wrong_line(text, Mistake::SemaphoreNotTold), line(text));
    }
}
