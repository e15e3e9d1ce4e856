//! Both sides of every fault, and which comes first where an instruction could give two.

mod common;

use common::{check, image, line, machine};
use second::machine::State;

/// The greatest and the least number of 32 bits, as instructions that push it.
const MAX: &str = "loadc 8388607, loadc 256, mul, loadc 255, add";
const MIN: &str = "loadc -8388608, loadc 256, mul";

#[test]
fn fault_20() {
    check(&[
        ("yield", "fault 20 0 1 1"),
        ("mark", "fault 20 0 1 1"),
        ("jump 1, exit", "halted 2 -1"),
        // Another thread than 0 falls off the card.
        ("loadc 4, loadc 0, create, yield, mark", "fault 20 1 5 5"),
        // A call as the last instruction pushes n, which return doesn't take.
        (
            "jump 2, return, loadc 1, mark, loadc 1, call",
            "fault 26 0 1 5",
        ),
    ]);
}

#[test]
fn fault_21() {
    // One cell is needed: with none it is 21, whatever else could be wrong.
    for op in [
        "load",
        "storer 0",
        "storer -128",
        "pop",
        "dup",
        "neg",
        "not",
        "jumpz 0",
        "new",
        "exit",
        "join",
        "finalize",
        "lock",
        "unlock",
        "signal",
        "broadcast",
        "newsema",
        "up",
        "down",
    ] {
        assert_eq!(
            line(&format!("3*pop, {op}, halt")),
            "fault 21 0 3 3",
            "{op}"
        );
        assert_ne!(
            line(&format!("2*pop, {op}, halt")),
            "fault 21 0 2 2",
            "{op}"
        );
    }
    // Two are needed; with one whose number would also be wrong it is 21 too.
    for op in [
        "store", "add", "sub", "mul", "div", "mod", "eq", "neq", "less", "leq", "create", "wait",
    ] {
        assert_eq!(
            line(&format!("3*pop, loadc -5, {op}")),
            "fault 21 0 4 4",
            "{op}"
        );
        assert_eq!(line(&format!("3*pop, {op}")), "fault 21 0 3 3", "{op}");
        assert_ne!(line(&format!("pop, {op}")), "fault 21 0 1 1", "{op}");
    }
    // Call needs three; return none.
    check(&[
        ("2*pop, loadc 0, call", "fault 21 0 3 3"),
        ("2*pop, loadc -1, call", "fault 21 0 3 3"),
        ("pop, loadc 3, call, halt", "halted 4 -"),
        ("pop, loadc -1, call", "fault 25 0 2 2"),
        ("3*pop, return", "fault 26 0 3 3"),
        ("3*pop, loadr 0", "fault 23 0 3 3"),
        ("3*pop, loadr -2", "fault 23 0 3 3"),
    ]);
}

#[test]
fn fault_22() {
    // 127 cells leave room for one, 128 for none. The last word could also give 23.
    for op in [
        "loadc 1", "dup", "mark", "newmutex", "newcond", "alloc 1", "loadr 0",
    ] {
        assert_eq!(
            line(&format!("alloc 124, {op}, halt")),
            "halted 3 -",
            "{op}"
        );
        assert_eq!(
            line(&format!("alloc 125, {op}, halt")),
            "fault 22 0 1 1",
            "{op}"
        );
    }
    check(&[
        ("alloc 125, alloc 0, halt", "halted 3 -"),
        ("alloc 123, alloc 2, halt", "halted 3 -"),
        ("alloc 123, alloc 3, halt", "fault 22 0 1 1"),
        ("alloc 126", "fault 22 0 0 0"),
        ("alloc 127", "fault 22 0 0 0"),
        // 22 before 23.
        ("alloc 125, loadr 127", "fault 22 0 1 1"),
        ("alloc 125, loadr -3", "fault 22 0 1 1"),
        ("alloc 124, loadr -3", "fault 23 0 1 1"),
        // Nothing of these pushes.
        ("alloc 125, load, loadc 5", "fault 22 0 2 2"),
        ("alloc 125, storer 125, halt", "halted 3 -"),
        ("alloc 125, newsema, halt", "halted 3 -"),
        ("alloc 125, newsema, dup", "fault 22 0 2 2"),
    ]);
}

#[test]
fn fault_23() {
    check(&[
        ("loadc 0, load, exit", "halted 3 0"),
        ("loadc 4095, load, exit", "halted 3 0"),
        ("loadc 4096, load", "fault 23 0 1 1"),
        ("loadc -1, load", "fault 23 0 1 1"),
        (
            "loadc 7, loadc 4095, store, loadc 4095, load, exit",
            "halted 6 7",
        ),
        ("loadc 7, loadc 0, store, exit", "halted 4 7"),
        ("loadc 7, loadc 4096, store", "fault 23 0 2 2"),
        ("loadc 7, loadc -1, store", "fault 23 0 2 2"),
        // FP is 2, SP too: cells 0 to 2.
        ("loadr -3", "fault 23 0 0 0"),
        ("loadr -2, exit", "halted 2 0"),
        ("loadr 0, exit", "halted 2 -1"),
        ("loadr 1", "fault 23 0 0 0"),
        ("loadc 9, storer -3", "fault 23 0 1 1"),
        ("loadc 9, storer -2, return", "halted 3 9"),
        ("loadc 9, storer 1, exit", "halted 3 9"),
        ("loadc 9, storer 2", "fault 23 0 1 1"),
        ("3*pop, storer -2", "fault 21 0 3 3"),
        ("2*pop, storer -2, exit", "halted 4 0"),
        ("2*pop, storer -1", "fault 23 0 2 2"),
    ]);
}

#[test]
fn fault_24() {
    let rows = [
        (format!("{MAX}, exit"), "halted 6 2147483647"),
        (format!("{MIN}, exit"), "halted 4 -2147483648"),
        (format!("{MAX}, loadc 1, add"), "fault 24 0 6 6"),
        (format!("{MAX}, loadc -1, add, exit"), "halted 8 2147483646"),
        (format!("{MIN}, loadc -1, add"), "fault 24 0 4 4"),
        (format!("{MIN}, loadc 1, sub"), "fault 24 0 4 4"),
        (format!("{MIN}, loadc 1, add, exit"), "halted 6 -2147483647"),
        (format!("{MAX}, loadc -1, sub"), "fault 24 0 6 6"),
        (format!("loadc -1, {MIN}, sub, exit"), "halted 6 2147483647"),
        (format!("loadc 0, {MIN}, sub"), "fault 24 0 4 4"),
        ("loadc 46340, dup, mul, exit".into(), "halted 4 2147395600"),
        ("loadc 46341, dup, mul".into(), "fault 24 0 2 2"),
        (format!("{MIN}, loadc -1, mul"), "fault 24 0 4 4"),
        (format!("{MIN}, loadc 1, mul, exit"), "halted 6 -2147483648"),
        (format!("{MIN}, loadc -1, div"), "fault 24 0 4 4"),
        (format!("{MIN}, loadc -1, mod, exit"), "halted 6 0"),
        (format!("{MIN}, loadc 1, div, exit"), "halted 6 -2147483648"),
        (
            format!("{MAX}, loadc -1, div, exit"),
            "halted 8 -2147483647",
        ),
        ("loadc 5, loadc 0, div".into(), "fault 24 0 2 2"),
        ("loadc 5, loadc 0, mod".into(), "fault 24 0 2 2"),
        ("loadc -7, loadc 2, div, exit".into(), "halted 4 -3"),
        ("loadc -7, loadc 2, mod, exit".into(), "halted 4 -1"),
        ("loadc 7, loadc -2, div, exit".into(), "halted 4 -3"),
        ("loadc 7, loadc -2, mod, exit".into(), "halted 4 1"),
        ("loadc 7, loadc 2, sub, exit".into(), "halted 4 5"),
        (format!("{MIN}, neg"), "fault 24 0 3 3"),
        (format!("{MAX}, neg, exit"), "halted 7 -2147483647"),
        (format!("{MIN}, {MAX}, less, exit"), "halted 10 1"),
        (format!("{MAX}, {MIN}, leq, exit"), "halted 10 0"),
        ("loadc 0, not, exit".into(), "halted 3 1"),
        ("loadc -4, not, exit".into(), "halted 3 0"),
    ];
    for (text, expected) in rows {
        assert_eq!(line(&text), expected, "{text}");
    }
}

#[test]
fn fault_24_by_up() {
    // An up at the largest count changes nothing: the number stays on the stack.
    faults(&format!("{MAX}, newsema"), "up", 24);
    faults(
        &format!("{MAX}, newsema, loadc 1, newsema, pop, loadc 0"),
        "up",
        24,
    );
    // One below it can be raised once, and what was lowered can be raised again.
    let below = format!("{MAX}, loadc -1, add, newsema, pop, loadc 0, up");
    goes_on(&below);
    faults(&format!("{below}, loadc 0"), "up", 24);
    let lowered = format!("{MAX}, newsema, dup, down, loadc 0, up");
    goes_on(&lowered);
    faults(&format!("{lowered}, loadc 0"), "up", 24);
    // Another semaphore's count doesn't matter.
    goes_on(&format!("{MAX}, newsema, pop, loadc 0, newsema, up"));
    // Down goes to its own end: whoever makes the count negative waits.
    check(&[("loadc 0, newsema, down", "stuck 3")]);
}

#[test]
fn fault_25() {
    check(&[
        ("loadc 3, mark, loadc -1, call", "fault 25 0 3 3"),
        ("loadc 3, mark, loadc 4, call", "fault 25 0 3 3"),
        // 41 rounds of 3 cells fill 126; two more, and there is no room for the third.
        ("loadc 3, mark, loadc 0, call, halt", "fault 22 0 2 166"),
        ("loadc 3, mark, loadc @-1, call, halt", "halted 5 -"),
        ("loadc -1, loadc 9, create", "fault 25 0 2 2"),
        ("loadc @0, loadc 9, create, halt", "fault 25 0 2 2"),
        ("loadc @-1, loadc 9, create, halt", "halted 4 -"),
        ("loadc 0, loadc 9, create, halt", "halted 4 -"),
    ]);
    // 25 is tested before the room is looked for.
    let full = "loadc 0, loadc 0, create, pop, ".repeat(31);
    assert_eq!(
        line(&format!("{full} loadc @0, loadc 9, create, exit")),
        "fault 25 0 126 126"
    );
    assert_eq!(
        line(&format!("{full} loadc -1, loadc 9, create, exit")),
        "fault 25 0 126 126"
    );
    let mut m = machine(&format!("{full} loadc @-1, loadc 9, create, exit"));
    m.run(128);
    assert_eq!((m.state, m.threads[0].result), (State::Running, Some(-1)));
}

#[test]
fn fault_26() {
    check(&[
        // FP over SP.
        ("pop, return", "fault 26 0 1 1"),
        ("return", "halted 1 0"),
        // Cell FP - 1 is -1, or 2 to FP - 1. At -1 cell FP isn't looked at.
        ("loadc -2, storer -1, return", "fault 26 0 2 2"),
        ("loadc 0, storer -1, return", "fault 26 0 2 2"),
        ("loadc 1, storer -1, return", "fault 26 0 2 2"),
        ("loadc 2, storer -1, return", "fault 26 0 2 2"),
        (
            "loadc -1, storer -1, loadc 77, storer 0, return",
            "halted 5 0",
        ),
        ("loadc 5, mark, loadc 5, call, exit, return", "halted 6 5"),
        // In a frame at FP 5: 4 goes, 5 doesn't, 1 doesn't.
        (
            "loadc 5, mark, loadc 5, call, exit, loadc 4, storer -1, return",
            "halted 8 5",
        ),
        (
            "loadc 5, mark, loadc 5, call, exit, loadc 5, storer -1, return",
            "fault 26 0 7 6",
        ),
        (
            "loadc 5, mark, loadc 5, call, exit, loadc 1, storer -1, return",
            "fault 26 0 7 6",
        ),
        (
            "loadc 5, mark, loadc 5, call, exit, loadc -1, storer -1, return",
            "halted 7 5",
        ),
        // Cell FP is 0 to n - 1.
        (
            "loadc 5, mark, loadc 5, call, exit, loadc @-1, storer 0, return, halt",
            "halted 8 -",
        ),
        (
            "loadc 5, mark, loadc 5, call, exit, loadc @0, storer 0, return, halt",
            "fault 26 0 7 6",
        ),
        (
            "loadc 5, mark, loadc 5, call, exit, loadc -1, storer 0, return, halt",
            "fault 26 0 7 6",
        ),
        // After the call the result is in the argument's place; FP may be over SP by one.
        (
            "loadc 5, mark, loadc 5, call, exit, loadc 9, storer -2, return",
            "halted 8 9",
        ),
    ]);
}

/// How many threads, mutexes, conditions and semaphores.
type Counts = (usize, usize, usize, usize);

/// Each kind is once the fewest, twice in the middle and once the most, so that a number looked for
/// in another table shows; then all tables are full.
const MADE: [Counts; 5] = [
    (1, 2, 3, 4),
    (2, 3, 4, 1),
    (3, 4, 1, 2),
    (4, 1, 2, 3),
    (32, 64, 64, 32),
];

/// The start of a card that makes so many, thread 0 among them. The other threads do the card's
/// last instruction once they run. The semaphores start at 1.
fn made((threads, mutexes, conditions, semaphores): Counts) -> String {
    let threads = "loadc @-1, loadc 0, create, pop, ".repeat(threads - 1);
    let mutexes = "newmutex, pop, ".repeat(mutexes);
    let conditions = "newcond, pop, ".repeat(conditions);
    let semaphores = "loadc 1, newsema, pop, ".repeat(semaphores);
    threads + &mutexes + &conditions + &semaphores
}

/// What pushes a number that none of so many has: one too few, one too many, and the two furthest.
fn none_of(made: usize) -> [String; 4] {
    ["loadc -1", &format!("loadc {made}"), MIN, MAX].map(String::from)
}

/// How many instructions a text has. Where nobody else runs and nothing jumps, this is also the PC
/// behind it and the steps to there.
fn length(text: &str) -> u64 {
    (image(text).len() as u64 - 9) / 4
}

/// The card goes straight to `op`, which faults, and nothing but the state is another than before.
fn faults(before: &str, op: &str, number: u8) {
    let text = format!("{before}, {op}, return");
    let pc = length(before);
    assert_eq!(line(&text), format!("fault {number} 0 {pc} {pc}"), "{text}");
    let mut m = machine(&text);
    assert_eq!(m.run(pc), pc, "{text}");
    let mut same = m.clone();
    assert!(!m.step(), "{text}");
    (same.state, same.fault) = (State::Faulted, number);
    assert_eq!(format!("{m:?}"), format!("{same:?}"), "{text}");
}

/// The card goes on behind its instructions and halts there. The threads beside thread 0 don't run.
fn goes_on(text: &str) {
    let steps = length(text) + 1;
    let text = format!("{text}, halt, return");
    assert_eq!(line(&text), format!("halted {steps} -"), "{text}");
}

#[test]
fn fault_27() {
    for counts @ (threads, mutexes, conditions, _) in MADE {
        let start = made(counts);
        let condition = format!("loadc {}", conditions - 1);
        for bad in none_of(mutexes) {
            faults(&format!("{start} {bad}"), "lock", 27);
            faults(&format!("{start} {bad}"), "unlock", 27);
            faults(&format!("{start} {bad}, {condition}"), "wait", 27);
        }
        let last = format!("loadc {}", mutexes - 1);
        let locked = format!("{start} {last}, lock");
        goes_on(&locked);
        goes_on(&format!("{locked}, {last}, unlock"));
        // Each of the other threads ends, and thread 0 still waits.
        let waiting = format!("{locked}, {last}, {condition}, wait");
        let steps = length(&waiting) + threads as u64 - 1;
        let text = format!("{waiting}, return");
        assert_eq!(line(&text), format!("stuck {steps}"), "{text}");
    }
    // None is made: each number is bad.
    for number in ["loadc -1", "loadc 0", "loadc 1", MIN, MAX] {
        faults(number, "lock", 27);
        faults(number, "unlock", 27);
        faults(&format!("{number}, newcond"), "wait", 27);
    }
}

#[test]
fn fault_32() {
    for counts @ (_, mutexes, conditions, _) in MADE {
        let start = made(counts);
        let mutex = format!("loadc {}", mutexes - 1);
        for bad in none_of(conditions) {
            faults(&format!("{start} {bad}"), "signal", 32);
            faults(&format!("{start} {bad}"), "broadcast", 32);
            let locked = format!("{start} {mutex}, lock");
            faults(&format!("{locked}, {mutex}, {bad}"), "wait", 32);
        }
        // The last one made is good, also for wait: `fault_27` has that.
        let last = format!("loadc {}", conditions - 1);
        goes_on(&format!("{start} {last}, signal"));
        goes_on(&format!("{start} {last}, broadcast"));
    }
    for number in ["loadc -1", "loadc 0", "loadc 1", MIN, MAX] {
        faults(number, "signal", 32);
        faults(number, "broadcast", 32);
        faults(
            &format!("newmutex, dup, lock, loadc 0, {number}"),
            "wait",
            32,
        );
    }
}

#[test]
fn fault_33() {
    for counts @ (threads, ..) in MADE {
        let start = made(counts);
        for bad in none_of(threads) {
            faults(&format!("{start} {bad}"), "join", 33);
        }
        // The last one made is good. If it isn't thread 0 itself, all others run and end before
        // thread 0 goes on: they are ready in the order of their numbers.
        let others = threads as u64 - 1;
        let joined = format!("{start} loadc {others}, join");
        let steps = length(&joined);
        let expected = match others {
            0 => format!("stuck {steps}"),
            _ => format!("halted {} -", steps + others + 1),
        };
        assert_eq!(line(&format!("{joined}, halt, return")), expected);
    }
}

#[test]
fn finalize_looks_at_no_number() {
    // Good, bad, of a thread that has ended or hasn't: it is carried out, and 33 and 29 aren't given.
    for counts @ (threads, ..) in MADE {
        let start = made(counts);
        let good = [0, threads - 1].map(|number| format!("loadc {number}"));
        for number in none_of(threads).into_iter().chain(good) {
            goes_on(&format!("{start} {number}, finalize"));
            goes_on(&format!("{start} {number}, finalize, finalize"));
        }
    }
    // Nothing but PC is another than before.
    for before in ["loadc 7", MIN, "alloc 125", "pop, pop"] {
        let mut m = machine(&format!("{before}, finalize, halt"));
        m.run(length(before));
        let mut same = m.clone();
        assert!(m.step());
        same.threads[0].pc += 1;
        assert_eq!(format!("{m:?}"), format!("{same:?}"), "{before}");
    }
    // It needs its cell.
    faults("3*pop", "finalize", 21);
    faults("loadc 0, 4*pop", "finalize", 21);
}

#[test]
fn fault_34() {
    for counts @ (threads, _, _, semaphores) in MADE {
        let start = made(counts);
        for bad in none_of(semaphores) {
            faults(&format!("{start} {bad}"), "up", 34);
            faults(&format!("{start} {bad}"), "down", 34);
        }
        // The last one made is good.
        let last = format!("loadc {}", semaphores - 1);
        goes_on(&format!("{start} {last}, up"));
        goes_on(&format!("{start} {last}, down"));
        // A second down waits: each of the other threads ends, and thread 0 still waits.
        let waiting = format!("{start} {last}, down, {last}, down");
        let steps = length(&waiting) + threads as u64 - 1;
        let text = format!("{waiting}, return");
        assert_eq!(line(&text), format!("stuck {steps}"), "{text}");
    }
    // None is made: each number is bad.
    for number in ["loadc -1", "loadc 0", "loadc 1", MIN, MAX] {
        faults(number, "up", 34);
        faults(number, "down", 34);
    }
    // 34 before 24: a semaphore that isn't there has no count.
    faults(&format!("{MAX}, newsema, loadc 1"), "up", 34);
}

#[test]
fn a_number_that_was_not_given_is_bad() {
    // What create, newmutex, newcond and newsema give when there is no more room names nothing.
    let full = made((32, 64, 64, 32));
    faults(&format!("{full} newmutex"), "lock", 27);
    faults(&format!("{full} newmutex"), "unlock", 27);
    faults(&format!("{full} newcond"), "signal", 32);
    faults(&format!("{full} newcond"), "broadcast", 32);
    faults(&format!("{full} loadc 0, loadc 0, create"), "join", 33);
    faults(&format!("{full} newmutex, loadc 63"), "wait", 27);
    faults(&format!("{full} loadc 63, newcond"), "wait", 32);
    faults(&format!("{full} newmutex, newcond"), "wait", 32);
    faults(&format!("{full} loadc 1, newsema"), "up", 34);
    faults(&format!("{full} loadc 1, newsema"), "down", 34);
    // A thread that has ended is still named by its number.
    check(&[
        (
            "loadc 6, loadc 7, create, yield, join, exit, return",
            "halted 7 7",
        ),
        (
            "loadc 7, loadc 7, create, yield, join, finalize, exit, return",
            "halted 8 7",
        ),
    ]);
}

#[test]
fn another_thread_than_0_has_a_bad_number() {
    check(&[
        (
            "loadc 4, loadc 0, create, yield, loadc 0, lock",
            "fault 27 1 5 5",
        ),
        (
            "loadc 4, loadc 0, create, yield, loadc 0, signal",
            "fault 32 1 5 5",
        ),
        (
            "loadc 4, loadc 0, create, yield, loadc 0, up",
            "fault 34 1 5 5",
        ),
        (
            "loadc 4, loadc 0, create, yield, loadc 0, down",
            "fault 34 1 5 5",
        ),
        // Threads 0 and 1 are there, 2 isn't.
        (
            "loadc 4, loadc 0, create, yield, loadc 2, join",
            "fault 33 1 5 5",
        ),
        // Finalize takes 2 as it takes any number, and the thread falls off the card.
        (
            "loadc 4, loadc 0, create, yield, loadc 2, finalize",
            "fault 20 1 6 6",
        ),
    ]);
}

#[test]
fn wait_looks_at_the_condition_then_the_mutex_then_the_owner() {
    let both = made((1, 2, 3, 4));
    let owning = format!("{both} loadc 1, lock, ");
    for condition in none_of(3) {
        // 32 before 27, and before 28: mutex 1 isn't owned, or is.
        for mutex in none_of(2) {
            faults(&format!("{both} {mutex}, {condition}"), "wait", 32);
            faults(&format!("{owning} {mutex}, {condition}"), "wait", 32);
        }
        faults(&format!("{both} loadc 1, {condition}"), "wait", 32);
        faults(&format!("{owning} loadc 0, {condition}"), "wait", 32);
    }
    // 27 before 28: a mutex that isn't there has no owner.
    for mutex in none_of(2) {
        faults(&format!("{both} {mutex}, loadc 2"), "wait", 27);
        faults(&format!("{owning} {mutex}, loadc 2"), "wait", 27);
    }
    faults(&format!("{both} loadc 1, loadc 2"), "wait", 28);
    faults(&format!("{owning} loadc 0, loadc 2"), "wait", 28);
    // Top is the condition, below it the mutex: 1 is good for one of the two only.
    let (one, two) = (made((1, 1, 2, 3)), made((1, 2, 1, 3)));
    faults(&format!("{one} loadc 1, loadc 0"), "wait", 27);
    faults(&format!("{one} loadc 0, loadc 1"), "wait", 28);
    faults(&format!("{two} loadc 1, loadc 0"), "wait", 28);
    faults(&format!("{two} loadc 0, loadc 1"), "wait", 32);
}

#[test]
fn fault_21_comes_before_a_bad_number() {
    // All are made and thread 0 owns what it could wait with, or nothing is made.
    let owning = made((2, 2, 2, 2)) + "loadc 0, lock, loadc 1, lock, ";
    for start in ["", &owning] {
        for op in [
            "join",
            "finalize",
            "lock",
            "unlock",
            "signal",
            "broadcast",
            "wait",
            "up",
            "down",
            "newsema",
        ] {
            faults(&format!("{start} 3*pop"), op, 21);
        }
        for number in ["loadc -1", "loadc 0", "loadc 1", "loadc 2", MIN, MAX] {
            faults(&format!("{start} 3*pop, {number}"), "wait", 21);
        }
    }
}

#[test]
fn fault_28() {
    check(&[
        ("newmutex, dup, lock, loadc 0, unlock, halt", "halted 6 -"),
        ("newmutex, unlock", "fault 28 0 1 1"),
        // Thread 0 locks, thread 1 unlocks, or waits.
        (
            "newmutex, dup, lock, loadc 7, loadc 0, create, yield, loadc 0, unlock",
            "fault 28 1 8 8",
        ),
        (
            "newmutex, dup, lock, newcond, loadc 8, loadc 0, create, yield, loadc 0, loadc 0, wait",
            "fault 28 1 10 10",
        ),
        // Unlocked twice.
        (
            "newmutex, dup, lock, loadc 0, unlock, loadc 0, unlock",
            "fault 28 0 6 6",
        ),
    ]);
}

#[test]
fn fault_29_is_not_given() {
    // The thread hasn't ended: finalize leaves its number, whoever it is.
    check(&[
        ("loadc 0, finalize, exit", "halted 3 0"),
        (
            "loadc 5, loadc 7, create, finalize, exit, return",
            "halted 6 1",
        ),
        (
            "loadc 6, loadc 7, create, join, finalize, exit, return",
            "halted 7 7",
        ),
    ]);
}

#[test]
fn fault_30() {
    check(&[
        ("loadc 1, new, exit", "halted 3 1"),
        ("loadc 0, new", "fault 30 0 1 1"),
        ("loadc -1, new", "fault 30 0 1 1"),
    ]);
}

#[test]
fn fault_30_by_newsema() {
    // A starting count of 0 is good, one below isn't; with room and without.
    for made in [0, 1, 31, 32] {
        let start = "loadc 1, newsema, pop, ".repeat(made);
        for negative in ["loadc -1", "loadc -2", "loadc -8388608", MIN] {
            faults(&format!("{start} {negative}"), "newsema", 30);
        }
        let number = if made < 32 { made as i32 } else { -1 };
        for count in ["loadc 0", "loadc 1", "loadc 8388607", MAX] {
            let text = format!("{start} {count}, newsema, exit");
            let steps = length(&text);
            assert_eq!(line(&text), format!("halted {steps} {number}"), "{text}");
        }
    }
    // The -1 that newsema gives is no starting count.
    let full = "loadc 1, newsema, pop, ".repeat(32);
    faults(&format!("{full} loadc 1, newsema"), "newsema", 30);
}

#[test]
fn fault_31() {
    // Of 64 mutexes the first, one in the middle or the last is owned, or was.
    let made = "newmutex, pop, ".repeat(64);
    for (end, result) in [("exit", -1), ("return", 0)] {
        for m in [0, 31, 63] {
            let owning = format!("{made} loadc {m}, lock");
            let freed = format!("{owning}, loadc {m}, unlock");
            let again = format!("{freed}, loadc {m}, lock");
            for (text, expected) in [
                (format!("{owning}, {end}"), "fault 31 0 130 130".into()),
                (format!("{freed}, {end}"), format!("halted 133 {result}")),
                (format!("{again}, {end}"), "fault 31 0 134 134".into()),
            ] {
                assert_eq!(line(&text), expected, "{end}, mutex {m}");
            }
        }
        // Both ends are owned and one is given back.
        for m in [0, 63] {
            let text = format!("{made} loadc 0, lock, loadc 63, lock, loadc {m}, unlock, {end}");
            assert_eq!(line(&text), "fault 31 0 134 134", "{end}, mutex {m}");
        }
    }
    // Halt doesn't end the thread.
    check(&[("newmutex, lock, halt", "halted 3 -")]);
}

#[test]
fn fault_31_comes_after_21_and_26() {
    check(&[
        ("newmutex, lock, 3*pop, exit", "fault 21 0 5 5"),
        ("newmutex, lock, 2*pop, exit", "fault 31 0 4 4"),
        // FP over SP, and each wrong number in cell FP - 1.
        ("newmutex, lock, 3*pop, return", "fault 26 0 5 5"),
        ("newmutex, lock, pop, return", "fault 26 0 3 3"),
        (
            "newmutex, lock, loadc -2, storer -1, return",
            "fault 26 0 4 4",
        ),
        (
            "newmutex, lock, loadc 0, storer -1, return",
            "fault 26 0 4 4",
        ),
        (
            "newmutex, lock, loadc 1, storer -1, return",
            "fault 26 0 4 4",
        ),
        (
            "newmutex, lock, loadc 2, storer -1, return",
            "fault 26 0 4 4",
        ),
        // At -1 cell FP isn't looked at.
        ("newmutex, lock, return", "fault 31 0 2 2"),
        (
            "newmutex, lock, loadc 77, storer 0, return",
            "fault 31 0 4 4",
        ),
        (
            "newmutex, lock, loadc -2, storer 0, return",
            "fault 31 0 4 4",
        ),
    ]);
}

#[test]
fn fault_31_and_calls() {
    // At 6 the caller goes on, at 7 the function starts, with FP 5; the mutex is owned all along.
    let called = "newmutex, lock, loadc 5, mark, loadc 7, call";
    let rows = [
        // A return to the caller isn't concerned.
        (format!("{called}, halt, return"), "halted 8 -"),
        (format!("{called}, exit, return"), "fault 31 0 6 7"),
        (format!("{called}, return, return"), "fault 31 0 6 7"),
        (
            format!("{called}, jump 8, return, loadc 0, unlock, exit"),
            "halted 11 5",
        ),
        // The function ends the thread: by exit, or by return at -1.
        (format!("{called}, halt, exit"), "fault 31 0 7 6"),
        (
            format!("{called}, halt, loadc -1, storer -1, return"),
            "fault 31 0 9 8",
        ),
        // With a frame that is wrong it is 26, also where the way to the caller is.
        (
            format!("{called}, halt, loadc 5, storer -1, return"),
            "fault 26 0 9 8",
        ),
        (
            format!("{called}, halt, loadc @0, storer 0, return"),
            "fault 26 0 9 8",
        ),
        (
            format!("{called}, halt, loadc @-1, storer 0, return, halt"),
            "halted 10 -",
        ),
    ];
    for (text, expected) in rows {
        assert_eq!(line(&text), expected, "{text}");
    }
}

#[test]
fn a_fault_changes_nothing_but_the_state() {
    let mut m = machine("newmutex, dup, lock, loadc 5, loadc 0, lock, jump 0");
    m.run(3);
    let mut faulty = machine("newmutex, dup, lock, loadc 1, unlock");
    assert_eq!(faulty.run(9), 4);
    assert_eq!((faulty.state, faulty.fault), (State::Faulted, 27));
    assert_eq!((faulty.threads[0].pc, faulty.threads[0].cells), (4, 5));
    assert_eq!(faulty.mutexes[0].owner, Some(0));
    // A step on a machine that doesn't run changes nothing and counts nothing.
    let before = format!("{faulty:?}");
    assert!(!faulty.step());
    assert_eq!(faulty.run(10), 0);
    assert_eq!(format!("{faulty:?}"), before);
    // Runs of a and b equal one of a + b.
    assert_eq!(m.run(2) + m.run(4), 3);
    assert_eq!(m.state, State::Stuck);
}
