//! The generator: the same cards from the same seed, good ones where they should be good, all
//! instructions and faults reached, and each of the machine's errors found.

use second::cards::{card, Kind};
use second::machine::{read, Machine, Op, Semaphore, State, SEMAPHORES};
use second::selftest::selftest;
use second::text::{read_frame, runner_line, write_frame};
use std::collections::{BTreeMap, BTreeSet};

const SEED: u64 = 1;
const COUNT: u64 = 3000;

#[test]
fn the_same_again_and_good_unless_damaged() {
    for index in 0..COUNT {
        let (kind, image) = card(SEED, index);
        assert_eq!(card(SEED, index), (kind, image.clone()));
        assert!(
            kind == Kind::Damaged || read(&image).is_ok(),
            "card {index}"
        );
    }
    assert_ne!(card(SEED, 0), card(SEED + 1, 0));
}

#[test]
fn all_instructions_and_faults_are_reached() {
    let mut carried_out = [false; Op::ALL.len()];
    let mut faults = [false; 35];
    let mut refusals = [false; 6];
    for index in 0..COUNT {
        let image = card(SEED, index).1;
        let card = match read(&image) {
            Ok(card) => card,
            Err(refusal) => {
                refusals[refusal.number as usize] = true;
                continue;
            }
        };
        let mut machine = Machine::new(&card);
        for _ in 0..2000 {
            let pc = machine.threads[machine.last].pc;
            if !machine.step() {
                break;
            }
            carried_out[card.code[pc].op as usize] = true;
        }
        if machine.state == State::Faulted {
            faults[machine.fault as usize] = true;
        }
    }
    assert!(
        carried_out.iter().all(|&reached| reached),
        "{carried_out:?}"
    );
    // All but 29, which left the table.
    for (number, &reached) in faults.iter().enumerate().skip(20) {
        assert_eq!(reached, number != 29, "fault {number}");
    }
    assert!(refusals[1..].iter().all(|&reached| reached), "{refusals:?}");
}

/// Makes a step. If it is an exit or return that ends the thread, or that a thread with a mutex
/// makes: what it comes to.
fn ending(machine: &mut Machine) -> Option<String> {
    let t = machine.last;
    let next = machine.code.get(machine.threads[t].pc).map(|next| next.op);
    let owned = machine.mutexes.iter().position(|m| m.owner == Some(t));
    let joined = !machine.threads[t].joiners.is_empty();
    machine.step();
    let name = next
        .filter(|op| [Op::Exit, Op::Return].contains(op))?
        .name();
    let ended = machine.threads[t].result.is_some();
    match (owned, machine.fault) {
        (Some(m), 31) => {
            let which = if m == 0 { "mutex 0" } else { "a later one" };
            let waited_for = if joined {
                "waited for"
            } else {
                "not waited for"
            };
            Some(format!("{name}: 31, owns {which}, {waited_for}"))
        }
        (Some(_), 0) => Some(format!("{name}: to its caller, owns one")),
        (Some(_), fault) => Some(format!("{name}: {fault}, owns one")),
        (None, _) if ended && machine.mutexes.iter().any(|m| m.owner.is_some()) => {
            Some(format!("{name}: ends, another thread owns one"))
        }
        (None, _) if ended => Some(format!("{name}: ends, nobody owns one")),
        _ => None,
    }
}

#[test]
fn threads_end_with_and_without_mutexes() {
    let mut counts = BTreeMap::new();
    for index in 0..COUNT {
        if let Ok(card) = read(&card(SEED, index).1) {
            let mut machine = Machine::new(&card);
            for _ in 0..2000 {
                if let Some(what) = ending(&mut machine) {
                    *counts.entry(what).or_insert(0) += 1;
                }
                if machine.state != State::Running {
                    break;
                }
            }
        }
    }
    let all = [
        "exit: 21, owns one",
        "exit: 31, owns a later one, not waited for",
        "exit: 31, owns a later one, waited for",
        "exit: 31, owns mutex 0, not waited for",
        "exit: 31, owns mutex 0, waited for",
        "exit: ends, another thread owns one",
        "exit: ends, nobody owns one",
        "return: 26, owns one",
        "return: 31, owns a later one, not waited for",
        "return: 31, owns a later one, waited for",
        "return: 31, owns mutex 0, not waited for",
        "return: 31, owns mutex 0, waited for",
        "return: ends, another thread owns one",
        "return: ends, nobody owns one",
        "return: to its caller, owns one",
    ];
    assert!(counts.keys().eq(all.iter()), "{counts:#?}");
    assert!(counts.values().all(|&count| count >= 3), "{counts:#?}");
}

/// Does a number name nothing, where so many are made?
fn is_bad(number: i32, made: usize) -> bool {
    number < 0 || number as usize >= made
}

/// Where a number stands, of so many made.
fn place(number: i32, made: usize) -> &'static str {
    match number {
        i32::MIN => "the least",
        i32::MAX => "the largest",
        -1 => "-1",
        _ if number as usize + 1 == made => "the last",
        _ if number as usize == made => "the number made",
        _ => "another",
    }
}

/// What numbers the next instruction names a thread, mutex, condition or semaphore by, if it does.
fn named(machine: &Machine) -> Vec<String> {
    let thread = &machine.threads[machine.last];
    let Some(next) = machine.code.get(thread.pc) else {
        return Vec::new();
    };
    let threads = machine.threads.len();
    let (mutexes, conditions) = (machine.mutexes.len(), machine.conditions.len());
    let semaphores = machine.semaphores.len();
    let whats = match (next.op, &thread.stack[..thread.cells]) {
        // Finalize looks at no number, whatever it is.
        (Op::Finalize, &[.., t]) => vec![format!("thread {}", place(t, threads))],
        (Op::Join, &[.., t]) => {
            // A look into the mutexes' table would find another answer.
            let only = match (is_bad(t, threads), is_bad(t, mutexes)) {
                (false, true) => "a thread's only",
                (true, false) => "a mutex's only",
                _ => "of both or none",
            };
            vec![format!("thread {}", place(t, threads)), only.into()]
        }
        (Op::Lock | Op::Unlock, &[.., m]) => vec![format!("mutex {}", place(m, mutexes))],
        (Op::Signal | Op::Broadcast, &[.., c]) => {
            vec![format!("condition {}", place(c, conditions))]
        }
        (Op::Up | Op::Down, &[.., s]) => {
            let only = match (is_bad(s, semaphores), is_bad(s, mutexes)) {
                (false, true) => "a semaphore's only",
                (true, false) => "a mutex's only",
                _ => "of both or none",
            };
            vec![format!("semaphore {}", place(s, semaphores)), only.into()]
        }
        (Op::Wait, &[.., m, c]) => {
            let both = is_bad(m, mutexes) && is_bad(c, conditions);
            vec![
                format!("mutex {}", place(m, mutexes)),
                format!("condition {}", place(c, conditions)),
                if both { "both bad" } else { "one good" }.into(),
            ]
        }
        _ => Vec::new(),
    };
    let name = next.op.name();
    whats.iter().map(|what| format!("{name}: {what}")).collect()
}

#[test]
fn each_number_is_met_on_both_sides() {
    let mut met = BTreeSet::new();
    for index in 0..COUNT {
        if let Ok(card) = read(&card(SEED, index).1) {
            let mut machine = Machine::new(&card);
            for _ in 0..2000 {
                met.extend(named(&machine));
                if !machine.step() {
                    break;
                }
            }
        }
    }
    for place in [
        "-1",
        "the last",
        "the number made",
        "the least",
        "the largest",
    ] {
        for what in [
            "join: thread",
            "finalize: thread",
            "lock: mutex",
            "unlock: mutex",
            "wait: mutex",
            "wait: condition",
            "signal: condition",
            "broadcast: condition",
            "up: semaphore",
            "down: semaphore",
        ] {
            let what = format!("{what} {place}");
            assert!(met.contains(&what), "{what}");
        }
    }
    for what in [
        "join: a thread's only",
        "join: a mutex's only",
        "wait: both bad",
        "up: a semaphore's only",
        "up: a mutex's only",
        "down: a semaphore's only",
        "down: a mutex's only",
    ] {
        assert!(met.contains(what), "{what}");
    }
}

/// Makes a step. If it is newsema, up or down with a cell on the stack: what it comes to.
fn at_a_semaphore(machine: &mut Machine) -> Vec<&'static str> {
    let thread = &machine.threads[machine.last];
    let next = machine.code.get(thread.pc).map(|next| next.op);
    let top = thread.stack[..thread.cells].last().copied();
    let room = machine.semaphores.len() < SEMAPHORES;
    let others_ready = !machine.ready.is_empty();
    machine.step();
    let (Some(op), Some(top)) = (next, top) else {
        return Vec::new();
    };
    let count = || machine.semaphores[top as usize].count;
    let mut whats = Vec::new();
    match (op, machine.fault) {
        (Op::Newsema, 30) if room => whats.push("newsema: 30, room"),
        (Op::Newsema, 30) => whats.push("newsema: 30, no room"),
        (Op::Newsema, 0) if room => {
            whats.push(match top {
                0 => "newsema: starts at 0",
                1 => "newsema: starts at 1",
                i32::MAX => "newsema: starts at the largest count",
                _ => "newsema: starts at another count",
            });
            if machine.semaphores.len() == SEMAPHORES {
                whats.push("newsema: the last one");
            }
        }
        (Op::Newsema, 0) => whats.push("newsema: -1"),
        (Op::Up, 34) => whats.push("up: 34"),
        (Op::Up, 24) => whats.push("up: 24"),
        (Op::Up, 0) => {
            whats.push(match count() {
                i32::MAX => "up: to the largest count",
                1.. => "up: wakes nobody",
                0 => "up: wakes the only one",
                _ => "up: wakes the first of several",
            });
            if count() <= 0 && others_ready {
                whats.push("up: wakes one, others are ready");
            }
        }
        (Op::Down, 34) => whats.push("down: 34"),
        (Op::Down, 0) => {
            whats.push(match count() {
                1.. => "down: goes on",
                0 => "down: goes on, to 0",
                -1 => "down: waits alone",
                -31 => "down: waits, to -31",
                -32 => "down: waits, to -32",
                _ => "down: waits behind others",
            });
            if machine.state == State::Stuck {
                whats.push("down: stuck");
            }
        }
        _ => {}
    }
    whats
}

/// The number waiting for each semaphore is the larger of 0 and minus its count.
fn counts_are_right(machine: &Machine) -> bool {
    let waiting = |count: i64| (-count).max(0);
    let right = |s: &Semaphore| s.waiters.len() as i64 == waiting(s.count as i64);
    machine.semaphores.iter().all(right)
}

#[test]
fn semaphores_are_met_on_both_sides() {
    let mut counts = BTreeMap::new();
    for index in 0..COUNT {
        if let Ok(card) = read(&card(SEED, index).1) {
            let mut machine = Machine::new(&card);
            for _ in 0..2000 {
                for what in at_a_semaphore(&mut machine) {
                    *counts.entry(what).or_insert(0) += 1;
                }
                assert!(counts_are_right(&machine), "card {index}");
                if machine.state != State::Running {
                    break;
                }
            }
        }
    }
    let all = [
        "down: 34",
        "down: goes on",
        "down: goes on, to 0",
        "down: stuck",
        "down: waits alone",
        "down: waits behind others",
        "down: waits, to -31",
        "down: waits, to -32",
        "newsema: -1",
        "newsema: 30, no room",
        "newsema: 30, room",
        "newsema: starts at 0",
        "newsema: starts at 1",
        "newsema: starts at another count",
        "newsema: starts at the largest count",
        "newsema: the last one",
        "up: 24",
        "up: 34",
        "up: to the largest count",
        "up: wakes nobody",
        "up: wakes one, others are ready",
        "up: wakes the first of several",
        "up: wakes the only one",
    ];
    assert!(counts.keys().eq(all.iter()), "{counts:#?}");
    assert!(counts.values().all(|&count| count >= 3), "{counts:#?}");
}

#[test]
fn counts_are_starts_plus_ups_less_downs() {
    for index in 0..COUNT {
        let Ok(card) = read(&card(SEED, index).1) else {
            continue;
        };
        let mut machine = Machine::new(&card);
        let mut book: Vec<i64> = Vec::new();
        for _ in 0..2000 {
            let thread = &machine.threads[machine.last];
            let op = machine.code.get(thread.pc).map(|next| next.op);
            let top = thread.stack[..thread.cells].last().copied().unwrap_or(0);
            if !machine.step() {
                break;
            }
            match op {
                Some(Op::Newsema) if book.len() < SEMAPHORES => book.push(top as i64),
                Some(Op::Up) => book[top as usize] += 1,
                Some(Op::Down) => book[top as usize] -= 1,
                _ => {}
            }
            let counts = machine.semaphores.iter().map(|s| s.count as i64);
            assert!(counts.eq(book.iter().copied()), "card {index}");
        }
    }
}

/// A thread that waited for a semaphore ends, and so many or more go on then.
fn woken_ends(machine: &mut Machine, joiners: usize) -> bool {
    let mut waited = BTreeSet::new();
    for _ in 0..2000 {
        for semaphore in &machine.semaphores {
            waited.extend(semaphore.waiters.iter().copied());
        }
        let t = machine.last;
        let awaited = machine.threads[t].joiners.len();
        if !machine.step() {
            return false;
        }
        if machine.threads[t].result.is_some() && waited.contains(&t) && awaited >= joiners {
            return true;
        }
    }
    false
}

#[test]
fn a_woken_thread_ends_and_wakes_two() {
    let found = (0..COUNT)
        .filter_map(|index| read(&card(SEED, index).1).ok())
        .filter(|card| woken_ends(&mut Machine::new(card), 2));
    assert!(found.count() >= 10);
}

/// Makes a step. If it is a join, a finalize, or an exit or return that ends the thread or is refused
/// by 31: what it comes to. Who waits for an end has its number on top, until the end writes the
/// result there, and nothing else.
fn at_a_join(machine: &mut Machine) -> Vec<&'static str> {
    let t = machine.last;
    let before = machine.clone();
    let me = &before.threads[t];
    let Some(op) = before.code.get(me.pc).map(|next| next.op) else {
        machine.step();
        return Vec::new();
    };
    machine.step();
    let top = me.stack[..me.cells].last().copied();
    let all = &before.threads;
    let thread = |number: i32| all.get(usize::try_from(number).ok()?);
    let awaits = |t: usize| all.iter().any(|other| other.joiners.contains(&t));
    let mut whats = Vec::new();
    match (op, machine.fault, top) {
        (Op::Join, 21, _) => whats.push("join: 21"),
        (Op::Join, 33, _) => whats.push("join: 33"),
        (Op::Join, 0, Some(number)) => {
            let other = thread(number).expect("a thread");
            let late = other.result.is_some();
            whats.push(match (late, other.joiners.len()) {
                (true, _) => "join: late",
                (false, _) if number as usize == t => "join: waits for itself",
                (false, 0) => "join: waits, the first",
                (false, 1) => "join: waits, the second",
                (false, 29) => "join: waits, the 30th",
                (false, 30) => "join: waits, the 31st",
                _ => "join: waits behind others",
            });
            whats.push(match (late, me.cells) {
                (true, 1) => "join: late, one cell",
                (true, 2..=127) => "join: late, others on the stack",
                (true, _) => "join: late, 128 cells",
                (false, 1) => "join: waits, one cell",
                (false, 2..=127) => "join: waits, others on the stack",
                (false, _) => "join: waits, 128 cells",
            });
            if awaits(number as usize) && number as usize != t {
                whats.push("join: of one who waits for an end");
            }
            match before.code.get(me.pc + 1).map(|next| next.op) {
                Some(Op::Finalize) => whats.push("join: finalize follows"),
                _ => whats.push("join: no finalize follows"),
            }
        }
        (Op::Finalize, 21, _) => whats.push("finalize: 21"),
        (Op::Finalize, 0, Some(number)) => {
            whats.push(match thread(number) {
                None => "finalize: no thread's number",
                Some(other) if other.result.is_none() => "finalize: of a thread not ended",
                Some(_) => "finalize: of a thread that has ended",
            });
            // It changes nothing.
            assert_eq!(machine.threads[t].stack, me.stack);
        }
        (Op::Exit | Op::Return, 31, _) => {
            whats.push(match me.joiners.len() {
                0 => "end: refused, nobody waits",
                1 => "end: refused, one waits",
                _ => "end: refused, several wait",
            });
            for (now, then) in machine.threads.iter().zip(all) {
                assert_eq!(now.stack, then.stack);
            }
        }
        (Op::Exit | Op::Return, 0, _) => {
            if let Some(result) = machine.threads[t].result {
                whats.push(match me.joiners.len() {
                    0 => "end: nobody waits",
                    1 => "end: delivers to one",
                    2..=29 => "end: delivers to several",
                    _ => "end: delivers to 30 or 31",
                });
                if result == i32::MIN && !me.joiners.is_empty() {
                    whats.push("end: delivers the least number");
                }
                for &joiner in &me.joiners {
                    let (then, now) = (&before.threads[joiner], &machine.threads[joiner]);
                    let mut stack = then.stack;
                    stack[then.cells - 1] = result;
                    assert_eq!((now.cells, now.stack), (then.cells, stack));
                }
            }
        }
        _ => {}
    }
    for (other, thread) in machine.threads.iter().enumerate() {
        for &joiner in &thread.joiners {
            let waiting = &machine.threads[joiner];
            let top = waiting.stack[..waiting.cells].last();
            assert_eq!(top, Some(&(other as i32)), "{joiner} waits for {other}");
        }
    }
    whats
}

#[test]
fn results_are_delivered_in_all_ways() {
    let mut counts = BTreeMap::new();
    for index in 0..COUNT {
        if let Ok(card) = read(&card(SEED, index).1) {
            let mut machine = Machine::new(&card);
            for _ in 0..2000 {
                for what in at_a_join(&mut machine) {
                    *counts.entry(what).or_insert(0) += 1;
                }
                if machine.state != State::Running {
                    break;
                }
            }
        }
    }
    let all = [
        "end: delivers the least number",
        "end: delivers to 30 or 31",
        "end: delivers to one",
        "end: delivers to several",
        "end: nobody waits",
        "end: refused, nobody waits",
        "end: refused, one waits",
        "end: refused, several wait",
        "finalize: 21",
        "finalize: no thread's number",
        "finalize: of a thread not ended",
        "finalize: of a thread that has ended",
        "join: 21",
        "join: 33",
        "join: finalize follows",
        "join: late",
        "join: late, 128 cells",
        "join: late, one cell",
        "join: late, others on the stack",
        "join: no finalize follows",
        "join: of one who waits for an end",
        "join: waits behind others",
        "join: waits for itself",
        "join: waits, 128 cells",
        "join: waits, one cell",
        "join: waits, others on the stack",
        "join: waits, the 30th",
        "join: waits, the 31st",
        "join: waits, the first",
        "join: waits, the second",
    ];
    assert!(counts.keys().eq(all.iter()), "{counts:#?}");
    assert!(counts.values().all(|&count| count >= 3), "{counts:#?}");
}

#[test]
fn each_error_is_found() {
    let (report, found) = selftest(SEED, 300);
    assert!(found, "{report}");
}

#[test]
fn frames_come_back() {
    let images: Vec<Vec<u8>> = (0..50).map(|index| card(SEED, index).1).collect();
    let mut stream = Vec::new();
    for image in &images {
        write_frame(&mut stream, image).unwrap();
    }
    write_frame(&mut stream, &[]).unwrap();
    let mut input = &stream[..];
    for image in &images {
        assert_eq!(read_frame(&mut input).unwrap().as_ref(), Some(image));
    }
    assert_eq!(read_frame(&mut input).unwrap(), Some(Vec::new()));
    assert_eq!(read_frame(&mut input).unwrap(), None);
    // A stream that is cut off within a frame is an error, not an end.
    assert!(read_frame(&mut &stream[..3]).is_err());
    assert!(read_frame(&mut &stream[..20]).is_err());
    assert_eq!(runner_line(&[], None), "refused 1 0");
}
