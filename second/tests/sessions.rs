//! The paper's sessions.

mod common;

use common::{check, image, image_with, line, machine};
use second::machine::{read, Machine, Op, State};
use second::text::runner_line;

const P2: [u8; 17] = [0, 0, 0, 0x0d, 1, 0, 1, 0, 2, 1, 0, 0, 7, 0x1c, 0, 0, 0];

#[test]
fn p1_to_p5() {
    assert_eq!(runner_line(&[], None), "refused 1 0");
    assert_eq!(runner_line(&P2, None), "halted 2 7");
    assert_eq!(image("loadc 7, exit"), P2);
    let mut p3 = P2;
    p3[4] = 2;
    assert_eq!(runner_line(&p3, None), "refused 2 4");
    assert_eq!(line("loadc 7, jump 2"), "refused 5 13");
    let mut p5 = P2;
    p5[9] = 41;
    assert_eq!(runner_line(&p5, None), "refused 4 9");
}

#[test]
fn p6_to_p13() {
    check(&[
        ("newmutex, dup, lock, lock", "stuck 4"),
        ("loadc 0, lock", "fault 27 0 1 1"),
        ("newmutex, unlock", "fault 28 0 1 1"),
        ("loadc 0, join", "stuck 2"),
        ("loadc -1, load", "fault 23 0 1 1"),
        ("loadc 8388607, dup, mul", "fault 24 0 2 2"),
        ("4*pop", "fault 21 0 3 3"),
        ("return", "halted 1 0"),
    ]);
}

#[test]
fn p14() {
    let mut m = machine("loadc 3, loadc 5, create, return");
    assert_eq!(m.run(100), 5);
    assert_eq!(m.state, State::Halted);
    assert_eq!(m.threads[0].result, Some(0));
    assert_eq!(m.threads[1].result, Some(5));
    assert_eq!(m.running, None);
}

#[test]
fn thirty_two_and_thirty_three_threads() {
    // Thread 0 and 31 more; the next create gives -1.
    let create = |times: usize| {
        let one = "loadc 0, loadc 0, create, pop, ".repeat(times);
        format!("{one} loadc 0, loadc 0, create, exit")
    };
    assert_eq!(machine_after(&create(30)).threads[0].result, Some(31));
    assert_eq!(machine_after(&create(31)).threads[0].result, Some(-1));
    assert_eq!(machine_after(&create(31)).threads.len(), 32);
    // Of the 32 the last is numbered 31. It ends with 7, behind the 30 that were made before it.
    let full = "loadc @-1, loadc 7, create, pop, ".repeat(31);
    check(&[
        (
            &format!("{full} loadc 31, join, exit, return"),
            "halted 158 7",
        ),
        (
            &format!("{full} loadc 32, join, exit, return"),
            "fault 33 0 125 125",
        ),
    ]);
}

/// Runs until thread 0 has ended.
fn machine_after(text: &str) -> Machine {
    let mut m = machine(text);
    while m.threads[0].result.is_none() && m.step() {}
    m
}

#[test]
fn sixty_four_and_sixty_five_mutexes_and_conditions() {
    for (make, used, bad) in [("newmutex", "lock", 27), ("newcond", "signal", 32)] {
        let made = |times: usize| format!("{} ", format!("{make}, pop, ").repeat(times));
        check(&[
            (&format!("{} {make}, exit", made(63)), "halted 128 63"),
            (&format!("{} {make}, exit", made(64)), "halted 130 -1"),
            (
                &format!("{} loadc 63, {used}", made(64)),
                "fault 20 0 130 130",
            ),
            (
                &format!("{} loadc 64, {used}", made(64)),
                &format!("fault {bad} 0 129 129"),
            ),
            (
                &format!("{} {make}, {used}", made(64)),
                &format!("fault {bad} 0 129 129"),
            ),
        ]);
    }
}

#[test]
fn thirty_two_and_thirty_three_semaphores() {
    let made = |times: usize| "loadc 1, newsema, pop, ".repeat(times);
    for (text, expected) in [
        (
            format!("{} loadc 1, newsema, exit", made(31)),
            "halted 96 31",
        ),
        (
            format!("{} loadc 1, newsema, exit", made(32)),
            "halted 99 -1",
        ),
        // It stays so.
        (
            format!("{} loadc 0, newsema, exit", made(34)),
            "halted 105 -1",
        ),
        (format!("{} loadc 31, down", made(32)), "fault 20 0 98 98"),
        (format!("{} loadc 32, down", made(32)), "fault 34 0 97 97"),
        (
            format!("{} loadc 1, newsema, down", made(32)),
            "fault 34 0 98 98",
        ),
        (
            format!("{} loadc 1, newsema, up", made(32)),
            "fault 34 0 98 98",
        ),
    ] {
        assert_eq!(line(&text), expected, "{text}");
    }
    // The other kinds have their own numbers and their own room.
    let full = made(32);
    let rows = [
        (format!("{full} newmutex, exit"), "halted 98 0"),
        (format!("{full} newcond, exit"), "halted 98 0"),
        ("64*newmutex, loadc 1, newsema, exit".into(), "halted 67 0"),
    ];
    for (text, expected) in rows {
        assert_eq!(line(&text), expected, "{text}");
    }
}

#[test]
fn jump_4095_in_a_full_card() {
    assert_eq!(line("jump 4095, 4094*pop, halt"), "halted 2 -");
    assert_eq!(line("jump 4095, 4095*yield"), "fault 20 0 4096 2");
    assert_eq!(image("jump 4095, 4094*pop, halt").len(), 16393);
}

#[test]
fn new_of_the_cells_left_and_one_more() {
    let with = |g, text: &str| runner_line(&image_with(g, text), None);
    assert_eq!(with(1, "loadc 4095, new, exit"), "halted 3 1");
    assert_eq!(with(1, "loadc 4096, new, exit"), "halted 3 0");
    assert_eq!(with(4096, "loadc 1, new, exit"), "halted 3 0");
    assert_eq!(with(4095, "loadc 1, new, exit"), "halted 3 4095");
    // One that didn't fit takes nothing; one that fit leaves what is behind it.
    assert_eq!(
        with(4000, "loadc 97, new, loadc 96, new, exit"),
        "halted 5 4000"
    );
    assert_eq!(
        with(4000, "loadc 95, new, loadc 1, new, exit"),
        "halted 5 4095"
    );
    assert_eq!(
        with(4000, "loadc 96, new, loadc 1, new, exit"),
        "halted 5 0"
    );
}

#[test]
fn the_reader_on_both_sides() {
    let refused = |image: &[u8]| read(image).err().map(|r| (r.number, r.place));
    let changed = |at: usize, bytes: &[u8]| {
        let mut image = P2.to_vec();
        image[at..at + bytes.len()].copy_from_slice(bytes);
        image
    };
    // 1
    assert_eq!(refused(&[0, 0, 0]), Some((1, 0)));
    assert_eq!(refused(&[0, 0, 0, 0]), Some((1, 0)));
    assert_eq!(refused(&[0, 0, 0, 4, 1, 0, 1, 0]), Some((1, 0)));
    assert_eq!(refused(&[0, 0, 0, 5, 1, 0, 1, 0, 0]), Some((3, 5)));
    assert_eq!(refused(&changed(3, &[12])), Some((1, 0)));
    assert_eq!(refused(&changed(3, &[14])), Some((1, 0)));
    assert_eq!(refused(&changed(2, &[1])), Some((1, 0)));
    assert_eq!(refused(&changed(1, &[1])), Some((1, 0)));
    assert_eq!(refused(&changed(0, &[1])), Some((1, 0)));
    assert_eq!(refused(&P2[..16]), Some((1, 0)));
    // 2 before 3, 1 before 2
    assert_eq!(refused(&changed(4, &[0, 0, 0])), Some((2, 4)));
    assert_eq!(refused(&changed(3, &[14, 0])), Some((1, 0)));
    // 3
    assert_eq!(refused(&changed(5, &[0, 0])), Some((3, 5)));
    assert_eq!(refused(&changed(5, &[0x10, 0])), None);
    assert_eq!(refused(&changed(5, &[0x10, 1])), Some((3, 5)));
    assert_eq!(refused(&changed(7, &[0, 1])), Some((3, 5)));
    assert_eq!(refused(&changed(7, &[0, 3])), Some((3, 5)));
    let mut long = image("4096*halt");
    assert_eq!(refused(&long), None);
    long.extend([0; 4]);
    long[..4].copy_from_slice(&(5 + 4 * 4097u32).to_be_bytes());
    long[7..9].copy_from_slice(&[0x10, 1]);
    assert_eq!(refused(&long), Some((3, 5)));
    // 4 before 5, and the first bad instruction
    assert_eq!(refused(&changed(13, &[41, 0, 0, 0])), Some((4, 13)));
    assert_eq!(refused(&changed(13, &[41, 0, 0, 1])), Some((4, 13)));
    for opcode in 37..=40 {
        assert_eq!(refused(&changed(13, &[opcode, 0, 0, 1])), Some((5, 13)));
        assert_eq!(refused(&changed(13, &[opcode, 0, 0, 0])), None);
    }
    assert_eq!(refused(&changed(9, &[0, 0, 0, 1, 41])), Some((5, 9)));
    assert_eq!(refused(&changed(9, &[255, 0, 0, 1, 41])), Some((4, 9)));
}

#[test]
fn opcodes_by_the_papers() {
    let papers = "0 halt, 1 loadc k, 2 load, 3 store, 4 loadr k, 5 storer k, 6 alloc k, 7 pop, \
                 8 dup, 9 add, 10 sub, 11 mul, 12 div, 13 mod, 14 neg, 15 eq, 16 neq, 17 less, \
                 18 leq, 19 not, 20 jump a, 21 jumpz a, 22 mark, 23 call, 24 return, 25 new, \
                 26 create, 27 yield, 28 exit, 29 join, 30 finalize, 31 newmutex, 32 lock, \
                 33 unlock, 34 newcond, 35 wait, 36 signal, 37 broadcast, 38 newsema, \
                 39 up, 40 down";
    let rows: Vec<&str> = papers.split(", ").collect();
    assert_eq!(rows.len(), Op::ALL.len());
    for (op, row) in Op::ALL.into_iter().zip(rows) {
        let mut words = row.split(' ');
        assert_eq!(words.next(), Some((op as u8).to_string().as_str()));
        assert_eq!(words.next(), Some(op.name().as_str()));
    }
}

#[test]
fn operands_on_both_sides() {
    for op in Op::ALL {
        let (low, high) = match op {
            Op::Loadc => (-8388608, 8388607),
            Op::Loadr | Op::Storer => (-128, 127),
            Op::Alloc => (0, 127),
            Op::Jump | Op::Jumpz => (0, 1),
            _ => (0, 0),
        };
        let good = |k: i32| read(&image(&format!("halt, {} {k}", op.name()))).is_ok();
        assert!(good(low) && good(high), "{op:?}");
        if op != Op::Loadc {
            assert!(!good(low - 1) && !good(high + 1), "{op:?}");
            assert!(!good(-8388608) && !good(8388607), "{op:?}");
        }
    }
}

#[test]
fn the_runner_looks_at_16394_bytes() {
    // A full card and more: L is wrong for what is looked at.
    let mut long = image("4096*halt");
    assert_eq!(runner_line(&long, None), "halted 1 -");
    long.push(0);
    assert_eq!(runner_line(&long, None), "refused 1 0");
    long.extend([0; 5000]);
    assert_eq!(runner_line(&long, None), "refused 1 0");
    // L right for the whole is wrong for what is looked at, L right for that is not.
    let all = long.len() as u32 - 4;
    long[..4].copy_from_slice(&all.to_be_bytes());
    assert_eq!(runner_line(&long, None), "refused 1 0");
    long[..4].copy_from_slice(&16390u32.to_be_bytes());
    assert_eq!(runner_line(&long, None), "refused 3 5");
    long[4] = 9;
    assert_eq!(runner_line(&long, None), "refused 2 4");
}

#[test]
fn a_million_steps() {
    check(&[
        ("jump 0", "running 1000000"),
        ("yield, jump 0", "running 1000000"),
        ("halt", "halted 1 -"),
        ("loadc 3, loadc 0, create, halt", "halted 4 -"),
    ]);
}
