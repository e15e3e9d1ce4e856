//! Random instructions, chosen so that they get somewhere: operands in range, small constants
//! where a number is needed, a stack that neither empties nor fills at once.

use super::asm::Code;
use super::random::Random;
use crate::machine::Op;

/// A soup of `n` instructions.
pub fn soup(r: &mut Random, n: usize) -> Code {
    let mut list = Vec::with_capacity(n + 8);
    // Roughly how many cells the stack has at this point.
    let mut height: i32 = 3;
    // Something to be named by small numbers.
    for _ in 0..r.range(0, 3) {
        list.push((Op::Newmutex, 0));
        list.push((Op::Newcond, 0));
        list.push((Op::Loadc, r.range(0, 2)));
        list.push((Op::Newsema, 0));
        height += 3;
    }
    while list.len() < n {
        if height < 2 || (height < 60 && r.percent(25)) {
            let (op, k) = match r.below(8) {
                0 => (Op::Dup, 0),
                1 => (Op::Loadr, r.range(-2, 2)),
                2 => (Op::Mark, 0),
                3 => (Op::Alloc, r.range(0, 3)),
                _ => (Op::Loadc, small(r)),
            };
            list.push((op, k));
            height += if op == Op::Alloc { k } else { 1 };
            continue;
        }
        let op = if height > 100 {
            Op::Pop
        } else {
            r.pick(&Op::ALL)
        };
        let here = list.len() as i32;
        match op {
            // These end a thread or the machine, so they come seldom.
            Op::Halt | Op::Exit | Op::Return if r.percent(90) => {}
            Op::Halt | Op::Exit | Op::Return | Op::Yield => list.push((op, 0)),
            Op::Loadc => {
                list.push((op, small(r)));
                height += 1;
            }
            Op::Loadr => {
                list.push((op, r.range(-3, 3)));
                height += 1;
            }
            Op::Storer => list.push((op, r.range(-2, 2))),
            Op::Alloc => {
                let k = r.range(0, 4);
                list.push((op, k));
                height += k;
            }
            // Mostly forward, so that it ends.
            Op::Jump | Op::Jumpz => {
                let target = if r.percent(90) {
                    here + r.range(1, 8)
                } else {
                    r.range(0, n as i32 - 1)
                };
                list.push((op, target.min(n as i32 - 1)));
                height -= (op == Op::Jumpz) as i32;
            }
            Op::Dup | Op::Mark | Op::Newmutex | Op::Newcond => {
                list.push((op, 0));
                height += 1;
            }
            Op::Neg | Op::Not => list.push((op, 0)),
            Op::Pop => {
                list.push((op, 0));
                height -= 1;
            }
            // These want a small number on top.
            Op::Load
            | Op::New
            | Op::Join
            | Op::Finalize
            | Op::Lock
            | Op::Unlock
            | Op::Signal
            | Op::Broadcast
            | Op::Newsema
            | Op::Up
            | Op::Down => {
                if r.percent(80) {
                    list.push((Op::Loadc, r.range(0, 2)));
                    height += 1;
                }
                list.push((op, 0));
                let keeps = [Op::Load, Op::New, Op::Join, Op::Finalize, Op::Newsema];
                let pops = !keeps.contains(&op);
                height -= pops as i32;
            }
            Op::Wait => {
                if r.percent(80) {
                    let m = r.range(0, 1);
                    list.extend([(Op::Loadc, m), (Op::Lock, 0), (Op::Loadc, m)]);
                    list.push((Op::Loadc, r.range(0, 1)));
                    height += 2;
                }
                list.push((op, 0));
                height -= 1;
            }
            Op::Store => {
                list.push((Op::Loadc, small(r)));
                list.push((op, 0));
            }
            Op::Create => {
                if r.percent(90) {
                    list.push((Op::Loadc, r.range(0, n as i32 - 1)));
                    list.push((Op::Loadc, small(r)));
                    height += 2;
                }
                list.push((op, 0));
                height -= 1;
            }
            Op::Call => {
                if r.percent(85) {
                    let target = if r.percent(70) {
                        here + r.range(1, 9)
                    } else {
                        0
                    };
                    list.push((Op::Mark, 0));
                    list.push((Op::Loadc, target.min(n as i32 - 1)));
                    height += 2;
                }
                list.push((op, 0));
            }
            // Two numbers; a divisor mostly isn't 0.
            _ => {
                if matches!(op, Op::Div | Op::Mod) && r.percent(90) {
                    list.push((Op::Loadc, r.pick(&[-3, -1, 1, 2, 7])));
                    height += 1;
                }
                list.push((op, 0));
                height -= 1;
            }
        }
    }
    list.truncate(n);
    Code {
        globals: r.pick(&[1, 2, 8, 4000, 4096]),
        list,
    }
}

/// A constant: mostly a small one.
fn small(r: &mut Random) -> i32 {
    match r.below(12) {
        0 => r.pick(&[127, 128, 4095, 4096, -128]),
        1 => r.range(-8388608, 8388607),
        _ => r.range(-1, 4),
    }
}
