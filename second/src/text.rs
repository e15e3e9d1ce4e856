//! What is printed of a run: the runner's line and the state line; and the framing of a stream of
//! images or texts. README.md says the same formats in words.

use crate::machine::{read, Machine, Mistake, Refusal, State, SHARED, STACK, THREADS};
use std::collections::VecDeque;
use std::fmt::Write as _;
use std::io::{self, Read, Write};

/// The runner looks at so many bytes of its input at most.
pub const INPUT: usize = 16394;
/// The runner makes so many steps at most.
pub const STEPS: u64 = 1_000_000;

/// The runner's line for an input, without the line feed.
pub fn runner_line(input: &[u8], mistake: Option<Mistake>) -> String {
    let image = &input[..input.len().min(INPUT)];
    match read(image) {
        Err(refusal) => refusal_line(refusal),
        Ok(card) => {
            let mut machine = Machine::with_mistake(&card, mistake);
            let steps = machine.run(STEPS);
            end_line(&machine, steps)
        }
    }
}

/// The line for a refused image or text, without the line feed.
pub fn refusal_line(refusal: Refusal) -> String {
    format!("refused {} {}", refusal.number, refusal.place)
}

/// The runner's line for a machine that has made so many steps.
pub fn end_line(machine: &Machine, steps: u64) -> String {
    match machine.state {
        State::Halted => match machine.threads[0].result {
            Some(result) => format!("halted {steps} {result}"),
            None => format!("halted {steps} -"),
        },
        State::Stuck => format!("stuck {steps}"),
        State::Faulted => {
            let thread = machine.last;
            format!(
                "fault {} {} {} {}",
                machine.fault, thread, machine.threads[thread].pc, steps
            )
        }
        State::Running => format!("running {steps}"),
    }
}

/// The whole state as one line, without the line feed.
pub fn state_line(machine: &Machine) -> String {
    let mut line = String::with_capacity(160);
    let last = &machine.threads[machine.last];
    let _ = write!(
        line,
        "{} {} {} {} {} {} {} {} {} {} {} {:016x} r:",
        machine.state as u8,
        machine.fault,
        machine.running.unwrap_or(THREADS),
        last.pc,
        last.cells,
        last.fp,
        machine.free,
        machine.threads.len(),
        machine.mutexes.len(),
        machine.conditions.len(),
        machine.semaphores.len(),
        store_hash(machine),
    );
    write_queue(&mut line, &machine.ready);
    let mut write_waiters = |letter: char, number: usize, queue: &VecDeque<usize>| {
        if !queue.is_empty() {
            let _ = write!(line, " {letter}{number}:");
            write_queue(&mut line, queue);
        }
    };
    for (m, mutex) in machine.mutexes.iter().enumerate() {
        write_waiters('m', m, &mutex.waiters);
    }
    for (c, condition) in machine.conditions.iter().enumerate() {
        write_waiters('c', c, &condition.waiters);
    }
    for (t, thread) in machine.threads.iter().enumerate() {
        write_waiters('e', t, &thread.joiners);
    }
    for (s, semaphore) in machine.semaphores.iter().enumerate() {
        write_waiters('p', s, &semaphore.waiters);
    }
    for (m, mutex) in machine.mutexes.iter().enumerate() {
        if let Some(owner) = mutex.owner {
            let _ = write!(line, " o{m}={owner}");
        }
    }
    for (s, semaphore) in machine.semaphores.iter().enumerate() {
        let _ = write!(line, " k{s}={}", semaphore.count);
    }
    for (t, thread) in machine.threads.iter().enumerate() {
        if thread.result.is_none() && machine.running != Some(t) {
            let _ = write!(line, " s{t}=({},{},{})", thread.pc, thread.cells, thread.fp);
        }
    }
    for (t, thread) in machine.threads.iter().enumerate() {
        if let Some(result) = thread.result {
            let _ = write!(line, " v{t}={result}");
        }
    }
    line
}

fn write_queue(line: &mut String, queue: &VecDeque<usize>) {
    line.push('[');
    for (i, thread) in queue.iter().enumerate() {
        if i > 0 {
            line.push(',');
        }
        let _ = write!(line, "{thread}");
    }
    line.push(']');
}

/// The store's hash: the 64-bit FNV-1a step taken once for each of the 8,192 cells, in order.
pub fn store_hash(machine: &Machine) -> u64 {
    const START: u64 = 0xcbf2_9ce4_8422_2325;
    const PRIME: u64 = 0x0000_0100_0000_01b3;
    let mut hash = START;
    let mut take = |cell: i32| hash = (hash ^ cell as u32 as u64).wrapping_mul(PRIME);
    assert_eq!(machine.shared.len(), SHARED);
    for &cell in &machine.shared {
        take(cell);
    }
    for t in 0..THREADS {
        for i in 0..STACK {
            // The stack of a thread that isn't made is all zeros.
            take(machine.threads.get(t).map_or(0, |thread| thread.stack[i]));
        }
    }
    hash
}

/// The state lines of one image: after set-up and after every step, up to `steps` steps or until
/// the machine stops; or the line of its refusal. Each line goes to `out` as it comes.
pub fn trace(
    image: &[u8],
    steps: u64,
    mistake: Option<Mistake>,
    out: &mut dyn FnMut(&str) -> io::Result<()>,
) -> io::Result<()> {
    match read(image) {
        Err(refusal) => out(&refusal_line(refusal)),
        Ok(card) => {
            let mut machine = Machine::with_mistake(&card, mistake);
            out(&state_line(&machine))?;
            for _ in 0..steps {
                if machine.state != State::Running {
                    break;
                }
                machine.step();
                out(&state_line(&machine))?;
            }
            Ok(())
        }
    }
}

/// Writes one image or text of a stream: its length in 4 bytes, big-endian, then its bytes.
pub fn write_frame(out: &mut dyn Write, bytes: &[u8]) -> io::Result<()> {
    out.write_all(&(bytes.len() as u32).to_be_bytes())?;
    out.write_all(bytes)
}

/// Reads the next image or text of a stream, or nothing at its end.
pub fn read_frame(input: &mut dyn Read) -> io::Result<Option<Vec<u8>>> {
    let mut length = [0; 4];
    match input.read(&mut length[..1])? {
        0 => return Ok(None),
        _ => input.read_exact(&mut length[1..])?,
    }
    let mut bytes = vec![0; u32::from_be_bytes(length) as usize];
    input.read_exact(&mut bytes)?;
    Ok(Some(bytes))
}
