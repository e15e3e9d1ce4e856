//! Shows that the comparison can fail: each of the machine's errors is put into it, and the cards
//! must find it, by the runner's line and by the state lines.

use crate::cards::card;
use crate::machine::{Mistake, Op};
use crate::text::{runner_line, trace};
use std::fmt::Write as _;

/// So many cards are tried at most for one error.
pub const CARDS: u64 = 2_000;
/// So many steps of a card are compared by state.
const STEPS: u64 = 300;

/// What the search for one error found: numbers of cards.
pub struct Found {
    /// The first card whose runner's line differs, and how many of all do.
    pub by_line: Option<u64>,
    pub lines: u64,
    /// The first card of which a state line differs.
    pub by_state: Option<u64>,
}

/// Tries cards 0 to `count` - 1 of the seed on a machine with the mistake and one without.
pub fn search(seed: u64, count: u64, mistake: Mistake) -> Found {
    let mut found = Found {
        by_line: None,
        lines: 0,
        by_state: None,
    };
    for index in 0..count {
        let (_, image) = card(seed, index);
        // A card that has no such instruction needn't be run.
        if !mentions(&image, mistake) {
            continue;
        }
        if runner_line(&image, None) != runner_line(&image, Some(mistake)) {
            found.by_line.get_or_insert(index);
            found.lines += 1;
        }
        if found.by_state.is_none() && states(&image, None) != states(&image, Some(mistake)) {
            found.by_state = Some(index);
        }
    }
    found
}

/// Does the image have an instruction that the mistake is about?
fn mentions(image: &[u8], mistake: Mistake) -> bool {
    let ops: &[Op] = match mistake {
        Mistake::WokenPastLock | Mistake::SignalRemembered | Mistake::WaitMutexFirst => &[Op::Wait],
        Mistake::UnlockFrees => &[Op::Lock],
        Mistake::BroadcastReversed => &[Op::Broadcast],
        Mistake::CreateRoomFirst => &[Op::Create],
        // Without a lock nobody owns a mutex.
        Mistake::EndsOwning
        | Mistake::OnlyMutexZero
        | Mistake::JoinersWokenFirst
        | Mistake::CallerReturnFaulted
        | Mistake::DeliveredFirst => &[Op::Lock],
        // Those that name a condition or a thread.
        Mistake::KindsSwapped | Mistake::KindsNotTold => {
            &[Op::Join, Op::Wait, Op::Signal, Op::Broadcast]
        }
        // Without a join nobody waits for a result, or comes late for it.
        Mistake::ThreadAmongMutexes
        | Mistake::DeliveredBelowTop
        | Mistake::DeliveredToItself
        | Mistake::WokenWithoutResult
        | Mistake::LateWithoutResult => &[Op::Join],
        Mistake::DownWaitsAtZero => &[Op::Down],
        Mistake::NewsemaRoomFirst => &[Op::Newsema],
        Mistake::LastLeftAsleep
        | Mistake::LastWokenFirst
        | Mistake::WokenToFront
        | Mistake::UpSaturates => &[Op::Up],
        Mistake::CountOfThread | Mistake::SemaphoreNotTold => &[Op::Up, Op::Down],
    };
    image
        .iter()
        .skip(9)
        .step_by(4)
        .any(|&byte| ops.iter().any(|&op| byte == op as u8))
}

fn states(image: &[u8], mistake: Option<Mistake>) -> Vec<String> {
    let mut lines = Vec::new();
    trace(image, STEPS, mistake, &mut |line| {
        lines.push(line.to_string());
        Ok(())
    })
    .expect("nothing is written");
    lines
}

/// Can a runner's line show the mistake? Where one of these two matters the machine is faulted in
/// the same place after the same steps: those woken or written to never run, and the line has
/// neither queues nor cells.
fn in_a_line(mistake: Mistake) -> bool {
    !matches!(
        mistake,
        Mistake::JoinersWokenFirst | Mistake::DeliveredFirst
    )
}

/// The whole self-test: the report, and whether all errors were found.
pub fn selftest(seed: u64, count: u64) -> (String, bool) {
    let mut text = format!("seed {seed}, {count} cards for each error\n");
    let mut all = true;
    for (i, mistake) in Mistake::ALL.into_iter().enumerate() {
        let found = search(seed, count, mistake);
        let _ = write!(text, "error {} {mistake:?}: ", i + 1);
        match (found.by_line, found.by_state) {
            (Some(line), Some(state)) => {
                let _ = writeln!(
                    text,
                    "found by the line of card {line} ({} lines differ in all), \
                     by a state of card {state}",
                    found.lines
                );
            }
            (None, Some(state)) if !in_a_line(mistake) => {
                let _ = writeln!(
                    text,
                    "found by a state of card {state}, no line can show it"
                );
            }
            (line, state) => {
                all = false;
                let _ = writeln!(text, "NOT FOUND (line {line:?}, state {state:?})");
            }
        }
    }
    (text, all)
}
