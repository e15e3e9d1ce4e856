//! What the cards of a seed reach: how often each instruction is carried out, how often each fault
//! is met and by which instructions, how the runs end, and what is refused.

use crate::cards::{card, Kind};
use crate::machine::{read, Machine, Op, State};
use std::fmt::Write as _;

/// A card counts with its first steps only, so that the few endless ones don't drown the rest.
const STEPS: u64 = 10_000;
/// The numbers of the faults: 29 left the table with request Six.
const FAULTS: [usize; 14] = [20, 21, 22, 23, 24, 25, 26, 27, 28, 30, 31, 32, 33, 34];
/// Room for each of them by its number.
const NUMBERS: usize = FAULTS[FAULTS.len() - 1] + 1;
/// The columns: structured cards, cards at limits and edges, and the rest.
const COLUMNS: [&str; 3] = ["structured", "limits", "soup+damaged"];

fn column(kind: Kind) -> usize {
    match kind {
        Kind::Program | Kind::Scene | Kind::Changed => 0,
        Kind::Limit | Kind::Edge | Kind::Number => 1,
        Kind::Soup | Kind::Damaged => 2,
    }
}

/// Counts by column.
type Counts = [u64; COLUMNS.len()];

#[derive(Default)]
struct Coverage {
    cards: Counts,
    carried_out: Vec<Counts>,
    /// By opcode, then by fault; a fault 20 has no instruction and is counted apart.
    faults: Vec<[Counts; NUMBERS]>,
    past_end: Counts,
    /// Halted, running, stuck, faulted.
    ends: [Counts; 4],
    /// By number, 1 to 5.
    refusals: [Counts; 6],
    steps: Counts,
}

/// The table for cards 0 to `count` - 1 of a seed.
pub fn coverage(seed: u64, count: u64) -> String {
    let mut c = Coverage {
        carried_out: vec![[0; COLUMNS.len()]; Op::ALL.len()],
        faults: vec![[[0; COLUMNS.len()]; NUMBERS]; Op::ALL.len()],
        ..Coverage::default()
    };
    for index in 0..count {
        let (kind, image) = card(seed, index);
        c.add(column(kind), &image);
    }
    c.table()
}

impl Coverage {
    fn add(&mut self, column: usize, image: &[u8]) {
        self.cards[column] += 1;
        let card = match read(image) {
            Err(refusal) => {
                self.refusals[refusal.number as usize][column] += 1;
                return;
            }
            Ok(card) => card,
        };
        let mut machine = Machine::new(&card);
        for _ in 0..STEPS {
            let pc = machine.threads[machine.last].pc;
            let op = card.code.get(pc).map(|instruction| instruction.op as usize);
            if machine.step() {
                self.carried_out[op.expect("carried out")][column] += 1;
                self.steps[column] += 1;
            } else {
                if machine.state == State::Faulted {
                    match op {
                        Some(op) => self.faults[op][machine.fault as usize][column] += 1,
                        None => self.past_end[column] += 1,
                    }
                }
                break;
            }
        }
        self.ends[machine.state as usize][column] += 1;
    }

    fn table(&self) -> String {
        let mut text = String::new();
        let row = |text: &mut String, name: &str, counts: &Counts, more: &str| {
            let _ = write!(text, "{name:<16}");
            for count in counts {
                let _ = write!(text, "{count:>14}");
            }
            let _ = writeln!(text, "{}{more}", if more.is_empty() { "" } else { "  " });
        };
        let _ = write!(text, "{:<16}", "");
        for name in COLUMNS {
            let _ = write!(text, "{name:>14}");
        }
        text.push('\n');
        row(&mut text, "cards", &self.cards, "");
        for (number, counts) in self.refusals.iter().enumerate().skip(1) {
            row(&mut text, &format!("refused {number}"), counts, "");
        }
        for (state, name) in ["halted", "still running", "stuck", "faulted"]
            .iter()
            .enumerate()
        {
            row(&mut text, name, &self.ends[state], "");
        }
        row(&mut text, "steps", &self.steps, "");
        text.push_str("\ncarried out, and the faults of the instruction in all columns\n");
        for op in Op::ALL {
            let faults = &self.faults[op as usize];
            let mut more = String::new();
            for number in FAULTS {
                let all: u64 = faults[number].iter().sum();
                if all > 0 {
                    let _ = write!(more, "{number}:{all} ");
                }
            }
            row(
                &mut text,
                &op.name(),
                &self.carried_out[op as usize],
                more.trim_end(),
            );
        }
        text.push_str("\nfaults\n");
        for number in FAULTS {
            let mut counts: Counts = [0; COLUMNS.len()];
            for faults in &self.faults {
                for (sum, count) in counts.iter_mut().zip(faults[number]) {
                    *sum += count;
                }
            }
            if number == 20 {
                counts = self.past_end;
            }
            row(&mut text, &number.to_string(), &counts, "");
        }
        text
    }
}
