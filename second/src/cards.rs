//! Cards from a seed. Card `i` of a seed is always the same, and doesn't depend on the others.

mod asm;
mod damage;
mod joins;
mod limits;
mod numbers;
mod program;
pub(crate) mod random;
mod scenes;
mod semaphores;
mod soup;

use crate::machine::Op;
use asm::Code;
use random::Random;

/// What kind of card it is.
#[derive(Clone, Copy, PartialEq, Eq, Debug)]
pub enum Kind {
    /// A random program with a structure.
    Program,
    /// One of the plays with several threads.
    Scene,
    /// A program or play of which a few instructions were changed.
    Changed,
    /// A card near a limit.
    Limit,
    /// One instruction at its edges.
    Edge,
    /// A number that names something, or nothing.
    Number,
    /// Random instructions.
    Soup,
    /// A damaged image.
    Damaged,
}

impl Kind {
    /// All kinds, with how many cards of a hundred are of it.
    pub const SHARES: [(usize, Kind); 8] = [
        (20, Kind::Program),
        (22, Kind::Scene),
        (8, Kind::Changed),
        (14, Kind::Limit),
        (12, Kind::Edge),
        (7, Kind::Number),
        (8, Kind::Soup),
        (9, Kind::Damaged),
    ];
}

/// Card number `index` of a seed: its kind and its image.
pub fn card(seed: u64, index: u64) -> (Kind, Vec<u8>) {
    // Both are mixed, so that neighbouring cards have nothing to do with each other.
    let start = Random::new(seed).next() ^ Random::new(!index).next();
    let mut r = Random::new(start);
    let kind = r.weighted(&Kind::SHARES);
    (kind, image(&mut r, kind))
}

fn image(r: &mut Random, kind: Kind) -> Vec<u8> {
    match kind {
        Kind::Program => program::program(r).image(),
        Kind::Scene => scene(r).image(),
        Kind::Changed => {
            let code = if r.percent(50) {
                program::program(r)
            } else {
                scene(r)
            };
            change(r, code).image()
        }
        Kind::Limit => r.weighted(&limits::LIMITS)(r).image(),
        Kind::Edge => limits::edge(r).image(),
        Kind::Number => numbers::numbers(r).image(),
        Kind::Soup => {
            let length = r.weighted(&[(2, 12), (5, 60), (3, 300)]);
            let n = r.range(1, length) as usize;
            soup::soup(r, n).image()
        }
        Kind::Damaged => {
            if r.percent(2) {
                return Vec::new();
            }
            let base = r.pick(&[Kind::Scene, Kind::Soup, Kind::Soup, Kind::Edge, Kind::Limit]);
            let good = image(r, base);
            damage::damage(r, good)
        }
    }
}

/// A play; three of ten are those with semaphores, two of ten those about joins.
fn scene(r: &mut Random) -> Code {
    let play = match r.below(10) {
        0..=2 => r.weighted(&semaphores::SCENES),
        3 | 4 => r.weighted(&joins::SCENES),
        _ => r.weighted(&scenes::SCENES),
    };
    play(r)
}

/// Changes one to three instructions, so that something goes wrong somewhere in the middle.
fn change(r: &mut Random, mut code: Code) -> Code {
    let n = code.list.len();
    for _ in 0..r.range(1, 3) {
        let (i, other) = (r.below(n), r.below(n));
        match r.below(9) {
            0 | 1 => code.list.swap(i, other),
            2 | 3 => code.list[i] = code.list[other],
            4 | 5 => {
                // The same with an operand a little beside.
                let (op, k) = code.list[i];
                let beside = k + r.pick(&[-2, -1, 1, 2]);
                if op.allows(beside, n) {
                    code.list[i] = (op, beside);
                }
            }
            6 | 7 => {
                let op = r.pick(&Op::ALL);
                let k = r.range(-2, 3);
                code.list[i] = (op, if op.allows(k, n) { k } else { 0 });
            }
            _ => {
                // Takes away what is on the stack.
                let end = (i + r.below(9)).min(n);
                code.list[i..end].fill((Op::Pop, 0));
            }
        }
    }
    code
}
