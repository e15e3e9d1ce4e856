//! Damaged images: something about a good one is changed. A few of the changes leave it good.

use super::random::Random;
use crate::machine::Op;

/// Damages an image in one way, or now and then in two.
pub fn damage(r: &mut Random, image: Vec<u8>) -> Vec<u8> {
    let once = damage_once(r, image);
    if r.percent(15) {
        damage_once(r, once)
    } else {
        once
    }
}

fn damage_once(r: &mut Random, mut image: Vec<u8>) -> Vec<u8> {
    if image.len() < 13 {
        image.push(0);
        return image;
    }
    let n = (image.len() - 9) / 4;
    match r.below(14) {
        // Nothing, or nearly nothing.
        0 => image.truncate(r.below(14)),
        // Cut off anywhere.
        1 => image.truncate(r.below(image.len())),
        // Longer, with L as it was or as it should be.
        2 => {
            for _ in 0..r.range(1, 9) {
                image.push(r.next() as u8);
            }
            if r.percent(50) {
                right_length(&mut image);
            }
        }
        // One byte is another.
        3 => {
            let at = r.below(image.len());
            image[at] = r.next() as u8;
        }
        // One bit of the header is another.
        4 => image[r.below(9)] ^= 1 << r.below(8),
        // A wrong L.
        5 => {
            let right = image.len() as u32 - 4;
            let wrong = r.pick(&[
                0,
                4,
                5,
                9,
                right - 1,
                right + 1,
                right + 4,
                right - 4,
                right + 65536,
                right + (1 << 24),
                u32::MAX,
            ]);
            image[..4].copy_from_slice(&wrong.to_be_bytes());
        }
        6 => image[4] = r.pick(&[0, 2, 3, 127, 128, 255]),
        // g at and past its ends.
        7 => set_two(
            &mut image,
            5,
            r.pick(&[0, 0, 1, 4096, 4097, 4097, 8192, 65535]),
        ),
        // n at and past its ends.
        8 => {
            let n = n as u16;
            let wrong = r.pick(&[0, n.wrapping_sub(1), n + 1, 4096, 4097, 65535, 256]);
            set_two(&mut image, 7, wrong);
        }
        // A bad opcode.
        9 => {
            let i = r.below(n);
            image[9 + 4 * i] = r.pick(&[41, 41, 42, 64, 128, 255]);
        }
        // An operand at the edge of its rule, on either side, in one place or in two.
        10 | 11 => {
            for _ in 0..r.range(1, 2) {
                let i = r.below(n);
                // Half of them with a rule of their own.
                let own = [Op::Loadr, Op::Storer, Op::Alloc, Op::Jump, Op::Jumpz];
                let op = if r.percent(50) {
                    r.pick(&own)
                } else {
                    r.pick(&Op::ALL)
                };
                let k = match op {
                    Op::Loadc => r.pick(&[-8388608, 8388607]),
                    Op::Loadr | Op::Storer => r.pick(&[-129, -128, 127, 128]),
                    Op::Alloc => r.pick(&[-1, 0, 127, 128]),
                    Op::Jump | Op::Jumpz => r.pick(&[-1, 0, n as i32 - 1, n as i32, 4096]),
                    _ => r.pick(&[-1, 0, 1, 256, 65536, -8388608]),
                };
                image[9 + 4 * i] = op as u8;
                image[10 + 4 * i..13 + 4 * i].copy_from_slice(&k.to_be_bytes()[1..]);
            }
        }
        // Longer than the runner looks: filled up with instructions or with anything, and L right
        // for the whole, for what the runner sees, or for what was there before.
        12 => {
            let filled = r.percent(50);
            let length = r.pick(&[16392, 16393, 16394, 16395, 16396, 16400, 20000, 33000]);
            while image.len() < length {
                image.push(if filled { 0 } else { r.next() as u8 });
            }
            image.truncate(length);
            match r.below(3) {
                0 => right_length(&mut image),
                1 => image[..4].copy_from_slice(&16390u32.to_be_bytes()),
                _ => {}
            }
            if r.percent(50) {
                set_two(&mut image, 7, r.pick(&[4096, 4097]));
            }
        }
        // A whole full card, and then one byte more or fewer.
        _ => {
            image.resize(16393, 0);
            right_length(&mut image);
            set_two(&mut image, 7, 4096);
            match r.below(4) {
                0 => image.push(0),
                1 => image.truncate(16392),
                _ => {}
            }
        }
    }
    image
}

/// Makes L right for the image's length.
fn right_length(image: &mut [u8]) {
    let length = image.len() as u32 - 4;
    image[..4].copy_from_slice(&length.to_be_bytes());
}

fn set_two(image: &mut [u8], at: usize, value: u16) {
    image[at..at + 2].copy_from_slice(&value.to_be_bytes());
}
