//! A tiny assembler for the tests: "loadc 7, exit" becomes an image with one global cell.

// Each test file uses a part of it.
#![allow(dead_code)]

use second::machine::{read, Machine, Op};
use second::text::runner_line;

/// `3*pop` stands for three pops; `@` in front of a number stands for n plus it.
pub fn image(text: &str) -> Vec<u8> {
    image_with(1, text)
}

pub fn image_with(globals: u16, text: &str) -> Vec<u8> {
    let mut words: Vec<&str> = Vec::new();
    for part in text
        .split(',')
        .map(str::trim)
        .filter(|part| !part.is_empty())
    {
        match part.split_once('*') {
            Some((times, word)) => {
                for _ in 0..times.parse::<usize>().unwrap() {
                    words.push(word);
                }
            }
            None => words.push(part),
        }
    }
    let n = words.len();
    let mut image = Vec::new();
    image.extend((5 + 4 * n as u32).to_be_bytes());
    image.push(1);
    image.extend(globals.to_be_bytes());
    image.extend((n as u16).to_be_bytes());
    for word in words {
        let (name, operand) = word.split_once(' ').unwrap_or((word, "0"));
        let op = Op::ALL
            .into_iter()
            .find(|op| op.name() == name)
            .expect(name);
        let k: i32 = match operand.trim().strip_prefix('@') {
            Some(more) => n as i32 + more.parse::<i32>().unwrap(),
            None => operand.trim().parse().unwrap(),
        };
        image.push(op as u8);
        image.extend(&k.to_be_bytes()[1..]);
    }
    image
}

/// The runner's line.
pub fn line(text: &str) -> String {
    runner_line(&image(text), None)
}

/// The machine after set-up.
pub fn machine(text: &str) -> Machine {
    Machine::new(&read(&image(text)).expect("a good card"))
}

/// Compares the runner's line of each card.
pub fn check(rows: &[(&str, &str)]) {
    for (text, expected) in rows {
        assert_eq!(line(text), *expected, "{text}");
    }
}
