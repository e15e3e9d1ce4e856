//! The command's uses that have to do with texts, run as a program.

mod common;

use common::{image, image_with};
use second::cards::card;
use second::listing::{hexadecimal, import_line, listing, LONGEST};
use second::text::{read_frame, write_frame};
use second::texts::text;
use std::io::Write;
use std::process::{Command, Output, Stdio};

const P2_TEXT: &[u8] = b"cells 1\n0000 loadc 7\n0001 exit\n";

/// Runs the command with this standard input.
fn second(words: &[&str], input: &[u8]) -> Output {
    let mut child = Command::new(env!("CARGO_BIN_EXE_second"))
        .args(words)
        .stdin(Stdio::piped())
        .stdout(Stdio::piped())
        .stderr(Stdio::piped())
        .spawn()
        .unwrap();
    let mut stdin = child.stdin.take().unwrap();
    let input = input.to_vec();
    // Beside the reading of its output, so that neither waits for the other. It may see enough.
    let writer = std::thread::spawn(move || {
        let _ = stdin.write_all(&input);
    });
    let output = child.wait_with_output().unwrap();
    writer.join().unwrap();
    output
}

fn printed(words: &[&str], input: &[u8]) -> Vec<u8> {
    let output = second(words, input);
    assert!(output.status.success(), "{words:?}");
    output.stdout
}

fn framed(items: &[Vec<u8>]) -> Vec<u8> {
    let mut stream = Vec::new();
    for item in items {
        write_frame(&mut stream, item).unwrap();
    }
    stream
}

fn frames(mut stream: &[u8]) -> Vec<Vec<u8>> {
    let mut items = Vec::new();
    while let Some(item) = read_frame(&mut stream).unwrap() {
        items.push(item);
    }
    items
}

#[test]
fn list_looks_at_16394_bytes() {
    let list = |image: &[u8]| printed(&["list", "/dev/stdin"], image);
    assert_eq!(list(&image("loadc 7, exit")), P2_TEXT);
    assert_eq!(list(&[]), b"refused 1 0\n");
    let mut full = image_with(4096, "4096*loadc -8388608");
    assert_eq!(list(&full).len(), LONGEST);
    full.push(0);
    assert_eq!(list(&full), b"refused 1 0\n");
    // L is right for what is looked at, and wrong for the whole.
    full.extend([0; 100]);
    full[..4].copy_from_slice(&16390u32.to_be_bytes());
    assert_eq!(list(&full), b"refused 3 5\n");
    // In a stream the image is judged whole.
    let stream = framed(&[full]);
    assert_eq!(printed(&["listings"], &stream), b"refused 1 0\n");
}

#[test]
fn import_looks_at_the_whole_text() {
    let import = |text: &[u8]| printed(&["import", "/dev/stdin"], text);
    assert_eq!(import(P2_TEXT), image("loadc 7, exit"));
    assert_eq!(import(b""), b"refused 40 0\n");
    assert_eq!(import(b"cells 1\n0000 alloc 128\n"), b"refused 5 0\n");
    let full = image_with(4096, "4096*loadc -8388608");
    let mut longest = listing(&full, None).into_bytes();
    assert_eq!(import(&longest), full);
    longest.extend(b"4096 loadc -8388608\n");
    assert_eq!(import(&longest), b"refused 3 5\n");
    longest.extend(b"\n");
    assert_eq!(import(&longest), b"refused 41 81951\n");
    let stream = framed(&[longest]);
    assert_eq!(printed(&["imports"], &stream), b"refused 41 81951\n");
}

#[test]
fn streams_have_one_answer_after_the_other() {
    let images: Vec<Vec<u8>> = (0..200).map(|index| card(2, index).1).collect();
    let stream = framed(&images);
    assert_eq!(printed(&["cards", "2", "200"], b""), stream);
    let listings: Vec<String> = images.iter().map(|image| listing(image, None)).collect();
    assert_eq!(
        printed(&["listings"], &stream),
        listings.concat().into_bytes()
    );

    let texts: Vec<Vec<u8>> = (0..200).map(|index| text(2, index).1).collect();
    let stream = framed(&texts);
    assert_eq!(printed(&["texts", "2", "200"], b""), stream);
    assert_eq!(printed(&["text", "2", "7"], b""), texts[7]);
    let lines: Vec<String> = texts
        .iter()
        .map(|text| import_line(text, None) + "\n")
        .collect();
    assert_eq!(printed(&["imports"], &stream), lines.concat().into_bytes());
}

#[test]
fn accepted_images_go_round() {
    let stream = printed(&["cards", "4", "300"], b"");
    let texts = printed(&["retexts"], &stream);
    let hex = printed(&["hex"], &stream);
    assert_eq!(printed(&["imports"], &texts), hex);
    let accepted: Vec<Vec<u8>> = frames(&stream)
        .into_iter()
        .filter(|image| second::image::read(image).is_ok())
        .collect();
    assert!(accepted.len() > 200 && accepted.len() < 300);
    assert_eq!(frames(&texts).len(), accepted.len());
    let lines: Vec<String> = accepted
        .iter()
        .map(|image| hexadecimal(image) + "\n")
        .collect();
    assert_eq!(hex, lines.concat().into_bytes());
}

#[test]
fn the_sessions_cards() {
    let input = "# A remark\n\
                 P6 twice: newmutex, dup, 2*lock\n\
                 \n\
                 g is 4096: g 4096, loadc -1, new, exit\n\
                 no instruction: 0*halt\n\
                 too many: 4097*halt\n\
                 a full card: 4096*yield\n\
                 semaphores: loadc 1, newsema, dup, down, up\n\
                 refused by the writer: alloc 128\n\
                 also refused: nop\n\
                 no cells: g 0, halt\n";
    let images = frames(&printed(&["sessions", "/dev/stdin"], input.as_bytes()));
    let p2 = image("loadc 7, exit");
    let mut p3 = p2.clone();
    p3[4] = 2;
    let mut p5 = p2.clone();
    p5[9] = 41;
    let expected = vec![
        Vec::new(),
        p2,
        p3,
        image("loadc 7, jump 2"),
        p5,
        image("newmutex, dup, lock, lock"),
        image_with(4096, "loadc -1, new, exit"),
        image("4096*yield"),
        image("loadc 1, newsema, dup, down, up"),
        image("alloc 128"),
        vec![0, 0, 0, 9, 1, 0, 1, 0, 1, 255, 0, 0, 0],
        image_with(0, "halt"),
    ];
    assert_eq!(images, expected);
    let output = second(&["sessions", "/dev/stdin"], b"bad: loadc x\n");
    assert!(!output.status.success());
}

#[test]
fn errors_have_their_numbers() {
    for (words, most) in [
        (&["lines"][..], 26),
        (&["trace", "9"], 26),
        (&["listings"], 4),
        (&["imports"], 7),
        (&["retexts"], 0),
        (&["hex"], 0),
    ] {
        for e in 0..=27 {
            let number = e.to_string();
            let mut words = words.to_vec();
            words.extend(["--error", &number]);
            let good = second(&words, b"").status.success();
            assert_eq!(good, (1..=most).contains(&e), "{words:?}");
        }
    }
    assert!(!second(&["listings", "--error"], b"").status.success());
    assert!(!second(&["show", "/dev/stdin"], b"").status.success());
}
