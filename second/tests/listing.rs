//! The listing of an image, sentence by sentence of request One.

mod common;

use common::{image, image_with};
use second::image::Op;
use second::listing::{listing, ListingMistake, LONGEST};

fn list(image: &[u8]) -> String {
    listing(image, None)
}

#[test]
fn p2_lists_as_the_paper_says() {
    assert_eq!(
        list(&image("loadc 7, exit")),
        "cells 1\n0000 loadc 7\n0001 exit\n"
    );
}

#[test]
fn g_in_decimal_without_leading_zeros_or_a_sign() {
    for g in [1, 9, 10, 99, 100, 999, 1000, 4095, 4096] {
        assert_eq!(
            list(&image_with(g, "halt")),
            format!("cells {g}\n0000 halt\n")
        );
    }
}

#[test]
fn the_address_has_four_digits() {
    let text = list(&image("4096*halt"));
    let lines: Vec<&str> = text.lines().collect();
    assert_eq!(lines.len(), 4097);
    for (address, line) in [
        (0, "0000 halt"),
        (1, "0001 halt"),
        (9, "0009 halt"),
        (10, "0010 halt"),
        (99, "0099 halt"),
        (100, "0100 halt"),
        (999, "0999 halt"),
        (1000, "1000 halt"),
        (4095, "4095 halt"),
    ] {
        assert_eq!(lines[1 + address], line);
    }
}

#[test]
fn the_operand_only_where_there_is_one() {
    for op in Op::ALL {
        let operand = match op {
            Op::Loadc | Op::Loadr | Op::Storer | Op::Alloc | Op::Jump | Op::Jumpz => " 0",
            _ => "",
        };
        let name = op.name();
        assert_eq!(
            list(&image(&name)),
            format!("cells 1\n0000 {name}{operand}\n")
        );
    }
}

#[test]
fn the_operand_in_decimal_at_both_ends_of_its_rule() {
    for (op, ends) in [
        (
            "loadc",
            &["-8388608", "-8388607", "-1", "0", "1", "8388606", "8388607"][..],
        ),
        ("loadr", &["-128", "-10", "-1", "0", "9", "127"]),
        ("storer", &["-128", "-10", "-1", "0", "9", "127"]),
        ("alloc", &["0", "1", "10", "127"]),
        ("jump", &["0", "1"]),
        ("jumpz", &["0", "1"]),
    ] {
        for k in ends {
            assert_eq!(
                list(&image(&format!("halt, {op} {k}"))),
                format!("cells 1\n0000 halt\n0001 {op} {k}\n")
            );
        }
    }
    let text = list(&image("4095*halt, jump 4095"));
    assert!(text.ends_with("4094 halt\n4095 jump 4095\n"));
}

#[test]
fn the_longest_text() {
    let text = list(&image_with(4096, "4096*loadc -8388608"));
    assert_eq!(text.len(), LONGEST);
    assert_eq!(LONGEST, 81_931);
    assert!(text.starts_with("cells 4096\n0000 loadc -8388608\n0001 "));
    assert!(text.ends_with("\n4095 loadc -8388608\n"));
}

#[test]
fn a_refused_image_gives_the_readers_number_and_place() {
    let p2 = image("loadc 7, exit");
    let changed = |at: usize, byte: u8| {
        let mut image = p2.clone();
        image[at] = byte;
        image
    };
    assert_eq!(list(&[]), "refused 1 0\n");
    assert_eq!(list(&changed(4, 2)), "refused 2 4\n");
    assert_eq!(list(&changed(6, 0)), "refused 3 5\n");
    assert_eq!(list(&changed(9, 41)), "refused 4 9\n");
    assert_eq!(list(&image("loadc 7, jump 2")), "refused 5 13\n");
    // An operand where there is none.
    assert_eq!(list(&image("loadc 7, exit 1")), "refused 5 13\n");
}

#[test]
fn the_mistakes() {
    let image = image("loadc -1, exit");
    let wrong = |mistake| listing(&image, Some(mistake));
    assert_eq!(
        ListingMistake::ALL.map(wrong),
        [
            "cells 1\n000 loadc -1\n001 exit\n",
            "cells 1\n0000 loadc -1\n0001 exit 0\n",
            "cells 1\n0000 loadc -1\n0001 exit",
            "cells 1\n0000 loadc 16777215\n0001 exit\n",
        ]
    );
}
