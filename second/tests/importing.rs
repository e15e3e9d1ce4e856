//! The importer, sentence by sentence of request One: which texts it takes, and for every other one
//! the number and the place.

mod common;

use common::{image, image_with};
use second::cards::card;
use second::image::{read, Op};
use second::listing::{card_text, import, import_line, listing, ImportMistake, LONGEST};

/// The number and place of a refusal.
fn refused(text: &str) -> Option<(u8, usize)> {
    let refusal = import(text.as_bytes(), None).err();
    refusal.map(|refusal| (refusal.number, refusal.place))
}

/// The text of a card with one global cell; the lines are those of the instructions.
fn text(lines: &[&str]) -> String {
    let mut text = String::from("cells 1\n");
    for line in lines {
        text.push_str(line);
        text.push('\n');
    }
    text
}

/// So many good lines, all with this instruction.
fn many(g: &str, n: usize, instruction: &str) -> String {
    let mut text = format!("cells {g}\n");
    for i in 0..n {
        text.push_str(&format!("{i:04} {instruction}\n"));
    }
    text
}

#[test]
fn p2_comes_back() {
    let text = "cells 1\n0000 loadc 7\n0001 exit\n";
    assert_eq!(
        import(text.as_bytes(), None).unwrap(),
        image("loadc 7, exit")
    );
    assert_eq!(
        import_line(text.as_bytes(), None),
        "0000000d0100010002010000071c000000"
    );
    assert_eq!(import_line(b"", None), "refused 40 0");
}

#[test]
fn every_instruction_is_taken() {
    for op in Op::ALL {
        let line = match op {
            Op::Loadc | Op::Loadr | Op::Storer | Op::Alloc | Op::Jump | Op::Jumpz => {
                format!("0000 {} 0", op.name())
            }
            _ => format!("0000 {}", op.name()),
        };
        let bytes = import(text(&[&line]).as_bytes(), None).unwrap();
        assert_eq!(bytes, image(&op.name()));
    }
}

#[test]
fn a_header_of_another_form() {
    for header in [
        "cells",
        "cells ",
        "cells -1",
        "cells -0",
        "cells +1",
        "cells 01",
        "cells 00",
        "cells 04096",
        "cells a",
        "cells 1a",
        "cells 1.0",
        "cells  1",
        "cells 1 ",
        " cells 1",
        "cells 1 1",
        "cells\t1",
        "cells1",
        "cells 1\r",
        "Cells 1",
        "CELLS 1",
        "cell 1",
        "cellss 1",
        "1",
        "",
        "0000 halt",
        "cells \u{661}",
    ] {
        assert_eq!(
            refused(&format!("{header}\n0000 halt\n")),
            Some((40, 0)),
            "{header:?}"
        );
    }
    // An empty text, no line feed at the header's end, and an empty line in front of it.
    for text in ["", "cells 1", "cells", "c", "\n", "\ncells 1\n0000 halt\n"] {
        assert_eq!(refused(text), Some((40, 0)), "{text:?}");
    }
}

/// `@` stands for the address that the line should have. The line is tried as the first one and as
/// the third.
fn check_form(lines: &[&str]) {
    for line in lines {
        let first = format!("cells 1\n{}\n", line.replace('@', "0000"));
        assert_eq!(refused(&first), Some((41, 8)), "{line:?}");
        // 8 bytes of header, 13 and 10 of the lines before it; what follows doesn't count.
        let third = line.replace('@', "0002");
        let third = text(&["0000 loadc 7", "0001 exit", &third, "0003 halt"]);
        assert_eq!(refused(&third), Some((41, 31)), "{line:?}");
    }
}

#[test]
fn an_address_of_another_form() {
    check_form(&[
        "2 halt",
        "02 halt",
        "002 halt",
        "00002 halt",
        "000 halt",
        "00000 halt",
        "10000 halt",
        "000a halt",
        "+002 halt",
        "-002 halt",
        "0x02 halt",
        "halt",
        " halt",
        "loadc 7",
    ]);
}

#[test]
fn an_unknown_name() {
    check_form(&[
        "@ Halt",
        "@ HALT",
        "@ Loadc 7",
        "@ hal",
        "@ haltt",
        "@ loa",
        "@ loadcc 7",
        "@ nop",
        "@ newsem",
        "@ release",
        "@ cells 1",
        "@ 38",
        "@ 41",
        "@ 28",
        "@",
        "@ ",
    ]);
}

#[test]
fn an_operand_too_many_or_too_few() {
    check_form(&[
        "@ halt 0",
        "@ halt 1",
        "@ exit -1",
        "@ load 7",
        "@ loadc",
        "@ loadr",
        "@ storer",
        "@ alloc",
        "@ jump",
        "@ jumpz",
        "@ loadc ",
        "@ loadc 7 7",
    ]);
}

#[test]
fn an_operand_of_another_form() {
    check_form(&[
        "@ loadc 07",
        "@ loadc 00",
        "@ loadc -0",
        "@ loadc -00",
        "@ loadc -07",
        "@ loadc +1",
        "@ loadc +0",
        "@ loadc -",
        "@ loadc +",
        "@ loadc --1",
        "@ loadc - 1",
        "@ loadc 1-",
        "@ loadc a",
        "@ loadc 7a",
        "@ loadc 0x7",
        "@ loadc 1.0",
        "@ loadc 1,000",
        "@ loadc \u{661}",
        "@ alloc -0",
        "@ jump 00",
    ]);
}

#[test]
fn other_spaces_and_line_ends() {
    check_form(&[
        "@  halt",
        "@  loadc 7",
        "@ loadc  7",
        " @ halt",
        "@ halt ",
        "@ loadc 7 ",
        "@\thalt",
        "@ loadc\t7",
        "@ halt\t",
        "@halt",
        "@ loadc7",
        "@ halt\r",
        "@ loadc 7\r",
        "@ halt\0",
        "@\u{a0}halt",
        "\r",
        " ",
        "",
        "cells 1",
    ]);
    // Bytes that are no text at all.
    assert_eq!(
        import_line(b"cells 1\n0000 halt\n0001 \xff\xfe\n", None),
        "refused 41 18"
    );
    assert_eq!(import_line(b"\xff\xfe\n", None), "refused 40 0");
}

#[test]
fn the_last_line_needs_its_line_feed() {
    assert_eq!(refused("cells 1\n0000 halt"), Some((41, 8)));
    assert_eq!(refused("cells 1\n0000 halt\n"), None);
    assert_eq!(refused("cells 1\n0000 halt\n\n"), Some((41, 18)));
    assert_eq!(refused("cells 1\n0000 halt\n0001 exit"), Some((41, 18)));
    assert_eq!(refused("cells 1\n0000 halt\n0"), Some((41, 18)));
    // Also where its address is out of sequence.
    assert_eq!(refused("cells 1\n0000 halt\n0002 exit"), Some((41, 18)));
}

#[test]
fn an_address_out_of_sequence() {
    assert_eq!(refused(&text(&["0001 halt"])), Some((42, 8)));
    assert_eq!(refused(&text(&["9999 halt"])), Some((42, 8)));
    for address in ["0000", "0001", "0003", "0004", "0258", "1002", "9999"] {
        let line = format!("{address} loadc 7");
        let text = text(&["0000 halt", "0001 halt", &line, "0003 halt"]);
        assert_eq!(refused(&text), Some((42, 28)), "{address}");
    }
    // 41 and 42 on one line: 42 is given only for a line of the right form.
    for line in [
        "0005 Halt",
        "0005 halt 1",
        "0005 loadc",
        "0005 loadc -0",
        "0005  halt",
        "0005 halt\r",
        "0005",
    ] {
        assert_eq!(refused(&text(&[line])), Some((41, 8)), "{line:?}");
    }
}

#[test]
fn the_first_line_first() {
    // 41 then 42, and 42 then 41: the line decides, not the number.
    let both = ["0000 halt", "0001 nop", "0003 halt"];
    assert_eq!(refused(&text(&both)), Some((41, 18)));
    let both = ["0000 halt", "0002 halt", "0002 nop"];
    assert_eq!(refused(&text(&both)), Some((42, 18)));
    // The header before all lines.
    assert_eq!(refused("cells\n0001 nop\n"), Some((40, 0)));
    assert_eq!(refused("cells -1\n0001 halt\n"), Some((40, 0)));
    // All lines before 3, and 3 before 5.
    assert_eq!(refused("cells 0\n0000 nop\n"), Some((41, 8)));
    assert_eq!(refused("cells 0\n0001 halt\n"), Some((42, 8)));
    assert_eq!(refused("cells 4097\n0000 halt\n\n"), Some((41, 21)));
    assert_eq!(refused("cells 0\n0000 alloc 128\n"), Some((3, 5)));
    // All lines before 5.
    let both = ["0000 alloc 128", "0001 nop"];
    assert_eq!(refused(&text(&both)), Some((41, 23)));
    let both = ["0000 alloc 128", "0002 halt"];
    assert_eq!(refused(&text(&both)), Some((42, 23)));
    assert_eq!(refused("cells 1\n0000 alloc 128"), Some((41, 8)));
}

#[test]
fn g_on_both_sides_of_its_range() {
    let with = |g: &str| refused(&format!("cells {g}\n0000 halt\n"));
    for g in ["1", "2", "4095", "4096"] {
        assert_eq!(with(g), None, "{g}");
    }
    for g in [
        "0",
        "4097",
        "65536",
        // What would be 1 if only lower bits were kept: 16, 32, 64 and 128 of them.
        "65537",
        "4294967297",
        "18446744073709551617",
        "340282366920938463463374607431768211457",
        "100000000000000000000000000001",
        "999999999999999999999999999999",
        "9223372036854775807",
        "9223372036854775808",
    ] {
        assert_eq!(with(g), Some((3, 5)), "{g}");
    }
    assert_eq!(
        import(b"cells 4096\n0000 halt\n", None).unwrap(),
        image_with(4096, "halt")
    );
}

#[test]
fn n_on_both_sides_of_its_range() {
    // A header alone; and a g of the wrong size changes nothing.
    assert_eq!(refused("cells 1\n"), Some((3, 5)));
    assert_eq!(refused("cells 0\n"), Some((3, 5)));
    assert_eq!(refused("cells 4097\n"), Some((3, 5)));
    assert_eq!(refused(&many("1", 1, "halt")), None);
    assert_eq!(refused(&many("1", 4095, "halt")), None);
    assert_eq!(refused(&many("1", 4096, "halt")), None);
    assert_eq!(refused(&many("1", 4097, "halt")), Some((3, 5)));
    assert_eq!(refused(&many("1", 4098, "halt")), Some((3, 5)));
    // 3 before 5, and a line of another form before both.
    assert_eq!(refused(&many("1", 4097, "alloc 128")), Some((3, 5)));
    let long = many("1", 4097, "halt");
    assert_eq!(refused(&format!("{long}x\n")), Some((41, long.len())));
    assert_eq!(
        refused(&format!("{long}4096 halt\n")),
        Some((42, long.len()))
    );
}

#[test]
fn the_longest_text_and_one_line_more() {
    let longest = many("4096", 4096, "loadc -8388608");
    assert_eq!(longest.len(), LONGEST);
    assert_eq!(
        import(longest.as_bytes(), None).unwrap(),
        image_with(4096, "4096*loadc -8388608")
    );
    let more = many("4096", 4097, "loadc -8388608");
    assert_eq!(more.len(), 81_951);
    assert_eq!(refused(&more), Some((3, 5)));
    // One byte more than the longest is a last line without its line feed.
    assert_eq!(refused(&more[..LONGEST + 1]), Some((41, LONGEST)));
}

#[test]
fn addresses_end_at_9999() {
    let all = many("1", 10_000, "eq");
    assert_eq!(refused(&all), Some((3, 5)));
    let place = all.len();
    assert_eq!(refused(&format!("{all}10000 eq\n")), Some((41, place)));
    assert_eq!(refused(&format!("{all}0000 eq\n")), Some((42, place)));
    assert_eq!(refused(&format!("{all}9999 eq\n")), Some((42, place)));
    assert_eq!(refused(&many("1", 12_000, "eq")), Some((41, place)));
}

#[test]
fn operands_on_both_sides_of_their_rules() {
    for (name, low, high) in [
        ("loadc", -8_388_608, 8_388_607),
        ("loadr", -128, 127),
        ("storer", -128, 127),
        ("alloc", 0, 127),
        // The card has three instructions.
        ("jump", 0, 2),
        ("jumpz", 0, 2),
    ] {
        // The place is the index of the instruction.
        let with = |k: i128| {
            let line = format!("0001 {name} {k}");
            refused(&text(&["0000 halt", &line, "0002 halt"]))
        };
        for k in [low, low + 1, high - 1, high] {
            assert_eq!(with(k), None, "{name} {k}");
        }
        let far = [
            low - 1,
            high + 1,
            -8_388_609,
            8_388_608,
            16_777_215,
            16_777_216,
            999_999_999_999,
            -999_999_999_999,
            123_456_789_012_345_678_901_234_567_890,
            -123_456_789_012_345_678_901_234_567_890,
        ];
        // What would be allowed if only lower bits were kept.
        let wrapped = [24, 32, 63, 64, 96].map(|bits| low + (1 << bits));
        let below = [24, 32, 63, 64, 96].map(|bits| high - (1 << bits));
        for k in far.into_iter().chain(wrapped).chain(below) {
            assert_eq!(with(k), Some((5, 1)), "{name} {k}");
        }
    }
    let digits = "1".repeat(5000);
    let line = format!("0000 loadc -{digits}");
    assert_eq!(refused(&text(&[&line])), Some((5, 0)));
    assert_eq!(
        import(&many("1", 4096, "jump 4095").into_bytes(), None).unwrap(),
        image("4096*jump 4095")
    );
    assert_eq!(refused(&many("1", 4096, "jump 4096")), Some((5, 0)));
    assert_eq!(refused(&many("1", 4095, "jump 4095")), Some((5, 0)));
}

#[test]
fn the_first_operand_against_its_rule() {
    let lines = [
        "0000 halt",
        "0001 loadr 127",
        "0002 loadr 128",
        "0003 alloc -1",
    ];
    assert_eq!(refused(&text(&lines)), Some((5, 2)));
    // The place is an index also in the last line of a full card.
    let mut long = many("1", 4095, "loadc -8388608");
    long.push_str("4095 jumpz 4096\n");
    assert_eq!(refused(&long), Some((5, 4095)));
}

#[test]
fn importing_a_listing_gives_the_image() {
    let mut accepted = 0;
    for index in 0..2000 {
        let image = card(3, index).1;
        let text = listing(&image, None);
        match read(&image) {
            Err(_) => assert!(text.starts_with("refused ")),
            Ok(card) => {
                accepted += 1;
                assert_eq!(text, card_text(&card, None));
                assert_eq!(
                    import(text.as_bytes(), None).as_ref(),
                    Ok(&image),
                    "{index}"
                );
            }
        }
    }
    assert!(accepted > 1000);
}

#[test]
fn the_mistakes() {
    let wrong = |mistake, text: &str| import_line(text.as_bytes(), Some(mistake));
    let right = |text: &str| import_line(text.as_bytes(), None);
    let halts = |n: usize| {
        let image = image(&format!("{n}*halt"));
        second::listing::hexadecimal(&image)
    };
    let rows = [
        (
            "cells 1\n0000 halt\n\n0001 halt\n",
            "refused 41 18",
            halts(2),
        ),
        ("cells +1\n0000 halt\n", "refused 40 0", halts(1)),
        (
            "cells 1\n0000 loadc -0\n",
            "refused 41 8",
            "00000009010001000101000000".to_string(),
        ),
        (
            "cells 1\n0001 Halt\n",
            "refused 41 8",
            "refused 42 8".to_string(),
        ),
        ("cells 1\n0000 halt", "refused 41 8", halts(1)),
        (
            "cells 0\n0000 alloc 128\n",
            "refused 3 5",
            "refused 5 0".to_string(),
        ),
        (
            "cells 1\n0000 halt\n0001 Halt\n",
            "refused 41 18",
            "refused 41 2".to_string(),
        ),
    ];
    for (mistake, (text, expected, made)) in ImportMistake::ALL.into_iter().zip(rows) {
        assert_eq!(right(text), expected, "{mistake:?}");
        assert_eq!(wrong(mistake, text), made, "{mistake:?}");
    }
    // -1 for g is then a number, out of its range.
    let signed = ImportMistake::SignedGlobals;
    assert_eq!(wrong(signed, "cells -1\n0000 halt\n"), "refused 3 5");
}
