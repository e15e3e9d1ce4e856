//! The generator of texts: the same from the same seed, short enough, everything reached, and each
//! mistake of the listing and of the importer found.

use second::cards::card;
use second::listing::{
    card_text, import, import_line, listing, ImportMistake, ListingMistake, LONGEST,
};
use second::machine::read;
use second::texts::{text, Kind};
use std::collections::HashSet;

const SEED: u64 = 1;
const COUNT: u64 = 6000;

#[test]
fn the_same_again_and_good_if_exact() {
    for index in 0..1000 {
        let (kind, bytes) = text(SEED, index);
        assert_eq!(text(SEED, index), (kind, bytes.clone()));
        if kind == Kind::Exact {
            let image = import(&bytes, None).expect("the listing of a card");
            assert_eq!(listing(&image, None).into_bytes(), bytes);
        }
    }
    assert_ne!(text(SEED, 0), text(SEED + 1, 0));
}

#[test]
fn a_short_card_is_listed_whole() {
    let mut whole = 0;
    for index in 0..1000 {
        let (kind, bytes) = text(SEED, index);
        let Ok(card) = read(&card(SEED, index).1) else {
            continue;
        };
        if kind == Kind::Exact && card.code.len() <= 60 {
            assert_eq!(bytes, card_text(&card, None).into_bytes());
            whole += 1;
        }
    }
    assert!(whole > 50, "{whole}");
}

#[test]
fn most_are_short_and_none_passes_the_programs_buffer() {
    let lengths: Vec<usize> = (0..COUNT).map(|i| text(SEED, i).1.len()).collect();
    assert!(lengths.iter().all(|&length| length <= 98_304));
    assert!(lengths.contains(&0));
    assert!(lengths.contains(&LONGEST));
    assert!(lengths.iter().any(|&length| length > LONGEST));
    let long = lengths.iter().filter(|&&length| length > 20_000).count() as u64;
    assert!(long > 0 && long * 50 < COUNT, "{long}");
    assert!(lengths.iter().sum::<usize>() as u64 <= 3000 * COUNT);
}

#[test]
fn an_accepted_text_is_its_images_listing() {
    for index in 0..COUNT {
        let bytes = text(SEED, index).1;
        if let Ok(image) = import(&bytes, None) {
            assert_eq!(listing(&image, None).into_bytes(), bytes, "text {index}");
        }
    }
}

#[test]
fn all_refusals_are_reached() {
    let mut seen = HashSet::new();
    let mut accepted = 0;
    for index in 0..COUNT {
        match import(&text(SEED, index).1, None) {
            Ok(_) => accepted += 1,
            Err(refusal) => {
                seen.insert(refusal.number);
            }
        }
    }
    assert_eq!(seen, HashSet::from([3, 5, 40, 41, 42]));
    assert!(accepted * 100 > COUNT * 30 && accepted * 100 < COUNT * 50);
}

#[test]
fn each_mistake_of_the_listing_is_found() {
    for mistake in ListingMistake::ALL {
        let found = (0..50).any(|index| {
            let image = card(SEED, index).1;
            listing(&image, Some(mistake)) != listing(&image, None)
        });
        assert!(found, "{mistake:?}");
    }
}

#[test]
fn each_mistake_of_the_importer_is_found() {
    for mistake in ImportMistake::ALL {
        let found = (0..2000).any(|index| {
            let bytes = text(SEED, index).1;
            import_line(&bytes, Some(mistake)) != import_line(&bytes, None)
        });
        assert!(found, "{mistake:?}");
    }
}
