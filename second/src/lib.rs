//! A second, independent program for the machine of document 01 with requests Two, Three and Four
//! of document 02, and for cards as text, request One: the obvious one. It exists to be compared
//! with the proved one on many cards and texts. Nothing here is proved, and no code is shared.

pub mod cards;
pub mod coverage;
pub mod image;
pub mod listing;
pub mod machine;
pub mod selftest;
pub mod sessions;
pub mod text;
pub mod texts;
