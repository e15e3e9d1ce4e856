//! The command `second`. README.md says what its uses print.

use second::cards::card;
use second::listing::{card_text, hexadecimal, import, import_line, listing};
use second::listing::{ImportMistake, ListingMistake};
use second::machine::{read, Mistake};
use second::sessions::sessions;
use second::text::{read_frame, refusal_line, runner_line, trace, write_frame, INPUT};
use second::texts::text;
use second::{coverage, selftest};
use std::io::{self, BufReader, BufWriter, Read, Write};
use std::process::ExitCode;

const USAGE: &str = "\
second run FILE                      the runner's line for an image
second list FILE                     the listing of an image
second import FILE                   the image of a text on standard output
second card SEED INDEX               one card's image on standard output
second cards SEED COUNT              cards 0 to COUNT - 1, framed, on standard output
second text SEED INDEX               one text on standard output
second texts SEED COUNT              texts 0 to COUNT - 1, framed, on standard output
second sessions FILE                 the cards of the sessions' text, framed, on standard output
second lines [--error E]             framed images on standard input: the runner's line for each
second states SEED COUNT STEPS [--error E]
                                     the states of cards 0 to COUNT - 1
second trace STEPS [--error E]       framed images on standard input: the states of each
second listings [--error E]          framed images on standard input: the listing of each
second imports [--error E]           framed texts on standard input: the image of each, in
                                     hexadecimal digits
second retexts                       framed images on standard input: the listings of those that
                                     are accepted, framed
second hex                           framed images on standard input: those that are accepted, in
                                     hexadecimal digits
second coverage SEED COUNT           what the cards reach
second selftest [SEED [COUNT]]       each of the machine's errors is found

SEED is a number of 64 bits. A frame is the length of an image or a text in 4 bytes, big-endian,
then its bytes. A refused image or text has the line `refused NO PLACE`.
E is a number from 1: 1 to 26 for the machine, 1 to 4 for listings, 1 to 7 for imports. The program
makes this error, to show that a comparison finds it.
";

fn main() -> ExitCode {
    let mut words: Vec<String> = std::env::args().skip(1).collect();
    match dispatch(&mut words) {
        Ok(code) => code,
        // Whoever reads our output has seen enough.
        Err(Trouble::Io(error)) if error.kind() == io::ErrorKind::BrokenPipe => ExitCode::SUCCESS,
        Err(Trouble::Io(error)) => {
            eprintln!("second: {error}");
            ExitCode::from(2)
        }
        Err(Trouble::Usage) => {
            eprint!("{USAGE}");
            ExitCode::from(2)
        }
    }
}

enum Trouble {
    Usage,
    Io(io::Error),
}

impl From<io::Error> for Trouble {
    fn from(error: io::Error) -> Trouble {
        Trouble::Io(error)
    }
}

fn dispatch(words: &mut Vec<String>) -> Result<ExitCode, Trouble> {
    let error = take_error(words)?;
    let words: Vec<&str> = words.iter().map(String::as_str).collect();
    let with_error = ["lines", "states", "trace", "listings", "imports"];
    if error.is_some() && !words.first().is_some_and(|word| with_error.contains(word)) {
        return Err(Trouble::Usage);
    }
    let mut out = BufWriter::with_capacity(1 << 16, io::stdout().lock());
    let mut code = ExitCode::SUCCESS;
    match words[..] {
        ["run", file] => writeln!(out, "{}", runner_line(&start_of(file, INPUT)?, None))?,
        ["list", file] => out.write_all(listing(&start_of(file, INPUT)?, None).as_bytes())?,
        ["import", file] => match import(&std::fs::read(file)?, None) {
            Ok(image) => out.write_all(&image)?,
            Err(refusal) => writeln!(out, "{}", refusal_line(refusal))?,
        },
        ["card", seed, index] => out.write_all(&card(number(seed)?, number(index)?).1)?,
        ["cards", seed, count] => {
            let seed = number(seed)?;
            for index in 0..number(count)? {
                write_frame(&mut out, &card(seed, index).1)?;
            }
        }
        ["text", seed, index] => out.write_all(&text(number(seed)?, number(index)?).1)?,
        ["texts", seed, count] => {
            let seed = number(seed)?;
            for index in 0..number(count)? {
                write_frame(&mut out, &text(seed, index).1)?;
            }
        }
        ["sessions", file] => {
            let images = sessions(&std::fs::read_to_string(file)?);
            for image in images.map_err(io::Error::other)? {
                write_frame(&mut out, &image)?;
            }
        }
        ["lines"] => {
            let mistake = mistake(error, &Mistake::ALL)?;
            for_each_frame(|_, image| writeln!(out, "{}", runner_line(image, mistake)))?;
        }
        ["states", seed, count, steps] => {
            let mistake = mistake(error, &Mistake::ALL)?;
            let (seed, steps) = (number(seed)?, number(steps)?);
            for index in 0..number(count)? {
                states(&mut out, index, &card(seed, index).1, steps, mistake)?;
            }
        }
        ["trace", steps] => {
            let mistake = mistake(error, &Mistake::ALL)?;
            let steps = number(steps)?;
            for_each_frame(|index, image| states(&mut out, index, image, steps, mistake))?;
        }
        ["listings"] => {
            let mistake = mistake(error, &ListingMistake::ALL)?;
            for_each_frame(|_, image| out.write_all(listing(image, mistake).as_bytes()))?;
        }
        ["imports"] => {
            let mistake = mistake(error, &ImportMistake::ALL)?;
            for_each_frame(|_, text| writeln!(out, "{}", import_line(text, mistake)))?;
        }
        ["retexts"] => for_each_frame(|_, image| match read(image) {
            Ok(card) => write_frame(&mut out, card_text(&card, None).as_bytes()),
            Err(_) => Ok(()),
        })?,
        ["hex"] => for_each_frame(|_, image| match read(image) {
            Ok(_) => writeln!(out, "{}", hexadecimal(image)),
            Err(_) => Ok(()),
        })?,
        ["coverage", seed, count] => {
            let text = coverage::coverage(number(seed)?, number(count)?);
            out.write_all(text.as_bytes())?;
        }
        ["selftest"] | ["selftest", _] | ["selftest", _, _] => {
            let seed = words.get(1).map_or(Ok(1), |word| number(word))?;
            let count = words
                .get(2)
                .map_or(Ok(selftest::CARDS), |word| number(word))?;
            let (text, found) = selftest::selftest(seed, count);
            out.write_all(text.as_bytes())?;
            if !found {
                code = ExitCode::FAILURE;
            }
        }
        _ => return Err(Trouble::Usage),
    }
    out.flush()?;
    Ok(code)
}

/// The first bytes of a file, at most so many: a longer input is judged by them alone.
fn start_of(file: &str, most: usize) -> io::Result<Vec<u8>> {
    let mut input = Vec::new();
    std::fs::File::open(file)?
        .take(most as u64)
        .read_to_end(&mut input)?;
    Ok(input)
}

/// Goes through the stream on standard input: each image or text, with its place in the stream.
fn for_each_frame(mut take: impl FnMut(u64, &[u8]) -> io::Result<()>) -> io::Result<()> {
    let mut input = BufReader::with_capacity(1 << 16, io::stdin().lock());
    let mut index = 0;
    while let Some(bytes) = read_frame(&mut input)? {
        take(index, &bytes)?;
        index += 1;
    }
    Ok(())
}

/// The states of one image, under a line that says which of the stream it is.
fn states(
    out: &mut dyn Write,
    index: u64,
    image: &[u8],
    steps: u64,
    mistake: Option<Mistake>,
) -> io::Result<()> {
    writeln!(out, "card {index}")?;
    trace(image, steps, mistake, &mut |line| writeln!(out, "{line}"))
}

/// Takes `--error E` out of the words.
fn take_error(words: &mut Vec<String>) -> Result<Option<usize>, Trouble> {
    let Some(at) = words.iter().position(|word| word == "--error") else {
        return Ok(None);
    };
    let which = words.get(at + 1).and_then(|word| word.parse().ok());
    let error = which.ok_or(Trouble::Usage)?;
    words.drain(at..at + 2);
    Ok(Some(error))
}

/// The mistake of that number, counted from 1.
fn mistake<T: Copy>(error: Option<usize>, all: &[T]) -> Result<Option<T>, Trouble> {
    let Some(error) = error else {
        return Ok(None);
    };
    let which = error.checked_sub(1).and_then(|i| all.get(i));
    which.copied().map(Some).ok_or(Trouble::Usage)
}

fn number(word: &str) -> Result<u64, Trouble> {
    word.parse().map_err(|_| Trouble::Usage)
}
