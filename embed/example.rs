// A machine inside a Rust program: what example.c does, through the same functions.
extern "C" {
    fn leprahoon_set_up(
        image: *const u8, image_length: u64, store: *mut i32, store_length: u64, tables: *mut u64, tables_length: u64,
        values: *mut i32, values_length: u64, registers: *mut u64, report: *mut u64,
    );
    fn leprahoon_run(
        image: *const u8, image_length: u64, store: *mut i32, store_length: u64, tables: *mut u64, tables_length: u64,
        values: *mut i32, values_length: u64, registers: *mut u64, steps: u64, report: *mut u64,
    );
    fn leprahoon_write(cells: u64, list: *const u32, list_length: u64, out: *mut u8, out_length: u64, report: *mut u64);
    fn leprahoon_list(image: *const u8, image_length: u64, line: u64, out: *mut u8, out_length: u64, report: *mut u64);
    fn leprahoon_import(text: *const u8, text_length: u64, out: *mut u8, out_length: u64, report: *mut u64);
}

// The memory that a machine is lent. The sizes, the places and the order of the registers are those of leprahoon.h.
struct Machine {
    store: [i32; 8192],
    tables: [u64; 224],
    values: [i32; 64],
    registers: [u64; 11],
    report: [u64; 4],
}

impl Machine {
    fn new() -> Self {
        Machine { store: [0; 8192], tables: [0; 224], values: [0; 64], registers: [0; 11], report: [0; 4] }
    }

    fn set_up(&mut self, image: &[u8]) {
        unsafe {
            leprahoon_set_up(
                image.as_ptr(), image.len() as u64, self.store.as_mut_ptr(), 8192, self.tables.as_mut_ptr(), 224,
                self.values.as_mut_ptr(), 64, self.registers.as_mut_ptr(), self.report.as_mut_ptr(),
            )
        }
    }

    fn run(&mut self, image: &[u8], steps: u64) {
        unsafe {
            leprahoon_run(
                image.as_ptr(), image.len() as u64, self.store.as_mut_ptr(), 8192, self.tables.as_mut_ptr(), 224,
                self.values.as_mut_ptr(), 64, self.registers.as_mut_ptr(), steps, self.report.as_mut_ptr(),
            )
        }
    }

    // A queue: those of the line whose place it is.
    fn queue(&self, place: u64) -> String {
        let line = &self.tables[192..];
        let waiting: Vec<String> = line.iter().filter(|t| self.tables[**t as usize] == place).map(|t| t.to_string()).collect();
        format!("[{}]", waiting.join(","))
    }
}

fn write(cells: u64, list: &[u32]) -> Result<Vec<u8>, (u64, u64)> {
    let mut out = vec![0; 9 + 4 * list.len()];
    let mut report = [0; 3];
    unsafe { leprahoon_write(cells, list.as_ptr(), list.len() as u64, out.as_mut_ptr(), out.len() as u64, report.as_mut_ptr()) }
    if report[0] != 0 {
        return Err((report[0], report[1]));
    }
    Ok(out)
}

// A line of a card's text to the start of a buffer: its length, 0 past the last.
fn list(image: &[u8], line: u64, out: &mut [u8]) -> Result<usize, (u64, u64)> {
    let mut report = [0; 3];
    unsafe { leprahoon_list(image.as_ptr(), image.len() as u64, line, out.as_mut_ptr(), out.len() as u64, report.as_mut_ptr()) }
    if report[0] != 0 {
        return Err((report[0], report[1]));
    }
    Ok(report[2] as usize)
}

// The image of a text to the start of a buffer: its size.
fn import(text: &[u8], out: &mut [u8]) -> Result<usize, (u64, u64)> {
    let mut report = [0; 3];
    unsafe { leprahoon_import(text.as_ptr(), text.len() as u64, out.as_mut_ptr(), out.len() as u64, report.as_mut_ptr()) }
    if report[0] != 0 {
        return Err((report[0], report[1]));
    }
    Ok(report[2] as usize)
}

// A card's text, line by line.
fn list_all(image: &[u8]) -> Vec<u8> {
    let mut text = Vec::new();
    let mut line = [0; 20];
    for number in 0.. {
        match list(image, number, &mut line) {
            Ok(length) if length > 0 => text.extend_from_slice(&line[..length]),
            _ => break,
        }
    }
    text
}

const LOADC: u32 = 1;
const LOAD: u32 = 2;
const STORE: u32 = 3;
const LOADR: u32 = 4;
const POP: u32 = 7;
const DUP: u32 = 8;
const ADD: u32 = 9;
const SUB: u32 = 10;
const JUMP: u32 = 20;
const JUMPZ: u32 = 21;
const CREATE: u32 = 26;
const YIELD: u32 = 27;
const EXIT: u32 = 28;
const JOIN: u32 = 29;
const NEWMUTEX: u32 = 31;
const LOCK: u32 = 32;
const UNLOCK: u32 = 33;
const NEWSEMA: u32 = 38;
const DOWN: u32 = 40;

// An instruction as a word.
const fn word(opcode: u32, operand: i32) -> u32 {
    opcode << 24 | operand as u32 & 0xff_ffff
}

// Three workers each add 1 to cell 1 ten times, with a yield inside the mutex whose number is in cell 0; thread 0 waits for the last.
const WORKERS: &[u32] = &[
    word(NEWMUTEX, 0), word(LOADC, 0), word(STORE, 0), word(POP, 0),
    word(LOADC, 14), word(LOADC, 10), word(CREATE, 0),
    word(LOADC, 14), word(LOADC, 10), word(CREATE, 0),
    word(LOADC, 14), word(LOADC, 10), word(CREATE, 0),
    word(JUMP, 34),
    // 14: a worker; its argument, the rounds, goes on top
    word(LOADR, -2),
    // 15: a round
    word(LOADC, 0), word(LOAD, 0), word(LOCK, 0),
    word(LOADC, 1), word(LOAD, 0), word(YIELD, 0), word(LOADC, 1), word(ADD, 0), word(LOADC, 1), word(STORE, 0), word(POP, 0),
    word(LOADC, 0), word(LOAD, 0), word(UNLOCK, 0),
    word(LOADC, 1), word(SUB, 0), word(DUP, 0), word(JUMPZ, 36), word(JUMP, 15),
    // 34: thread 0; the last worker's number is on top
    word(JOIN, 0), word(JUMP, 37),
    // 36: a worker's end
    word(EXIT, 0),
    // 37: the sum is thread 0's result
    word(LOADC, 1), word(LOAD, 0), word(EXIT, 0),
];

// A semaphore with a starting count of 1, lowered twice.
const GATE: &[u32] = &[word(LOADC, 1), word(NEWSEMA, 0), word(DUP, 0), word(DOWN, 0), word(DOWN, 0)];

const STATES: [&str; 5] = ["halted", "running", "stuck", "faulted", "refused"];

fn main() {
    let mut image = match write(2, WORKERS) {
        Ok(image) => image,
        Err((number, place)) => panic!("the card is refused: {number} at {place}"),
    };
    let mut machine = Machine::new();
    machine.set_up(&image);
    let mut steps = 0;
    while machine.report[0] == 1 {
        machine.run(&image, 100);
        steps += machine.report[3];
        println!(
            "{} after {} steps ready:{} mutex 0:{} end of 3:{} cell 1: {}",
            STATES[machine.report[0] as usize], steps, machine.queue(3), machine.queue(4), machine.queue(164 + 3), machine.store[1]
        );
    }
    println!("thread 0 ended with {}", machine.values[0]);

    let text = list_all(&image);
    let start = String::from_utf8_lossy(&text[..22]);
    print!("the text has {} bytes and begins {start}", text.len());
    let mut again = vec![0; image.len()];
    let same = import(&text, &mut again) == Ok(image.len()) && again == image;
    println!("imported again it is {}", if same { "the same card" } else { "another card" });
    if let Err((number, place)) = import(&text, &mut again[1..]) {
        println!("with a byte of room too few: {number} at {place}");
    }
    if let Err((number, place)) = list(&image, 0, &mut again[..7]) {
        println!("its header in 7 bytes: {number} at {place}");
    }

    if let Ok(gate) = write(1, GATE) {
        machine.set_up(&gate);
        machine.run(&gate, 100);
        let (state, steps) = (STATES[machine.report[0] as usize], machine.report[3]);
        println!("{state} after {steps} steps semaphore 0:{} count: {}", machine.queue(132), machine.values[32]);
    }

    image[4] = 2; // another version
    machine.run(&image, 100);
    println!("{} {} at {}", STATES[machine.report[0] as usize], machine.report[1], machine.report[2]);
}
