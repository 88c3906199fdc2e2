//! Random numbers from a fixed seed, and random images, dumps and console scripts made of them.

use crate::device::word;
use crate::orders::{ROWS, SM};
use std::fmt::Write;

/// splitmix64.
pub struct Random(u64);

impl Random {
    pub fn new(seed: u64) -> Random {
        Random(seed)
    }

    pub fn next(&mut self) -> u64 {
        self.0 = self.0.wrapping_add(0x9E37_79B9_7F4A_7C15);
        let mut z = self.0;
        z = (z ^ (z >> 30)).wrapping_mul(0xBF58_476D_1CE4_E5B9);
        z = (z ^ (z >> 27)).wrapping_mul(0x94D0_49BB_1331_11EB);
        z ^ (z >> 31)
    }

    /// A number below `n`.
    pub fn below(&mut self, n: usize) -> usize {
        (self.next() % n as u64) as usize
    }

    /// True once in `n` times.
    pub fn once_in(&mut self, n: usize) -> bool {
        self.below(n) == 0
    }

    pub fn byte(&mut self) -> u8 {
        self.next() as u8
    }

    pub fn bytes(&mut self, n: usize) -> Vec<u8> {
        (0..n).map(|_| self.byte()).collect()
    }

    pub fn pick<T: Copy>(&mut self, from: &[T]) -> T {
        from[self.below(from.len())]
    }

    pub fn size(&mut self) -> u32 {
        self.pick(&[4096, 8192])
    }

    /// A length up to `most`: tiny, short or long alike.
    pub fn length(&mut self, most: usize) -> usize {
        let scale = self.pick(&[8, 64, 512, most]);
        self.below(scale.min(most) + 1)
    }

    fn code(&mut self) -> u8 {
        self.pick(&ROWS).code
    }

    /// A character, once in `lines` times a new line.
    fn character(&mut self, lines: usize) -> u8 {
        if self.once_in(lines) {
            return 0x15;
        }
        match self.below(4) {
            0 => self.pick(&[0x00, 0x40]),
            1 => self.data_byte(),
            _ => 0xC1 + self.below(9) as u8,
        }
    }

    fn data_byte(&mut self) -> u8 {
        match self.byte() {
            SM => 0x40,
            byte => byte,
        }
    }
}

/// An image: noise, a program that may well pass, or such a program damaged.
pub fn image(random: &mut Random, size: u32) -> Vec<u8> {
    let length = random.length(size as usize);
    match random.below(8) {
        0 => random.bytes(length),
        1 => crowded(random, length),
        2 => dense_transfers(random, length / 4, size),
        3 => {
            let mut image = program(random, length, size);
            for _ in 0..1 + random.below(4) {
                if let Some(last) = image.len().checked_sub(1) {
                    let at = random.below(last + 1);
                    image[at] = random.byte();
                }
            }
            image
        }
        4 => {
            let mut image = program(random, length, size);
            image.truncate(length - random.below(length.min(9) + 1));
            image
        }
        _ => program(random, length, size),
    }
}

/// Set mode bytes and order codes everywhere.
fn crowded(random: &mut Random, length: usize) -> Vec<u8> {
    (0..length)
        .map(|i| match (i % 2, random.below(4)) {
            (0, 0..=1) => SM,
            (1, 0..=2) => random.code(),
            _ => random.byte() % 16,
        })
        .collect()
}

/// Transfers on no detect to each other, and a transfer to the first at the end.
pub fn dense_transfers(random: &mut Random, count: usize, size: u32) -> Vec<u8> {
    let mut image = Vec::new();
    for i in 0..count.min(size as usize / 4) {
        let last = i + 1 == count;
        let target = if last { 0 } else { 4 * random.below(count) as u16 };
        image.extend([SM, if last { 0xFF } else { 0xFD }]);
        image.extend(target.to_be_bytes());
    }
    image
}

/// Orders with fitting data; targets are even and mostly orders; closed by a transfer or an end.
pub fn program(random: &mut Random, length: usize, size: u32) -> Vec<u8> {
    let mut image = Vec::new();
    let mut orders = vec![0u16];
    while image.len() + 64 < length {
        orders.push(image.len() as u16);
        let code = random.code();
        let data = 2 * random.below(12);
        match code {
            0x81 if !random.once_in(6) => image.extend([SM, 0x80]),
            0xFF if !random.once_in(6) => image.extend([SM, 0x82]),
            0xFD | 0xFF => {
                let target =
                    if random.once_in(9) { 2 * random.below(size as usize / 2) as u16 } else { random.pick(&orders) };
                image.extend([SM, code]);
                image.extend(target.to_be_bytes());
            }
            0xC0 => {
                image.extend([SM, code]);
                image.extend(random.bytes(2));
            }
            0x00 | 0x02 => {
                image.extend([SM, code]);
                for _ in 0..data / 2 {
                    image.extend([random.data_byte(), random.byte(), random.data_byte(), random.byte()]);
                }
            }
            _ => {
                image.extend([SM, code]);
                for _ in 0..data / 2 {
                    image.extend([random.data_byte(), random.byte()]);
                }
            }
        }
    }
    match random.below(4) {
        0 => image.extend([SM, 0x81]),
        _ => {
            image.extend([SM, 0xFF]);
            image.extend(random.pick(&orders).to_be_bytes());
        }
    }
    image.truncate(size as usize);
    image
}

/// A dump of the whole buffer with cursors, and sometimes with damage.
pub fn dump(random: &mut Random, size: u32) -> Vec<u16> {
    let image = image(random, size);
    let (cursors, damage) = (random.pick(&[2, 16, 9999]), random.pick(&[64, 2048, 99_999, 99_999]));
    (0..size as usize)
        .map(|i| {
            let cursor = random.once_in(cursors);
            let word = match image.get(i) {
                Some(&byte) => word::stored(byte, cursor, true),
                None => word::FRESH,
            };
            if random.once_in(damage) {
                word ^ (1 << random.below(11))
            } else {
                word
            }
        })
        .collect()
}

pub fn sights(random: &mut Random, most: usize) -> Vec<u8> {
    let (count, seldom) = (random.length(most), random.pick(&[2, 9, 200]));
    (0..count).map(|_| if random.once_in(seldom) { random.below(3) as u8 } else { 0 }).collect()
}

/// A program from `base` on, round the buffer: fields of characters between other orders. Beside it stand the characters'
/// places in it.
fn texts(random: &mut Random, base: usize, size: usize) -> (Vec<u8>, Vec<usize>) {
    let fields = if random.once_in(8) { &[0x44, 0x45][..] } else { &[0x40, 0x41, 0x44, 0x45, 0x50, 0x51, 0x52] };
    let lines = random.pick(&[2, 6, 99]);
    let (mut program, mut characters) = (Vec::new(), Vec::new());
    let (mut starts, mut targets) = (Vec::new(), Vec::new());
    for _ in 0..random.pick(&[1, 3, 5, 8]) {
        starts.push(base + program.len());
        let code = match random.below(40) {
            0 => random.byte(),
            1..=5 => random.code(),
            6..=10 => random.pick(&[0x82, 0x82, 0x84, 0x85, 0x86]),
            11..=14 => 0xFD,
            _ => random.pick(fields),
        };
        program.extend([SM, code]);
        match code {
            0xFD | 0xFF => {
                targets.push(program.len());
                program.extend([0, 0]);
            }
            0xC0 => program.extend(random.bytes(2)),
            _ => {
                let from = program.len();
                for _ in 0..random.below(7) {
                    let second = if random.once_in(30) { SM } else { random.character(lines) };
                    program.extend([random.character(lines), second]);
                }
                if fields.contains(&code) {
                    characters.extend(from..program.len());
                }
            }
        }
    }
    match random.below(6) {
        0 => program.extend([SM, 0x81]),
        1 => {}
        _ => {
            program.extend([SM, 0xFF]);
            targets.push(program.len());
            program.extend([0, 0]);
        }
    }
    for at in targets {
        let target = if random.once_in(20) { random.next() as usize } else { random.pick(&starts) % size };
        program[at..at + 2].copy_from_slice(&(target as u16).to_be_bytes());
    }
    (program, characters)
}

/// A console script: programs written, started and run, texts typed at, between good and bad requests of all kinds.
pub fn script(random: &mut Random) -> Vec<u8> {
    let mut script = String::new();
    let mut size = 4096;
    for _ in 0..1 + random.below(6) {
        for _ in 0..random.below(8) {
            request(random, &mut size, &mut script);
            script.push('\n');
        }
        if random.once_in(3) {
            typing(random, &mut size, &mut script);
        } else {
            episode(random, size, &mut script);
        }
    }
    script.into_bytes()
}

/// Writes or loads texts and sets cursors in them; may start them; presses keys and looks at the words.
fn typing(random: &mut Random, size: &mut u32, script: &mut String) {
    if random.once_in(2) {
        *size = random.size();
        let _ = writeln!(script, "fresh {size}");
    }
    let locations = *size as usize;
    let base = random.pick(&[0, 1000, locations - 8, locations - 20, locations - 40]);
    let (program, characters) = texts(random, base, locations);
    let place = |random: &mut Random| {
        let any = characters.is_empty() || random.once_in(9);
        (base + if any { random.below(program.len()) } else { random.pick(&characters) }) % locations
    };
    if random.once_in(4) {
        let mut words = vec![word::FRESH; locations];
        for (i, &byte) in program.iter().enumerate() {
            words[(base + i) % locations] = word::stored(byte, false, true);
        }
        for _ in 0..random.pick(&[0, 1, 1, 2, 9]) {
            let at = place(random);
            words[at] = word::with_cursor(words[at], true);
            if random.once_in(2) {
                words[at ^ 1] = word::with_cursor(words[at ^ 1], true);
            }
        }
        for _ in 0..random.pick(&[0, 1, 3]) {
            words[place(random)] ^= 1 << random.below(11);
        }
        load_words(*size, &words, script);
        script.push('\n');
    } else {
        let _ = write!(script, "command 00 0\ncommand 07 0 {base:04X}\ncommand 01 0 ");
        program.iter().for_each(|b| write!(script, "{b:02X}").expect("a string takes it all"));
        script.push('\n');
        for _ in 0..random.pick(&[0, 1, 1, 1, 2, 3]) {
            let _ = writeln!(script, "command 07 0 {:04X}\ncommand 0F 0", place(random));
        }
    }
    if random.once_in(2) {
        script.push_str(random.pick(&["switch closed\n", "switch open\nswitch closed\n"]));
    }
    if random.once_in(2) {
        let _ = writeln!(script, "command 27 0 {base:04X}");
    }
    for _ in 0..random.below(32) {
        match random.below(16) {
            0 => script.push_str("cursor"),
            1 => run_request(random, script),
            2 => {
                let insert_or_remove = random.pick(&["0F", "0F", "1F"]);
                let _ = write!(script, "command 07 0 {:04X}\ncommand {insert_or_remove} 0", place(random));
            }
            _ => key_request(random, script),
        }
        let _ = writeln!(script, "\nwords {base} {}", program.len().min(locations - base));
        if base + program.len() > locations {
            let _ = writeln!(script, "words 0 {}", base + program.len() - locations);
        }
    }
    if random.once_in(8) {
        let _ = writeln!(script, "words 0 {size}");
    }
}

fn key_request(random: &mut Random, line: &mut String) {
    match random.below(12) {
        0 => {
            let _ = write!(line, "key {:02X}", random.byte());
        }
        1..=4 => {
            let _ = write!(line, "key {:02X}", random.pick(&[0x00, 0x40, 0x4A, 0x61, 0x7F, 0xC1, 0xD9, 0xE2, 0xF0]));
        }
        5..=7 => line.push_str("key advance"),
        8..=10 => line.push_str("key backspace"),
        _ => line.push_str("key jump"),
    }
}

/// Loads a dump, or writes a program at 0 with cursors here and there; starts it and runs it a few times.
fn episode(random: &mut Random, size: u32, script: &mut String) {
    if random.once_in(6) {
        load_request(random, size, script);
        script.push('\n');
    } else {
        let length = random.pick(&[66, 100, 300, 1000]);
        let program = program(random, length, size);
        script.push_str("command 00 0\ncommand 07 0 0000\ncommand 01 0 ");
        program.iter().for_each(|b| write!(script, "{b:02X}").expect("a string takes it all"));
        script.push('\n');
        for _ in 0..random.pick(&[0, 0, 2, 20]) {
            let _ = writeln!(script, "command 07 0 {:04X}\ncommand 0F 0", random.below(program.len()));
        }
    }
    if random.once_in(2) {
        script.push_str(random.pick(&["switch closed\n", "switch open\nswitch closed\n"]));
    }
    script.push_str("command 27 0 0000\n");
    for _ in 0..1 + random.below(4) {
        run_request(random, script);
        script.push_str(random.pick(&[
            "\n",
            "\nstate\n",
            "\ncommand 04 4\n",
            "\ncommand 00 0\ncommand 04 4\ncommand 12 4\n",
        ]));
    }
}

fn load_request(random: &mut Random, size: u32, line: &mut String) {
    let mut words = dump(random, size);
    if random.once_in(8) {
        words.pop();
    }
    load_words(size, &words, line);
}

fn load_words(size: u32, words: &[u16], line: &mut String) {
    let _ = write!(line, "load {size} ");
    words.iter().for_each(|w| write!(line, "{w:04X}").expect("a string takes it all"));
}

fn run_request(random: &mut Random, line: &mut String) {
    let _ = write!(line, "run {}", random.pick(&[0, 1, 2, 5, 300, 4096, 4096]));
    let sights = sights(random, 300);
    if !sights.is_empty() {
        line.push(' ');
        sights.iter().for_each(|s| line.push(char::from(b'0' + s)));
        if random.once_in(40) {
            line.push('3');
        }
    }
}

fn request(random: &mut Random, size: &mut u32, line: &mut String) {
    match random.below(28) {
        0 if random.once_in(4) => {
            *size = random.size();
            let _ = write!(line, "fresh {size}");
        }
        0 => line.push_str("state"),
        1 if random.once_in(6) => {
            *size = random.size();
            load_request(random, *size, line);
        }
        1 => line.push_str("halt"),
        2 | 3 => line.push_str(if random.once_in(2) { "switch open" } else { "switch closed" }),
        4 | 5 => {
            let from = random.below(*size as usize);
            let _ = write!(line, "words {from} {}", random.below(20));
        }
        6..=9 => run_request(random, line),
        10..=13 => {
            let address = if random.once_in(12) { random.next() as u16 } else { 2 * random.below(64) as u16 };
            let code = random.pick(&["27", "27", "07"]);
            let _ = write!(line, "command {code} 0 {address:04X}");
        }
        14 | 15 => {
            line.push_str("command 01 0");
            let data = if random.once_in(30) {
                let more = random.pick(&[0, 1, 500]);
                random.bytes(*size as usize + more)
            } else {
                let length = random.length(600);
                image_of(random, length, *size)
            };
            if !data.is_empty() {
                line.push(' ');
                data.iter().for_each(|b| write!(line, "{b:02X}").expect("a string takes it all"));
            }
        }
        16 => {
            let _ = write!(line, "command {:02X} {}", random.byte(), random.below(6));
        }
        17 if random.once_in(8) => {
            // The longest line, or one byte more.
            let sights = 40_000 - "run 4096 ".len() + random.below(2);
            let _ = write!(line, "run 4096 {:0>sights$}", 0);
        }
        17 => {
            let bad = [
                "",
                "# nothing",
                "run",
                "run 4097",
                "command 4 0",
                "words 0 0",
                "fresh 4096 ",
                "state ",
                "halt x",
                "command 01 0 0",
                "command 01 65536",
                "load 4096 02000",
                "run 1 0a",
                "fresh 123456",
                "COMMAND 00 0",
                "command 00 0 00",
                "key",
                "key 1",
                "key c1",
                "key C1C2",
                "key end",
                "key jump ",
                "cursor yes",
            ];
            line.push_str(random.pick(&bad));
        }
        18..=20 => key_request(random, line),
        21 => line.push_str("cursor"),
        _ => {
            let code = random.pick(&["00", "02", "03", "04", "04", "06", "0B", "0F", "12", "1F"]);
            let _ = write!(line, "command {code} {}", random.pick(&[0, 1, 3, 4, 40, 9000]));
        }
    }
}

fn image_of(random: &mut Random, length: usize, size: u32) -> Vec<u8> {
    let mut data = image(random, size);
    data.truncate(length);
    data
}
