//! The console language: one request a line, its answer printed.

use crate::device::{Answer, Device, Refused};
use crate::orders::Mode;
use crate::pen::PenMode;
use crate::typing::Key;
use std::io::Write;

const LONGEST_LINE: usize = 40_000;
const MOST_ITEMS: u32 = 4096;

/// What `console` prints for a script.
pub fn answers(script: &[u8]) -> Vec<u8> {
    let mut console = Console { unit: Device::fresh(4096).expect("a size"), out: Vec::new() };
    let mut lines: Vec<&[u8]> = script.split(|&b| b == b'\n').collect();
    if lines.last().is_some_and(|line| line.is_empty()) {
        lines.pop();
    }
    for line in lines {
        console.line(line);
    }
    console.out
}

struct Console {
    unit: Device,
    out: Vec<u8>,
}

macro_rules! say {
    ($console:expr, $($words:tt)*) => { writeln!($console.out, $($words)*).expect("a vector takes it all") };
}

impl Console {
    fn line(&mut self, line: &[u8]) {
        if line.is_empty() || line[0] == b'#' {
            return;
        }
        if line.len() > LONGEST_LINE || self.request(line).is_none() {
            say!(self, "error");
        }
    }

    /// Nothing if the line is no request.
    fn request(&mut self, line: &[u8]) -> Option<()> {
        let words: Vec<&[u8]> = line.split(|&b| b == b' ').collect();
        match words[..] {
            [b"fresh", size] => {
                let unit = Device::fresh(number(size)?);
                self.replace(unit);
            }
            [b"load", size, dump] => {
                let unit = Device::load(number(size)?, &location_words(dump)?);
                self.replace(unit);
            }
            [b"command", code, room] => self.command(code, room, &[])?,
            [b"command", code, room, data] => self.command(code, room, &bytes(data)?)?,
            [b"halt"] => {
                self.unit.halt();
                say!(self, "ok");
            }
            [b"switch", b"open"] => {
                self.unit.set_switch(false);
                say!(self, "ok");
            }
            [b"switch", b"closed"] => {
                self.unit.set_switch(true);
                say!(self, "ok");
            }
            [b"run", room] => self.run(room, &[])?,
            [b"run", room, sights] => self.run(room, &digits(sights)?)?,
            [b"key", name] => self.key(name)?,
            [b"cursor"] => say!(self, "{}", if self.unit.cursor().is_some() { "yes" } else { "no" }),
            [b"state"] => self.state(),
            [b"words", from, count] => self.words(number(from)?, number(count)?)?,
            _ => return None,
        }
        Some(())
    }

    fn replace(&mut self, unit: Result<Device, Refused>) {
        match unit {
            Ok(unit) => {
                self.unit = unit;
                say!(self, "ok");
            }
            Err(Refused(n)) => say!(self, "refused {n}"),
        }
    }

    fn command(&mut self, code: &[u8], room: &[u8], data: &[u8]) -> Option<()> {
        let &[code] = &bytes(code)?[..] else { return None };
        let room = number(room).filter(|&room| room <= 65535)?;
        let mut room = vec![0; room as usize];
        match self.unit.command(code, data, &mut room) {
            Ok(Answer { status, given: 0 }) => say!(self, "status {status:02X}"),
            Ok(Answer { status, given }) => {
                write!(self.out, "status {status:02X} ").expect("a vector takes it all");
                for byte in &room[..given] {
                    write!(self.out, "{byte:02X}").expect("a vector takes it all");
                }
                say!(self, "");
            }
            Err(Refused(n)) => say!(self, "refused {n}"),
        }
        Some(())
    }

    fn run(&mut self, room: &[u8], sights: &[u8]) -> Option<()> {
        let room = number(room).filter(|&room| room <= MOST_ITEMS)?;
        let mut list = vec![[0; 8]; room as usize];
        match self.unit.run(sights, &mut list) {
            Ok(ran) => {
                say!(self, "ran {} end {} items {}", ran.steps, ran.end as u8, ran.items);
                for item in &list[..ran.items] {
                    self.item(item);
                }
            }
            Err(Refused(n)) => say!(self, "refused {n}"),
        }
        Some(())
    }

    fn item(&mut self, &[kind, x, y, to_x, to_y, code, size, address]: &[u16; 8]) {
        let size = if size == 1 { "basic" } else { "large" };
        let off = if code == 1 { " off" } else { "" };
        match kind {
            1 => say!(self, "point {x} {y}{off} at {address}"),
            2 => say!(self, "vector {x} {y} {to_x} {to_y}{off} at {address}"),
            3 => say!(self, "character {x} {y} code {code:02X} {size} at {address}"),
            _ => say!(self, "cursor {x} {y} code {code:02X} {size} at {address}"),
        }
    }

    fn key(&mut self, name: &[u8]) -> Option<()> {
        let key = match name {
            b"advance" => Ok(Key::Advance),
            b"backspace" => Ok(Key::Backspace),
            b"jump" => Ok(Key::Jump),
            _ => {
                let &[code] = &bytes(name)?[..] else { return None };
                Key::of_code(code)
            }
        };
        match key {
            Ok(key) => say!(self, "{}", if self.unit.press(key) { "heard" } else { "unheard" }),
            Err(Refused(n)) => say!(self, "refused {n}"),
        }
        Some(())
    }

    fn state(&mut self) {
        let state = self.unit.state;
        let running = if state.running { "running" } else { "stopped" };
        let mode = match state.mode {
            Mode::Idle => "idle",
            Mode::Point => "point",
            Mode::Vector => "vector",
            Mode::IncrementalPoint => "ipoint",
            Mode::IncrementalVector => "ivector",
            Mode::Basic => "basic",
            Mode::Large => "large",
        };
        let pen = match state.pen.mode {
            PenMode::Normal => "normal",
            PenMode::Disabled => "disabled",
            PenMode::NoSwitch => "noswitch",
        };
        let switch = if state.pen.closed { "closed" } else { "open" };
        let armed = if state.pen.armed { "yes" } else { "no" };
        let [s0, s1] = self.unit.sense.to_be_bytes();
        say!(
            self,
            "{running} at {} mode {mode} beam {} {} pen {pen} switch {switch} armed {armed} status {:02X} sense {s0:02X} {s1:02X}",
            state.address,
            state.beam.x,
            state.beam.y,
            self.unit.status
        );
    }

    fn words(&mut self, from: u32, count: u32) -> Option<()> {
        if count == 0 || from + count > u32::from(self.unit.size.locations()) {
            return None;
        }
        for &word in &self.unit.words[from as usize..(from + count) as usize] {
            write!(self.out, "{word:04X}").expect("a vector takes it all");
        }
        say!(self, "");
        Some(())
    }
}

/// One to five decimal digits.
fn number(word: &[u8]) -> Option<u32> {
    if word.is_empty() || word.len() > 5 {
        return None;
    }
    word.iter().try_fold(0, |n, &b| Some(n * 10 + u32::from(digit(b)?)))
}

fn digit(byte: u8) -> Option<u8> {
    byte.is_ascii_digit().then(|| byte - b'0')
}

/// One or more decimal digits, a number each.
fn digits(word: &[u8]) -> Option<Vec<u8>> {
    if word.is_empty() {
        return None;
    }
    word.iter().map(|&b| digit(b)).collect()
}

fn hex_digit(byte: u8) -> Option<u8> {
    match byte {
        b'0'..=b'9' => Some(byte - b'0'),
        b'A'..=b'F' => Some(byte - b'A' + 10),
        _ => None,
    }
}

/// One or more bytes in capital hex.
fn bytes(word: &[u8]) -> Option<Vec<u8>> {
    if word.is_empty() || word.len() % 2 == 1 {
        return None;
    }
    word.chunks(2).map(|pair| Some(hex_digit(pair[0])? << 4 | hex_digit(pair[1])?)).collect()
}

/// One or more words in capital hex, four digits each.
fn location_words(word: &[u8]) -> Option<Vec<u16>> {
    if !word.len().is_multiple_of(4) {
        return None;
    }
    Some(bytes(word)?.chunks(2).map(|pair| u16::from_be_bytes([pair[0], pair[1]])).collect())
}
