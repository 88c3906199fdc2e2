//! The display unit: its locations, its commands and its run (01 and 000).

use crate::drawing::{character_size, draw_characters, draw_coordinates, draw_increment};
use crate::drawing::{Beam, Drawn, List, Setting, Sink, Unlisted};
use crate::orders::{Mode, Order, Size, SM};
use crate::pen::{Pen, PenMode};
use crate::step::{look, Fault, Group, Locations, Look};

/// A location word: data in the low eight bits, cursor, parity and "written".
pub mod word {
    pub const CURSOR: u16 = 0x0100;
    pub const PARITY: u16 = 0x0200;
    pub const WRITTEN: u16 = 0x0400;
    pub const FRESH: u16 = PARITY;
    const ONES: u16 = 0x03FF;

    pub fn data(word: u16) -> u8 {
        word as u8
    }

    pub fn has_cursor(word: u16) -> bool {
        word & CURSOR != 0
    }

    pub fn is_written(word: u16) -> bool {
        word & WRITTEN != 0
    }

    pub fn is_good(word: u16) -> bool {
        (word & ONES).count_ones() % 2 == 1
    }

    /// The word that is stored: its ones are odd in number.
    pub fn stored(data: u8, cursor: bool, written: bool) -> u16 {
        let mut word = u16::from(data);
        if cursor {
            word |= CURSOR;
        }
        if word.count_ones() % 2 == 0 {
            word |= PARITY;
        }
        if written {
            word |= WRITTEN;
        }
        word
    }

    pub fn with_cursor(word: u16, cursor: bool) -> u16 {
        stored(data(word), cursor, is_written(word))
    }
}

pub const LOCATIONS: usize = 8192;
pub type Words = [u16; LOCATIONS];

pub mod status {
    pub const ATTENTION: u8 = 0x80;
    pub const BUSY: u8 = 0x10;
    pub const CHANNEL_END: u8 = 0x08;
    pub const DEVICE_END: u8 = 0x04;
    pub const UNIT_CHECK: u8 = 0x02;
    pub const ENDED: u8 = CHANNEL_END | DEVICE_END;
    pub const STOPPED: u8 = ATTENTION | UNIT_CHECK;
}

/// Bits of the first two sense bytes, byte 0 high.
pub mod sense {
    pub const COMMAND_REJECT: u16 = 0x8000;
    pub const DATA_CHECK: u16 = 0x0800;
    pub const BUFFER_RUNNING: u16 = 0x0200;
    pub const LIGHT_PEN_DETECT: u16 = 0x0080;
    pub const END_ORDER_SEQUENCE: u16 = 0x0040;
    pub const CHARACTER_MODE: u16 = 0x0020;
}

/// What regeneration moves; the words stay as they are.
#[derive(Clone, Copy, PartialEq, Eq, Debug)]
pub struct State {
    pub running: bool,
    pub address: u16,
    pub mode: Mode,
    pub beam: Beam,
    pub pen: Pen,
}

#[derive(Clone)]
pub struct Device {
    pub size: Size,
    pub words: Box<Words>,
    pub state: State,
    /// Waiting status, 0 if none waits.
    pub status: u8,
    /// The latched bits of sense bytes 0 and 1.
    pub sense: u16,
    /// Sense has given them.
    sense_given: bool,
}

#[derive(Clone, Copy, PartialEq, Eq, Debug)]
pub struct Refused(pub u8);

/// A command's answer: its status and how many bytes of the room were given.
#[derive(Clone, Copy, PartialEq, Eq, Debug)]
pub struct Answer {
    pub status: u8,
    pub given: usize,
}

#[derive(Clone, Copy, PartialEq, Eq, Debug)]
#[repr(u8)]
pub enum End {
    SightsUsedUp = 0,
    Unwritten = 1,
    NoSuchOrder = 2,
    OddTarget = 3,
    TargetOutside = 4,
    OrderForY = 5,
    OrderSequenceEnded = 6,
    Detect = 7,
    DataCheck = 8,
    NoRoom = 9,
    NotRunning = 10,
}

impl End {
    #[cfg_attr(not(feature = "proved"), allow(dead_code))]
    pub fn of_number(number: u8) -> Option<End> {
        use End::*;
        let all = [
            SightsUsedUp,
            Unwritten,
            NoSuchOrder,
            OddTarget,
            TargetOutside,
            OrderForY,
            OrderSequenceEnded,
            Detect,
            DataCheck,
            NoRoom,
            NotRunning,
        ];
        all.get(number as usize).copied()
    }
}

impl From<Fault> for End {
    fn from(fault: Fault) -> End {
        match fault {
            Fault::Unwritten => End::Unwritten,
            Fault::NoSuchOrder => End::NoSuchOrder,
            Fault::OddTarget => End::OddTarget,
            Fault::TargetOutside => End::TargetOutside,
            Fault::OrderForY => End::OrderForY,
        }
    }
}

#[derive(Clone, Copy, PartialEq, Eq, Debug)]
pub struct Advanced {
    pub steps: usize,
    pub end: End,
}

#[derive(Clone, Copy, PartialEq, Eq, Debug)]
pub struct Ran {
    pub steps: usize,
    pub end: End,
    pub items: usize,
}

/// The valid commands (000 p.18, Table 2, without what belongs to features that are left out).
#[derive(Clone, Copy, PartialEq, Eq)]
enum Command {
    TestIo,
    WriteBuffer,
    ReadBuffer,
    NoOperation,
    Sense,
    ReadCursor,
    SetAddressAndStop,
    Alarm,
    InsertCursor,
    ReadXy,
    RemoveCursor,
    SetAddressAndStart,
}

impl Command {
    fn of_code(code: u8) -> Option<Command> {
        Some(match code {
            0x00 => Command::TestIo,
            0x01 => Command::WriteBuffer,
            0x02 => Command::ReadBuffer,
            0x03 => Command::NoOperation,
            0x04 => Command::Sense,
            0x06 => Command::ReadCursor,
            0x07 => Command::SetAddressAndStop,
            0x0B => Command::Alarm,
            0x0F => Command::InsertCursor,
            0x12 => Command::ReadXy,
            0x1F => Command::RemoveCursor,
            0x27 => Command::SetAddressAndStart,
            _ => return None,
        })
    }

    /// Rejected while the buffer runs (000 p.39).
    fn needs_stopped(self) -> bool {
        use Command::*;
        matches!(self, WriteBuffer | ReadBuffer | ReadCursor | ReadXy | InsertCursor | RemoveCursor)
    }

    fn resets_sense(self) -> bool {
        !matches!(self, Command::TestIo | Command::NoOperation | Command::Sense)
    }

    /// Refusals 10, 3 and 4, by code and data alone.
    fn check(self, data: &[u8], size: Size) -> Result<(), Refused> {
        match (self, data) {
            (Command::WriteBuffer, _) => Ok(()),
            (Command::SetAddressAndStop | Command::SetAddressAndStart, &[high, low]) => {
                let address = u16::from_be_bytes([high, low]);
                if self == Command::SetAddressAndStart && address % 2 == 1 {
                    Err(Refused(3))
                } else if address >= size.locations() {
                    Err(Refused(4))
                } else {
                    Ok(())
                }
            }
            (Command::SetAddressAndStop | Command::SetAddressAndStart, _) => Err(Refused(10)),
            (_, []) => Ok(()),
            _ => Err(Refused(10)),
        }
    }
}

impl Device {
    pub fn fresh(size: u32) -> Result<Device, Refused> {
        let size = Size::new(size).ok_or(Refused(1))?;
        let state = State { running: false, address: 0, mode: Mode::Idle, beam: Beam { x: 0, y: 0 }, pen: Pen::FRESH };
        let words = Box::new([word::FRESH; LOCATIONS]);
        Ok(Device { size, words, state, status: 0, sense: 0, sense_given: false })
    }

    /// A fresh device with these words, bad parity included.
    pub fn load(size: u32, dump: &[u16]) -> Result<Device, Refused> {
        let mut device = Device::fresh(size)?;
        if dump.len() != device.size.locations() as usize {
            return Err(Refused(10));
        }
        if dump.iter().any(|&w| w > 0x07FF) {
            return Err(Refused(9));
        }
        device.words[..dump.len()].copy_from_slice(dump);
        Ok(device)
    }

    /// Halt I/O gives no status and changes nothing.
    pub fn halt(&mut self) {}

    pub fn set_switch(&mut self, closed: bool) {
        self.state.pen.set_switch(closed);
    }

    pub fn command(&mut self, code: u8, data: &[u8], room: &mut [u8]) -> Result<Answer, Refused> {
        let command = Command::of_code(code);
        if let Some(command) = command {
            command.check(data, self.size)?;
        }
        if self.status != 0 {
            let busy = if command == Some(Command::TestIo) { 0 } else { status::BUSY };
            let status = std::mem::take(&mut self.status) | busy;
            return Ok(Answer { status, given: 0 });
        }
        match command {
            Some(command) if !(command.needs_stopped() && self.state.running) => {
                if command.resets_sense() {
                    self.sense = 0;
                }
                Ok(self.perform(command, data, room))
            }
            _ => {
                self.sense = 0;
                self.set_sense(sense::COMMAND_REJECT);
                Ok(Answer { status: status::UNIT_CHECK, given: 0 })
            }
        }
    }

    fn perform(&mut self, command: Command, data: &[u8], room: &mut [u8]) -> Answer {
        let mut given = 0;
        match command {
            Command::TestIo => return Answer { status: 0, given },
            Command::NoOperation | Command::Alarm => {}
            Command::WriteBuffer => self.write(data),
            Command::ReadBuffer => return self.read(room, false),
            Command::ReadCursor => return self.read(room, true),
            Command::Sense => {
                given = give(&self.sense_bytes(), room);
                self.sense_given = true;
            }
            Command::ReadXy => {
                let Beam { x, y } = self.state.beam;
                let [x0, x1] = (x << 2).to_be_bytes();
                let [y0, y1] = (y << 2).to_be_bytes();
                given = give(&[x0, x1, y0, y1], room);
            }
            Command::SetAddressAndStop => {
                self.state.running = false;
                self.state.address = u16::from_be_bytes([data[0], data[1]]);
            }
            Command::SetAddressAndStart => {
                self.state.running = true;
                self.state.address = u16::from_be_bytes([data[0], data[1]]);
                self.state.mode = Mode::Idle;
            }
            Command::InsertCursor => self.insert_cursor(self.state.address),
            Command::RemoveCursor => self.remove_cursor(self.state.address),
        }
        Answer { status: status::ENDED, given }
    }

    /// Sets the cursor of a location; the other one of its pair loses its own (000 p.21, note 3).
    pub fn insert_cursor(&mut self, at: u16) {
        let at = at as usize;
        self.words[at] = word::with_cursor(self.words[at], true);
        let other = &mut self.words[at ^ 1];
        if word::has_cursor(*other) {
            *other = word::with_cursor(*other, false);
        }
    }

    pub fn remove_cursor(&mut self, at: u16) {
        let at = &mut self.words[at as usize];
        *at = word::with_cursor(*at, false);
    }

    fn write(&mut self, data: &[u8]) {
        for &byte in data {
            self.words[self.state.address as usize] = word::stored(byte, false, true);
            self.state.address = self.size.wrap(self.state.address + 1);
        }
    }

    /// Read Buffer and Read Cursor.
    fn read(&mut self, room: &mut [u8], to_cursor: bool) -> Answer {
        for (i, byte) in room.iter_mut().enumerate() {
            let w = self.words[self.state.address as usize];
            let found = to_cursor && word::has_cursor(w);
            *byte = if found { 0x1A } else { word::data(w) };
            if found && word::is_good(w) {
                return Answer { status: status::ENDED, given: i + 1 };
            }
            self.state.address = self.size.wrap(self.state.address + 1);
            if !word::is_good(w) {
                self.set_sense(sense::DATA_CHECK);
                return Answer { status: status::ENDED | status::UNIT_CHECK, given: i + 1 };
            }
        }
        Answer { status: status::ENDED, given: room.len() }
    }

    fn sense_bytes(&self) -> [u8; 4] {
        let (mut bits, mut address) = (self.sense, 0);
        if self.state.running {
            bits |= sense::BUFFER_RUNNING;
        } else {
            address = self.state.address;
            if self.state.mode.is_character() {
                bits |= sense::CHARACTER_MODE;
            }
        }
        let ([b0, b1], [b2, b3]) = (bits.to_be_bytes(), address.to_be_bytes());
        [b0, b1, b2, b3]
    }

    fn set_sense(&mut self, bits: u16) {
        self.sense |= bits;
        self.sense_given = false;
    }

    fn stop(&mut self, bits: u16) {
        if self.sense_given {
            self.sense = 0;
        }
        self.set_sense(bits);
        self.status = status::STOPPED;
    }

    /// Regenerates, one step for each sight.
    pub fn advance(&mut self, sights: &[u8]) -> Result<Advanced, Refused> {
        self.regenerate(sights, &mut Unlisted)
    }

    /// Regenerates, one step for each sight, and puts the items drawn into the list.
    pub fn run(&mut self, sights: &[u8], list: &mut [[u16; 8]]) -> Result<Ran, Refused> {
        let mut list = List::new(list);
        let Advanced { steps, end } = self.regenerate(sights, &mut list)?;
        Ok(Ran { steps, end, items: list.count })
    }

    fn regenerate(&mut self, sights: &[u8], list: &mut impl Sink) -> Result<Advanced, Refused> {
        if sights.iter().any(|&sight| sight > 2) {
            return Err(Refused(8));
        }
        if !self.state.running {
            return Ok(Advanced { steps: 0, end: End::NotRunning });
        }
        let mut state = self.state;
        let (mut steps, mut end) = (0, End::SightsUsedUp);
        while let Some(&sight) = sights.get(steps) {
            match step(&self.words, self.size, &mut state, sight, list) {
                Step::Going => steps += 1,
                Step::Data => {
                    steps += 1;
                    if !state.pen.detects() {
                        steps += stretch(&self.words, self.size, &mut state, sights.len() - steps, list);
                    }
                }
                Step::Stopped(why) => {
                    steps += 1;
                    end = why;
                    break;
                }
                Step::NotDone(why) => {
                    end = why;
                    break;
                }
            }
        }
        self.state = state;
        match end {
            End::OrderSequenceEnded => self.stop(sense::END_ORDER_SEQUENCE),
            End::Detect => self.stop(sense::LIGHT_PEN_DETECT),
            End::DataCheck => self.stop(sense::DATA_CHECK),
            _ => {}
        }
        Ok(Advanced { steps, end })
    }
}

/// Gives as many bytes as fit; the rest of the room stays.
fn give(bytes: &[u8], room: &mut [u8]) -> usize {
    let count = bytes.len().min(room.len());
    room[..count].copy_from_slice(&bytes[..count]);
    count
}

struct UnitWords<'a> {
    words: &'a Words,
    size: Size,
}

impl Locations for UnitWords<'_> {
    fn size(&self) -> Size {
        self.size
    }

    fn group(&self, address: u16) -> Group {
        let (a, b) = (self.words[address as usize], self.words[address as usize + 1]);
        if !(word::is_written(a) && word::is_written(b)) {
            Group::Unwritten
        } else if !word::is_good(a) {
            Group::BadParity(address)
        } else if !word::is_good(b) {
            Group::BadParity(address + 1)
        } else {
            Group::Bytes(word::data(a), word::data(b))
        }
    }
}

enum Step {
    Going,
    /// Done, and it was a step over data.
    Data,
    /// Done, and regeneration stopped.
    Stopped(End),
    NotDone(End),
}

/// One step: moves the state and puts what is drawn into the list.
fn step(words: &Words, size: Size, state: &mut State, sight: u8, list: &mut impl Sink) -> Step {
    let State { address, mode, beam, .. } = *state;
    let sight = if state.pen.detects() { sight } else { 0 };
    let setting = Setting { address, beam, sight };
    let (drawn, next) = match look(&UnitWords { words, size }, address, mode) {
        Look::Fault(fault) => {
            state.running = false;
            return Step::NotDone(fault.into());
        }
        Look::BadParity(address) => {
            state.running = false;
            state.address = address;
            return Step::NotDone(End::DataCheck);
        }
        Look::Order { order, next } => return obey(order, next, state),
        Look::Transfer { target } => return go(target, state),
        Look::TransferOnNoDetect { target, next } => {
            let taken = state.pen.transfers();
            return go(if taken { target } else { next }, state);
        }
        Look::Coordinates { bytes, next } => (draw_coordinates(bytes, mode == Mode::Vector, setting, list), next),
        Look::Word { bytes, next } => match mode {
            Mode::IncrementalPoint => (draw_increment(bytes, false, setting, list), next),
            Mode::IncrementalVector => (draw_increment(bytes, true, setting, list), next),
            Mode::Basic | Mode::Large => {
                let cursors = [words[address as usize], words[address as usize + 1]].map(word::has_cursor);
                (draw_characters(bytes, cursors, character_size(mode), setting, list), next)
            }
            _ => {
                state.address = next;
                return Step::Data;
            }
        },
    };
    let Some(drawn) = drawn else { return Step::NotDone(End::NoRoom) };
    state.beam = drawn.beam;
    match drawn.detected {
        Some(detected) => {
            state.address = detected;
            state.running = false;
            state.pen.detect();
            Step::Stopped(End::Detect)
        }
        None => {
            state.address = next;
            Step::Data
        }
    }
}

/// For each location word, whether it is written with good parity, and whether it is that and not the set mode byte.
static READABLE: [bool; 2048] = table(false);
static DATA: [bool; 2048] = table(true);

const fn table(leading: bool) -> [bool; 2048] {
    let mut table = [false; 2048];
    let mut w = 0;
    while w < 2048 {
        let word = w as u16;
        let good = (word & 0x03FF).count_ones() % 2 == 1;
        table[w] = word & word::WRITTEN != 0 && good && !(leading && word as u8 == SM);
        w += 1;
    }
    table
}

/// Steps over data that nothing stops and that end below the size, at most so many, while the pen detects nothing;
/// gives how many they were.
fn stretch(words: &Words, size: Size, state: &mut State, most: usize, list: &mut impl Sink) -> usize {
    let rest = &words[state.address as usize..size.locations() as usize];
    match state.mode {
        Mode::Idle => over(rest, state, size, most, |_: [u16; 2], setting| at_rest(setting)),
        Mode::Point => {
            over(rest, state, size, most, |w, setting| draw_coordinates(w.map(word::data), false, setting, list))
        }
        Mode::Vector => {
            over(rest, state, size, most, |w, setting| draw_coordinates(w.map(word::data), true, setting, list))
        }
        Mode::IncrementalPoint => {
            over(rest, state, size, most, |w, setting| draw_increment(w.map(word::data), false, setting, list))
        }
        Mode::IncrementalVector => {
            over(rest, state, size, most, |w, setting| draw_increment(w.map(word::data), true, setting, list))
        }
        mode @ (Mode::Basic | Mode::Large) => over(rest, state, size, most, |w: [u16; 2], setting| {
            draw_characters(w.map(word::data), w.map(word::has_cursor), character_size(mode), setting, list)
        }),
    }
}

fn at_rest(setting: Setting) -> Option<Drawn> {
    Some(Drawn { beam: setting.beam, detected: None })
}

#[inline(always)]
fn over<const N: usize>(
    rest: &[u16],
    state: &mut State,
    size: Size,
    most: usize,
    mut each: impl FnMut([u16; N], Setting) -> Option<Drawn>,
) -> usize {
    let State { mut address, mut beam, .. } = *state;
    let mut steps = 0;
    for group in rest.chunks_exact(N).take(most) {
        let group: [u16; N] = group.try_into().expect("it has N words");
        let is_data = group.chunks_exact(2).all(|w| DATA[w[0] as usize % 2048] & READABLE[w[1] as usize % 2048]);
        if !is_data {
            break;
        }
        let Some(drawn) = each(group, Setting { address, beam, sight: 0 }) else { break };
        beam = drawn.beam;
        address += N as u16;
        steps += 1;
    }
    state.beam = beam;
    state.address = size.wrap(address);
    steps
}

fn obey(order: Order, next: u16, state: &mut State) -> Step {
    state.address = next;
    state.mode = Mode::Idle;
    match order {
        Order::Enter(mode) => state.mode = mode,
        Order::End => {
            state.running = false;
            return Step::Stopped(End::OrderSequenceEnded);
        }
        Order::Timer => state.pen.timer(),
        Order::SwitchDetect => state.pen.mode = PenMode::Normal,
        Order::Disable => state.pen.mode = PenMode::Disabled,
        Order::NoSwitch => state.pen.no_switch(),
        Order::NoOp | Order::Transfer | Order::TransferOnNoDetect => {}
    }
    Step::Going
}

fn go(address: u16, state: &mut State) -> Step {
    state.address = address;
    state.mode = Mode::Idle;
    Step::Going
}
