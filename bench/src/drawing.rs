//! The beam and what a step draws with it: 01, "Beam" and "Drawn item".

use crate::orders::{Mode, SM};

#[derive(Clone, Copy, PartialEq, Eq, Debug)]
pub struct Beam {
    pub x: u16,
    pub y: u16,
}

#[derive(Clone, Copy, PartialEq, Eq, Debug)]
pub enum CharacterSize {
    Basic,
    Large,
}

#[derive(Clone, Copy, PartialEq, Eq, Debug)]
pub enum Item {
    Point { at: Beam, off: bool, address: u16 },
    Vector { from: Beam, to: Beam, off: bool, address: u16 },
    Character { at: Beam, code: u8, size: CharacterSize, address: u16 },
    Cursor { at: Beam, code: u8, size: CharacterSize, address: u16 },
}

impl Item {
    /// The item's eight numbers: kind, from X, from Y, to X, to Y, code, size, address.
    pub fn numbers(self) -> [u16; 8] {
        match self {
            Item::Point { at, off, address } => [1, at.x, at.y, at.x, at.y, off.into(), 0, address],
            Item::Vector { from, to, off, address } => [2, from.x, from.y, to.x, to.y, off.into(), 0, address],
            Item::Character { at, code, size, address } => {
                [3, at.x, at.y, at.x, at.y, code.into(), size.number(), address]
            }
            Item::Cursor { at, code, size, address } => {
                [4, at.x, at.y, at.x, at.y, code.into(), size.number(), address]
            }
        }
    }
}

impl CharacterSize {
    fn number(self) -> u16 {
        match self {
            CharacterSize::Basic => 1,
            CharacterSize::Large => 2,
        }
    }

    fn spacing(self) -> u16 {
        match self {
            CharacterSize::Basic => 14,
            CharacterSize::Large => 21,
        }
    }

    fn line(self) -> u16 {
        match self {
            CharacterSize::Basic => 20,
            CharacterSize::Large => 30,
        }
    }
}

impl Beam {
    fn new_line(self, size: CharacterSize) -> Beam {
        Beam { x: 0, y: self.y.checked_sub(size.line()).unwrap_or(1023) }
    }

    fn space(self, size: CharacterSize) -> Beam {
        let x = self.x + size.spacing();
        if x > 1023 {
            self.new_line(size)
        } else {
            Beam { x, y: self.y }
        }
    }
}

/// Where drawn items go.
pub trait Sink {
    /// How many more it takes.
    fn room(&self) -> usize;
    /// Puts an item behind those that it has; it has room.
    fn put(&mut self, item: Item);
}

/// The lent list: eight numbers for each item.
pub struct List<'a> {
    room: &'a mut [[u16; 8]],
    pub count: usize,
}

impl<'a> List<'a> {
    pub fn new(room: &'a mut [[u16; 8]]) -> List<'a> {
        List { room, count: 0 }
    }
}

impl Sink for List<'_> {
    fn room(&self) -> usize {
        self.room.len() - self.count
    }

    fn put(&mut self, item: Item) {
        self.room[self.count] = item.numbers();
        self.count += 1;
    }
}

/// Items that nobody asks for.
pub struct Unlisted;

impl Sink for Unlisted {
    fn room(&self) -> usize {
        usize::MAX
    }

    fn put(&mut self, _: Item) {}
}

/// How many items there would be.
struct Counted(usize);

impl Sink for Counted {
    fn room(&self) -> usize {
        usize::MAX
    }

    fn put(&mut self, _: Item) {
        self.0 += 1;
    }
}

/// What a step of data does, if its items fit.
#[derive(Clone, Copy, PartialEq, Eq, Debug)]
pub struct Drawn {
    /// The beam after it.
    pub beam: Beam,
    /// The address of the item that the pen has detected, if it has.
    pub detected: Option<u16>,
}

/// A twelve-bit coordinate, its two lowest bits dropped.
pub fn coordinate(high: u8, low: u8) -> u16 {
    u16::from_be_bytes([high & 0x0F, low]) >> 2
}

/// Adds an increment, bits 0 to 6 as a signed number: the ten bits that the sum keeps, and whether it left 0 to 1,023 (C-19).
pub fn add_increment(coordinate: u16, increment: u8) -> (u16, bool) {
    let distance = i16::from(increment as i8 >> 1);
    let sum = coordinate as i16 + distance;
    (sum as u16 & 1023, !(0..=1023).contains(&sum))
}

/// What a step of data is given beside its bytes. `sight` is what the pen would detect, 0 for nothing.
#[derive(Clone, Copy)]
pub struct Setting {
    pub address: u16,
    pub beam: Beam,
    pub sight: u8,
}

/// Four bytes of data in point or vector mode. Nothing if the list has no room.
#[inline(always)]
pub fn draw_coordinates(bytes: [u8; 4], vector: bool, setting: Setting, list: &mut impl Sink) -> Option<Drawn> {
    let to = Beam { x: coordinate(bytes[0], bytes[1]), y: coordinate(bytes[2], bytes[3]) };
    draw_move(to, false, bytes[0] & 0x40 != 0, vector, setting, list)
}

/// A word of data in an incremental mode.
#[inline(always)]
pub fn draw_increment(bytes: [u8; 2], vector: bool, setting: Setting, list: &mut impl Sink) -> Option<Drawn> {
    let Beam { x, y } = setting.beam;
    let ((x, x_off), (y, y_off)) = (add_increment(x, bytes[0]), add_increment(y, bytes[1]));
    draw_move(Beam { x, y }, x_off || y_off, bytes[1] & 1 != 0, vector, setting, list)
}

#[inline(always)]
fn draw_move(
    to: Beam,
    off: bool,
    blanked: bool,
    vector: bool,
    setting: Setting,
    list: &mut impl Sink,
) -> Option<Drawn> {
    let Setting { address, beam: from, sight } = setting;
    if blanked {
        return Some(Drawn { beam: to, detected: None });
    }
    if list.room() == 0 {
        return None;
    }
    list.put(if vector { Item::Vector { from, to, off, address } } else { Item::Point { at: to, off, address } });
    Some(Drawn { beam: to, detected: (sight == 1).then_some(address) })
}

/// A word of data in a character mode: four items at most.
#[inline(always)]
pub fn draw_characters(
    bytes: [u8; 2],
    cursors: [bool; 2],
    size: CharacterSize,
    setting: Setting,
    list: &mut impl Sink,
) -> Option<Drawn> {
    if list.room() < 4 {
        let mut counted = Counted(0);
        put_characters(bytes, cursors, size, setting, &mut counted);
        if counted.0 > list.room() {
            return None;
        }
    }
    Some(put_characters(bytes, cursors, size, setting, list))
}

#[inline(always)]
fn put_characters(
    bytes: [u8; 2],
    cursors: [bool; 2],
    size: CharacterSize,
    setting: Setting,
    list: &mut impl Sink,
) -> Drawn {
    let (mut beam, mut characters) = (setting.beam, 0);
    for i in 0..2 {
        let (code, at, address) = (bytes[i], beam, setting.address + i as u16);
        match code {
            NULL => continue,
            NEW_LINE => {
                beam = at.new_line(size);
                continue;
            }
            BLANK | SM => {}
            _ => {
                list.put(Item::Character { at, code, size, address });
                characters += 1;
                if characters == setting.sight {
                    return Drawn { beam: at.space(size), detected: Some(address) };
                }
            }
        }
        if cursors[i] {
            list.put(Item::Cursor { at, code, size, address });
        }
        beam = at.space(size);
    }
    Drawn { beam, detected: None }
}

const NULL: u8 = 0x00;
pub const NEW_LINE: u8 = 0x15;
const BLANK: u8 = 0x40;

pub fn character_size(mode: Mode) -> CharacterSize {
    match mode {
        Mode::Large => CharacterSize::Large,
        _ => CharacterSize::Basic,
    }
}

#[cfg(test)]
mod tests {
    use super::*;

    #[test]
    fn measured_examples() {
        assert_eq!([coordinate(0, 3), coordinate(0, 4), coordinate(0x0F, 0xFF)], [0, 1, 1023]);
        assert_eq!([0x7E, 0x80, 0xFE].map(|b| add_increment(100, b)), [(163, false), (36, false), (99, false)]);
        assert_eq!(
            [(1000, 0x7E), (0, 0xFE), (1023, 0x00)].map(|(c, b)| add_increment(c, b)),
            [(39, true), (1023, true), (1023, false)]
        );
        let space = |x, size| Beam { x, y: 500 }.space(size);
        assert_eq!(space(1008, CharacterSize::Basic), Beam { x: 1022, y: 500 });
        assert_eq!(space(1022, CharacterSize::Basic), Beam { x: 0, y: 480 });
        assert_eq!(space(1008, CharacterSize::Large), Beam { x: 0, y: 470 });
    }
}
