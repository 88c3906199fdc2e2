//! Typing at the cursor: the keys of the alphameric keyboard (000 p.35 and p.36; 001 4-7 to 4-16C; 02, C-13).

use crate::device::{word, Device, End, Refused, State};
use crate::drawing::NEW_LINE;
use crate::orders::{row_of, Mode, Order, SM};
use std::collections::HashSet;

#[derive(Clone, Copy, PartialEq, Eq, Debug)]
pub enum Key {
    Character(u8),
    Advance,
    Backspace,
    Jump,
}

impl Key {
    /// The key of a character: one of the 64 that the keyboard has (000 p.13, Figure 7, those without a star).
    pub fn of_code(code: u8) -> Result<Key, Refused> {
        match code {
            0x00 | 0x40 | 0x50 | 0x60 | 0x61 => {}
            0x4A..=0x4F | 0x5A..=0x5F | 0x6B..=0x6F | 0x7A..=0x7F => {}
            0xC1..=0xC9 | 0xD1..=0xD9 | 0xE2..=0xE9 | 0xF0..=0xF9 => {}
            _ => return Err(Refused(13)),
        }
        Ok(Key::Character(code))
    }
}

/// What the order before it makes of a stretch of characters.
#[derive(Clone, Copy)]
struct Field {
    mode: Mode,
    protected: bool,
}

impl Device {
    /// The cursor that keys work on: the lowest one.
    pub fn cursor(&self) -> Option<u16> {
        (0..self.size.locations()).find(|&at| word::has_cursor(self.words[at as usize]))
    }

    /// Presses a key, and says whether it was heard: without a cursor it is not.
    pub fn press(&mut self, key: Key) -> bool {
        let Some(cursor) = self.cursor() else { return false };
        if let Some(field) = self.field_of(cursor) {
            match key {
                Key::Character(_) if field.protected => {}
                Key::Character(code) if self.data(cursor) != NEW_LINE => {
                    let next = self.forward(cursor).unwrap_or(cursor);
                    self.words[cursor as usize] = word::stored(code, false, true);
                    self.insert_cursor(next);
                }
                Key::Advance | Key::Character(_) => self.move_cursor(cursor, self.forward(cursor)),
                Key::Backspace => self.move_cursor(cursor, self.backward(cursor)),
                Key::Jump => self.move_cursor(cursor, self.landing(cursor, field.mode)),
            }
        }
        true
    }

    /// Without a place to go to, the cursor stays and no word is touched.
    fn move_cursor(&mut self, from: u16, to: Option<u16>) {
        if let Some(to) = to {
            self.remove_cursor(from);
            self.insert_cursor(to);
        }
    }

    fn data(&self, at: u16) -> u8 {
        word::data(self.words[at as usize])
    }

    /// Whether a location is one of the two of an order.
    fn in_order(&self, at: u16) -> bool {
        self.data(at & !1) == SM
    }

    /// The field that an order opens, if it enters characters.
    fn opened_by(&self, order: u16) -> Option<Field> {
        let code = self.data(order + 1);
        match row_of(code)?.order {
            Order::Enter(mode) if mode.is_character() => Some(Field { mode, protected: matches!(code, 0x44 | 0x45) }),
            _ => None,
        }
    }

    /// The field of a location: that of the nearest order before it, round the buffer.
    fn field_of(&self, at: u16) -> Option<Field> {
        if self.in_order(at) {
            return None;
        }
        let order = self.before(at & !1).find(|&before| self.in_order(before))?;
        self.opened_by(order & !1)
    }

    /// The other locations, going on from one.
    fn behind(&self, at: u16) -> impl Iterator<Item = u16> {
        let size = self.size;
        (1..size.locations()).map(move |n| size.wrap(at + n))
    }

    /// The other locations, going back from one.
    fn before(&self, at: u16) -> impl Iterator<Item = u16> {
        let size = self.size;
        (1..size.locations()).map(move |n| size.wrap(at.wrapping_sub(n)))
    }

    fn forward(&self, from: u16) -> Option<u16> {
        self.resting_place(self.behind(from))
    }

    fn backward(&self, from: u16) -> Option<u16> {
        self.resting_place(self.before(from))
    }

    /// Where a cursor rests on a way: one location on, and further while it stands on a new line, but never at an order.
    fn resting_place(&self, way: impl Iterator<Item = u16>) -> Option<u16> {
        let mut rest = None;
        for at in way.take_while(|&at| !self.in_order(at)) {
            rest = Some(at);
            if self.data(at) != NEW_LINE {
                break;
            }
        }
        rest
    }

    /// Where a jump leads to: regeneration is followed on a copy to the first unprotected characters, or until it stops
    /// or begins to go round.
    fn landing(&self, cursor: u16, mode: Mode) -> Option<u16> {
        let mut copy = self.clone();
        copy.state = State { running: true, address: cursor & !1, mode, ..self.state };
        let mut met = HashSet::new();
        loop {
            let State { address, mode, pen, .. } = copy.state;
            let going = met.insert((address, mode, pen))
                && copy.run(&[0], &mut [[0; 8]; 4]).is_ok_and(|ran| ran.end == End::SightsUsedUp);
            if !going {
                return None;
            }
            let opened = if self.in_order(address) { self.opened_by(address) } else { None };
            if opened.is_some_and(|field| !field.protected) && !self.in_order(copy.state.address) {
                return Some(copy.state.address);
            }
        }
    }
}

#[cfg(test)]
mod tests {
    use super::*;

    const A: u8 = 0xC1;
    const B: u8 = 0xC2;
    const C: u8 = 0xC3;
    const D: u8 = 0xC4;
    const X: u8 = 0xE7;
    const NL: u8 = NEW_LINE;

    /// The first locations and the cursor after a key, from these bytes and this cursor.
    fn pressed<const N: usize>(bytes: [u8; N], cursor: u16, key: Key) -> ([u8; N], Option<u16>) {
        let mut unit = Device::fresh(4096).expect("a size");
        unit.words.iter_mut().zip(bytes).for_each(|(word, byte)| *word = word::stored(byte, false, true));
        unit.insert_cursor(cursor);
        assert!(unit.press(key));
        assert!(unit.words.iter().all(|&word| word::is_good(word)));
        (std::array::from_fn(|at| unit.data(at as u16)), unit.cursor())
    }

    fn moves<const N: usize>(bytes: [u8; N], from: u16, key: Key, to: u16) {
        assert_eq!(pressed(bytes, from, key), (bytes, Some(to)));
    }

    #[test]
    fn figures_4_5_to_4_10() {
        moves([SM, 0x40, A, B, C, D], 2, Key::Advance, 3);
        moves([SM, 0x40, A, NL, B, C], 2, Key::Advance, 4);
        moves([SM, 0x40, A, B, C, D, SM], 5, Key::Advance, 5);
        moves([SM, 0x40, A, B, C, D], 4, Key::Backspace, 3);
        moves([SM, 0x40, A, NL, B], 4, Key::Backspace, 2);
        moves([SM, 0x40, A, B, C], 2, Key::Backspace, 2);
    }

    #[test]
    fn new_line_at_either_end_of_a_field() {
        moves([SM, 0x40, A, NL, SM, 0x81], 2, Key::Advance, 3);
        moves([SM, 0x40, A, NL, SM, 0x81], 3, Key::Advance, 3);
        moves([SM, 0x40, NL, A, B, C], 3, Key::Backspace, 2);
        moves([SM, 0x40, NL, A, B, C], 2, Key::Backspace, 2);
        let typed = |bytes: [u8; 6], cursor| pressed(bytes, cursor, Key::Character(X));
        assert_eq!(typed([SM, 0x40, A, NL, SM, 0x81], 2), ([SM, 0x40, X, NL, SM, 0x81], Some(3)));
        assert_eq!(typed([SM, 0x40, A, NL, SM, 0x81], 3), ([SM, 0x40, A, NL, SM, 0x81], Some(3)));
    }

    #[test]
    fn figure_4_11() {
        let program =
            [SM, 0x40, A, B, C, D, SM, 0x02, 0, 0, 0, 0, SM, 0x44, A, B, SM, 0x41, A, B, C, D, SM, 0xFF, 0, 0];
        moves(program, 2, Key::Jump, 18);
        moves(program, 18, Key::Jump, 2);
    }

    #[test]
    fn figures_4_12_to_4_14() {
        let typed = |bytes: [u8; 7], cursor| pressed(bytes, cursor, Key::Character(X));
        assert_eq!(typed([SM, 0x40, A, B, C, D, D], 3), ([SM, 0x40, A, X, C, D, D], Some(4)));
        assert_eq!(typed([SM, 0x40, A, B, NL, C, SM], 3), ([SM, 0x40, A, X, NL, C, SM], Some(5)));
        assert_eq!(typed([SM, 0x40, A, B, C, D, SM], 5), ([SM, 0x40, A, B, C, X, SM], Some(5)));
    }

    #[test]
    fn protected() {
        moves([SM, 0x44, A, B, SM, 0x81], 2, Key::Character(X), 2);
        moves([SM, 0x44, A, B, SM, 0x81], 2, Key::Advance, 3);
        moves([SM, 0x44, A, B, SM, 0x81], 3, Key::Jump, 3);
        moves([SM, 0x44, A, B, SM, 0xFF, 0, 0], 3, Key::Jump, 3);
    }

    #[test]
    fn sixty_four_characters() {
        assert_eq!((0..=255).filter(|&code| Key::of_code(code).is_ok()).count(), 64);
    }
}
