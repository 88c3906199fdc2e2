//! The validator as a breadth-first search over places: an even address and a mode.
//!
//! The working store holds a bit for each place and, behind these, a ring of place numbers. The
//! ring never fills: only a transfer on no detect adds a place more than it takes away, and both
//! its ways are idle places, 4,096 at most.

use crate::orders::{Mode, Order, Size};
use crate::step::{look, Fault, Group, Locations, Look};

pub const STORE: usize = 32_768;
const MARKS: usize = 7 * 4096 / 8;
const RING: usize = 8192;

#[derive(Clone, Copy, PartialEq, Eq, Debug)]
pub enum Verdict {
    Passed { places: u32 },
    Fault { fault: u8, at: u16, after: u32 },
    Refused(u8),
}

/// An image is written from address 0; all else is unwritten.
struct Image<'a> {
    bytes: &'a [u8],
    size: Size,
}

impl Locations for Image<'_> {
    fn size(&self) -> Size {
        self.size
    }

    fn group(&self, address: u16) -> Group {
        match self.bytes.get(address as usize..address as usize + 2) {
            Some(&[a, b]) => Group::Bytes(a, b),
            _ => Group::Unwritten,
        }
    }
}

#[derive(Clone, Copy)]
struct Place {
    address: u16,
    mode: Mode,
}

impl Place {
    fn number(self) -> u16 {
        self.mode as u16 * 4096 + self.address / 2
    }

    fn of_number(number: u16) -> Place {
        Place { address: number % 4096 * 2, mode: Mode::ALL[number as usize / 4096] }
    }
}

/// The store while a search runs.
struct Search<'a> {
    marks: &'a mut [u8; MARKS],
    ring: &'a mut [[u8; 2]; RING],
    first: usize,
    waiting: usize,
    marked: u32,
}

impl Search<'_> {
    fn reach(&mut self, place: Place) {
        let number = place.number();
        let (byte, bit) = (&mut self.marks[number as usize / 8], 1 << (number % 8));
        if *byte & bit != 0 {
            return;
        }
        *byte |= bit;
        self.marked += 1;
        let slot = (self.first + self.waiting) % RING;
        self.ring[slot] = number.to_le_bytes();
        self.waiting += 1;
    }

    fn take(&mut self) -> Place {
        let number = u16::from_le_bytes(self.ring[self.first]);
        self.first = (self.first + 1) % RING;
        self.waiting -= 1;
        Place::of_number(number)
    }
}

pub fn validate(image: &[u8], size: u32, start: u32, store: &mut [u8]) -> Verdict {
    let Some(size) = Size::new(size) else { return Verdict::Refused(1) };
    if image.len() > size.locations() as usize {
        return Verdict::Refused(2);
    }
    if start % 2 == 1 {
        return Verdict::Refused(3);
    }
    if start >= u32::from(size.locations()) {
        return Verdict::Refused(4);
    }
    let Some(store) = store.get_mut(..STORE) else { return Verdict::Refused(5) };
    let verdict = search(&Image { bytes: image, size }, start as u16, store);
    store.fill(0);
    verdict
}

fn search(image: &Image, start: u16, store: &mut [u8]) -> Verdict {
    let (marks, rest) = store.split_first_chunk_mut().expect("the store has room for the marks");
    let (ring, _) = rest.as_chunks_mut().0.split_first_chunk_mut().expect("the store has room for the ring");
    marks.fill(0);
    let mut search = Search { marks, ring, first: 0, waiting: 0, marked: 0 };
    search.reach(Place { address: start, mode: Mode::Idle });
    let mut steps = 0;
    while search.waiting > 0 {
        let mut lowest: Option<(u16, Fault)> = None;
        for _ in 0..search.waiting {
            let place = search.take();
            let idle = |address| Place { address, mode: Mode::Idle };
            match look(image, place.address, place.mode) {
                Look::Fault(fault) => {
                    let met = (place.address, fault);
                    lowest = Some(lowest.map_or(met, |other| other.min(met)));
                }
                Look::BadParity(_) | Look::Order { order: Order::End, .. } => {}
                Look::Order { order: Order::Enter(mode), next } => search.reach(Place { address: next, mode }),
                Look::Order { next, .. } => search.reach(idle(next)),
                Look::Transfer { target } => search.reach(idle(target)),
                Look::TransferOnNoDetect { target, next } => {
                    search.reach(idle(target));
                    search.reach(idle(next));
                }
                Look::Word { next, .. } | Look::Coordinates { next, .. } => {
                    search.reach(Place { address: next, mode: place.mode })
                }
            }
        }
        if let Some((at, fault)) = lowest {
            return Verdict::Fault { fault: fault as u8, at, after: steps };
        }
        steps += 1;
    }
    Verdict::Passed { places: search.marked }
}

#[cfg(test)]
mod tests {
    use super::*;

    fn judge(image: &[u8], size: u32) -> Verdict {
        let mut store = vec![0xA5; STORE + 3];
        let verdict = validate(image, size, 0, &mut store);
        assert!(store[..STORE].iter().all(|&b| b == 0) && store[STORE..] == [0xA5; 3]);
        verdict
    }

    fn fault(fault: u8, at: u16, after: u32) -> Verdict {
        Verdict::Fault { fault, at, after }
    }

    #[test]
    fn measured_examples() {
        assert_eq!(judge(&[], 4096), fault(1, 0, 0));
        assert_eq!(judge(&[0; 6], 4096), fault(1, 6, 3));
        assert_eq!(judge(&[0; 4096], 4096), Verdict::Passed { places: 2048 });
        assert_eq!(judge(&[0; 4096], 8192), fault(1, 4096, 2048));
        assert_eq!(judge(&[SM, 0xC0], 4096), fault(1, 4, 1));
        assert_eq!(judge(&[SM, 0xFF, 0, 0], 4096), Verdict::Passed { places: 1 });
        assert_eq!(judge(&[SM, 0xFF, 0, 3], 4096), fault(3, 0, 0));
        assert_eq!(judge(&[SM, 0xFF, 0xFF, 0xFF], 4096), fault(3, 0, 0));
        assert_eq!(judge(&[SM, 0xFF, 0x10, 0], 4096), fault(4, 0, 0));
        assert_eq!(judge(&[SM, 0xFF, 0x10, 0], 8192), fault(1, 4096, 1));
        assert_eq!(judge(&[SM, 0xFD, 0, 0, SM, 0x81], 4096), Verdict::Passed { places: 2 });
        assert_eq!(judge(&[SM, 0x02, 0, 0, SM, 0x81], 4096), fault(5, 2, 1));
        assert_eq!(judge(&[0, SM, SM, 0x81], 4096), Verdict::Passed { places: 2 });
    }

    use crate::orders::SM;

    #[test]
    fn refusals() {
        let mut store = [7; STORE];
        assert_eq!(validate(&[0; 9000], 4095, 1, &mut store), Verdict::Refused(1));
        assert_eq!(validate(&[0; 4097], 4096, 1, &mut store), Verdict::Refused(2));
        assert_eq!(validate(&[], 4096, 4097, &mut store), Verdict::Refused(3));
        assert_eq!(validate(&[], 4096, 4096, &mut store[1..]), Verdict::Refused(4));
        assert_eq!(validate(&[], 4096, 4094, &mut store[1..]), Verdict::Refused(5));
        assert_eq!(store, [7; STORE]);
    }
}
