//! What one step of regeneration meets at a place: 01, "One step of regeneration".

use crate::orders::{row_of, Mode, Order, Size, SM};

/// The five faults, with 01's numbers.
#[derive(Clone, Copy, PartialEq, Eq, PartialOrd, Ord, Debug)]
#[repr(u8)]
pub enum Fault {
    Unwritten = 1,
    NoSuchOrder = 2,
    OddTarget = 3,
    TargetOutside = 4,
    OrderForY = 5,
}

/// Two locations, the lower one at an even address.
#[derive(Clone, Copy, Debug)]
pub enum Group {
    Unwritten,
    BadParity(u16),
    Bytes(u8, u8),
}

/// Where groups are read from: an image or a unit's words.
pub trait Locations {
    fn size(&self) -> Size;
    fn group(&self, address: u16) -> Group;
}

#[derive(Clone, Copy, PartialEq, Eq, Debug)]
pub enum Look {
    Fault(Fault),
    BadParity(u16),
    /// An order without an address, and the place behind it.
    Order {
        order: Order,
        next: u16,
    },
    Transfer {
        target: u16,
    },
    TransferOnNoDetect {
        target: u16,
        next: u16,
    },
    /// A word of data in idle, incremental or character mode.
    Word {
        bytes: [u8; 2],
        next: u16,
    },
    /// Four bytes of data in point or vector mode.
    Coordinates {
        bytes: [u8; 4],
        next: u16,
    },
}

macro_rules! read {
    ($locations:expr, $address:expr) => {
        match $locations.group($address) {
            Group::Unwritten => return Look::Fault(Fault::Unwritten),
            Group::BadParity(address) => return Look::BadParity(address),
            Group::Bytes(first, second) => (first, second),
        }
    };
}

#[inline(always)]
pub fn look(locations: &impl Locations, address: u16, mode: Mode) -> Look {
    let size = locations.size();
    let behind = |bytes: u16| size.wrap(address + bytes);
    let (a, b) = read!(locations, address);
    if a == SM {
        let Some(row) = row_of(b) else { return Look::Fault(Fault::NoSuchOrder) };
        let next = behind(row.length);
        if !matches!(row.order, Order::Transfer | Order::TransferOnNoDetect) {
            return Look::Order { order: row.order, next };
        }
        let (high, low) = read!(locations, behind(2));
        let target = u16::from_be_bytes([high, low]);
        if target % 2 == 1 {
            Look::Fault(Fault::OddTarget)
        } else if target >= size.locations() {
            Look::Fault(Fault::TargetOutside)
        } else if row.order == Order::Transfer {
            Look::Transfer { target }
        } else {
            Look::TransferOnNoDetect { target, next }
        }
    } else if matches!(mode, Mode::Point | Mode::Vector) {
        let (c, d) = read!(locations, behind(2));
        if c == SM {
            Look::Fault(Fault::OrderForY)
        } else {
            Look::Coordinates { bytes: [a, b, c, d], next: behind(4) }
        }
    } else {
        Look::Word { bytes: [a, b], next: behind(2) }
    }
}
