//! Buffer sizes, drawing modes and the twenty orders (000 p.24, Table 4 and its notes 4 and 5).

/// The set mode byte: an order begins with it, at an even address.
pub const SM: u8 = 0x2A;

#[derive(Clone, Copy, PartialEq, Eq, Debug)]
pub enum Size {
    Small,
    Large,
}

impl Size {
    pub fn new(locations: u32) -> Option<Size> {
        match locations {
            4096 => Some(Size::Small),
            8192 => Some(Size::Large),
            _ => None,
        }
    }

    pub fn locations(self) -> u16 {
        match self {
            Size::Small => 4096,
            Size::Large => 8192,
        }
    }

    /// Addresses go round at the buffer's size.
    pub fn wrap(self, address: u16) -> u16 {
        address & (self.locations() - 1)
    }
}

#[derive(Clone, Copy, PartialEq, Eq, Hash, Debug)]
#[repr(u8)]
pub enum Mode {
    Idle,
    Point,
    Vector,
    IncrementalPoint,
    IncrementalVector,
    Basic,
    Large,
}

impl Mode {
    pub const ALL: [Mode; 7] = [
        Mode::Idle,
        Mode::Point,
        Mode::Vector,
        Mode::IncrementalPoint,
        Mode::IncrementalVector,
        Mode::Basic,
        Mode::Large,
    ];

    pub fn is_character(self) -> bool {
        matches!(self, Mode::Basic | Mode::Large)
    }
}

#[derive(Clone, Copy, PartialEq, Eq, Debug)]
pub enum Order {
    Enter(Mode),
    NoOp,
    End,
    Timer,
    SwitchDetect,
    Disable,
    NoSwitch,
    TransferOnNoDetect,
    Transfer,
}

#[derive(Clone, Copy, Debug)]
pub struct Row {
    pub code: u8,
    pub length: u16,
    pub order: Order,
}

const fn row(code: u8, length: u16, order: Order) -> Row {
    Row { code, length, order }
}

pub const ROWS: [Row; 20] = [
    row(0x00, 2, Order::Enter(Mode::Point)),
    row(0x02, 2, Order::Enter(Mode::Vector)),
    row(0x04, 2, Order::Enter(Mode::IncrementalPoint)),
    row(0x05, 2, Order::Enter(Mode::IncrementalVector)),
    row(0x40, 2, Order::Enter(Mode::Basic)),
    row(0x41, 2, Order::Enter(Mode::Large)),
    row(0x44, 2, Order::Enter(Mode::Basic)),
    row(0x45, 2, Order::Enter(Mode::Large)),
    row(0x50, 2, Order::Enter(Mode::Basic)),
    row(0x51, 2, Order::Enter(Mode::Large)),
    row(0x52, 2, Order::Enter(Mode::Basic)),
    row(0x80, 2, Order::NoOp),
    row(0x81, 2, Order::End),
    row(0x82, 2, Order::Timer),
    row(0x84, 2, Order::SwitchDetect),
    row(0x85, 2, Order::Disable),
    row(0x86, 2, Order::NoSwitch),
    row(0xC0, 4, Order::NoOp),
    row(0xFD, 4, Order::TransferOnNoDetect),
    row(0xFF, 4, Order::Transfer),
];

static BY_CODE: [Option<Row>; 256] = {
    let mut table = [None; 256];
    let mut i = 0;
    while i < ROWS.len() {
        table[ROWS[i].code as usize] = Some(ROWS[i]);
        i += 1;
    }
    table
};

pub fn row_of(code: u8) -> Option<Row> {
    BY_CODE[code as usize]
}

#[cfg(test)]
mod tests {
    use super::*;

    #[test]
    fn codes_differ_and_none_is_the_set_mode_byte() {
        assert!(ROWS.iter().all(|r| r.code != SM));
        assert_eq!(BY_CODE.iter().flatten().count(), ROWS.len());
    }
}
