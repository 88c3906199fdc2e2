//! The light pen: its mode, its switch and its arming (000 p.28 and p.29; 01, "The pen").

#[derive(Clone, Copy, PartialEq, Eq, Hash, Debug)]
pub enum PenMode {
    Normal,
    Disabled,
    NoSwitch,
}

#[derive(Clone, Copy, PartialEq, Eq, Hash, Debug)]
pub struct Pen {
    pub mode: PenMode,
    pub closed: bool,
    /// This closure has had its detect or its no-detect transfer in normal mode.
    spent: bool,
    pub armed: bool,
    /// A detect has come since the last Enable No Switch Detect order.
    detected: bool,
}

impl Pen {
    pub const FRESH: Pen = Pen { mode: PenMode::Normal, closed: false, spent: false, armed: false, detected: false };

    pub fn set_switch(&mut self, closed: bool) {
        if self.closed != closed {
            self.closed = closed;
            self.spent = false;
            self.armed = false;
        }
    }

    pub fn timer(&mut self) {
        self.mode = PenMode::Normal;
        if self.closed && !self.spent {
            self.armed = true;
        }
    }

    pub fn no_switch(&mut self) {
        self.mode = PenMode::NoSwitch;
        self.detected = false;
    }

    /// Whether the pen would detect what it sees.
    pub fn detects(&self) -> bool {
        match self.mode {
            PenMode::Normal => self.armed,
            PenMode::Disabled => false,
            PenMode::NoSwitch => true,
        }
    }

    pub fn detect(&mut self) {
        match self.mode {
            PenMode::Normal => self.spend(),
            PenMode::Disabled => {}
            PenMode::NoSwitch => self.detected = true,
        }
    }

    /// Decides a Transfer On No Detect: whether it is taken.
    pub fn transfers(&mut self) -> bool {
        match self.mode {
            PenMode::Normal => {
                let taken = self.armed;
                if taken {
                    self.spend();
                }
                taken
            }
            PenMode::Disabled => false,
            PenMode::NoSwitch => !self.detected,
        }
    }

    fn spend(&mut self) {
        self.armed = false;
        self.spent = true;
    }
}
