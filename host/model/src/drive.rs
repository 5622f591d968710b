//! The two drives behind the disk lines, and the strobe that writes to them.

/// A step takes so many VIA ticks: 12 ms, rounded up.
pub const STEP_TICKS: u16 = 9_401;
/// An eject needs a strobe of so many VIA ticks: half a second. A longer one is not counted further.
pub const EJECT_TICKS: u32 = 391_680;
/// Any other write needs a strobe of 1 to so many VIA ticks.
pub const WRITE_TICKS: u32 = 783;
/// Tracks are 0 to 79.
pub const LAST_TRACK: u8 = 79;

/// Microseconds as VIA ticks, rounded up.
pub fn ticks_of_micros(micros: u32) -> u32 {
    (u64::from(micros) * 783_360).div_ceil(1_000_000) as u32
}

#[derive(Clone, Debug, Default, PartialEq, Eq)]
pub struct Drive {
    pub track: u8,
    /// False towards track 79, true towards track 0.
    pub direction: bool,
    pub disk: bool,
    /// Only with a disk.
    pub locked: bool,
    pub double_sided: bool,
    /// Only with a disk.
    pub motor: bool,
    /// VIA ticks left of a step, 0 where none is under way.
    pub step_left: u16,
    /// The direction of that step; false where none is under way.
    pub step_direction: bool,
}

impl Drive {
    pub fn wait(&mut self, ticks: u16) {
        if ticks < self.step_left {
            self.step_left -= ticks;
        } else if self.step_left > 0 {
            if self.step_direction {
                self.track = self.track.saturating_sub(1);
            } else {
                self.track = (self.track + 1).min(LAST_TRACK);
            }
            self.drop_step();
        }
    }

    fn drop_step(&mut self) {
        self.step_left = 0;
        self.step_direction = false;
    }

    pub fn insert(&mut self, locked: bool, double_sided: bool) {
        self.disk = true;
        self.locked = locked;
        self.double_sided = double_sided;
    }

    /// The disk leaves.
    pub fn remove(&mut self) {
        self.disk = false;
        self.locked = false;
        self.motor = false;
    }

    pub fn power_cut(&mut self) {
        self.motor = false;
        self.drop_step();
    }

    /// A strobe of so many VIA ticks writes to register 2·CA1 + CA0 the value of CA2.
    fn write(&mut self, register: u8, value: bool, ticks: u32) {
        let short = (1..=WRITE_TICKS).contains(&ticks);
        match register {
            0 if short => self.direction = value,
            1 if short && !value && self.step_left == 0 => {
                self.step_left = STEP_TICKS;
                self.step_direction = self.direction;
            }
            2 if short => self.motor = !value && self.disk,
            3 if ticks >= EJECT_TICKS && value && self.disk => self.remove(),
            _ => {}
        }
    }

    /// The level of a sense register that the drive has.
    pub fn sense(&self, register: u32) -> Option<bool> {
        match register {
            0 => Some(self.direction),
            1 => Some(!self.disk),
            2 => Some(self.step_left == 0),
            3 => Some(!self.locked),
            4 => Some(!self.motor),
            5 => Some(self.track != 0),
            12 => Some(self.double_sided),
            15 => Some(false),
            _ => None,
        }
    }

    pub fn accepted(&self) -> bool {
        self.track <= LAST_TRACK
            && (self.disk || !self.locked && !self.motor)
            && self.step_left <= STEP_TICKS
            && (self.step_left > 0 || !self.step_direction)
    }
}

/// The levels that a strobe watches, and the strobe itself.
#[derive(Clone, Copy, Debug, PartialEq, Eq)]
pub struct Watched {
    pub lstrb: bool,
    pub enable: bool,
    pub ca: [bool; 3],
    pub sel: bool,
    pub select: bool,
}

#[derive(Clone, Debug, Default, PartialEq, Eq)]
pub struct Strobe {
    /// VIA ticks since LSTRB rose, 391,680 at most.
    pub ticks: u32,
    /// ENABLE was on and the other lines held still since LSTRB rose.
    pub steady: bool,
}

#[derive(Clone, Debug, Default, PartialEq, Eq)]
pub struct Drives {
    /// Internal, external.
    pub drives: [Drive; 2],
    pub strobe: Strobe,
}

impl Drives {
    pub fn wait(&mut self, ticks: u16) {
        self.drives.iter_mut().for_each(|drive| drive.wait(ticks));
        if self.strobe.steady {
            self.strobe.ticks = (self.strobe.ticks + u32::from(ticks)).min(EJECT_TICKS);
        }
    }

    /// After an item that came while LSTRB was on, with the levels before and after it.
    pub fn settle(&mut self, before: Watched, after: Watched) {
        let still = Watched { lstrb: after.lstrb, ..before } == after && after.enable;
        if self.strobe.steady && still && !after.lstrb && !after.sel {
            let register = 2 * u8::from(after.ca[1]) + u8::from(after.ca[0]);
            let drive = &mut self.drives[usize::from(after.select)];
            drive.write(register, after.ca[2], self.strobe.ticks);
        }
        if !still || !after.lstrb {
            self.strobe = Strobe::default();
        }
    }

    pub fn accepted(&self, now: Watched) -> bool {
        let Strobe { ticks, steady } = self.strobe;
        let possible = if steady { now.lstrb && now.enable } else { ticks == 0 };
        possible && ticks <= EJECT_TICKS && self.drives.iter().all(Drive::accepted)
    }
}

#[cfg(test)]
mod tests {
    use super::ticks_of_micros;

    #[test]
    fn micros() {
        for (micros, ticks) in
            [(0, 0), (1, 1), (12_000, 9_401), (500_000, 391_680), (u32::MAX, 3_364_505_581)]
        {
            assert_eq!(ticks_of_micros(micros), ticks);
        }
    }
}
