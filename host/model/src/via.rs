//! The VIA: ports, two timers, flags and enables.

/// Flag 6, set by T1.
const T1: u8 = 0x40;
/// Flag 5, set by T2.
const T2: u8 = 0x20;
/// Flag 2, set by each eighth pulse of the keyboard's clock.
const SHIFT: u8 = 0x04;
/// Flag 1, set by vertical blanking.
pub const BLANK: u8 = 0x02;
/// Flag 0, set by the one-second tick.
pub const SECOND: u8 = 0x01;
/// ACR bit 6: T1 runs free.
const FREE: u8 = 0x40;
/// ACR bit 5: T2 stands still.
const STILL: u8 = 0x20;

/// Timer 1. Counter and latch in VIA ticks.
#[derive(Clone, Debug, Default, PartialEq, Eq)]
pub struct Timer1 {
    pub counter: u16,
    pub latch: u16,
    pub armed: bool,
    /// The next tick loads the latch instead of counting.
    pub due: bool,
}

/// Timer 2. Counter in VIA ticks.
#[derive(Clone, Debug, Default, PartialEq, Eq)]
pub struct Timer2 {
    pub counter: u16,
    pub low: u8,
    pub armed: bool,
}

#[derive(Clone, Debug, Default, PartialEq, Eq)]
pub struct Via {
    pub out_b: u8,
    pub out_a: u8,
    pub dir_b: u8,
    pub dir_a: u8,
    pub t1: Timer1,
    pub t2: Timer2,
    pub sr: u8,
    pub acr: u8,
    pub pcr: u8,
    /// Below 128.
    pub flags: u8,
    /// Below 128.
    pub enables: u8,
    /// Pulses of the keyboard's clock since the last eighth one, below 8.
    pub pulses: u8,
}

/// The levels of a port: the output bit where its direction is 1, else the input.
fn levels(out: u8, dir: u8, input: u8) -> u8 {
    out & dir | input & !dir
}

impl Via {
    pub fn port_b(&self, input: u8) -> u8 {
        levels(self.out_b, self.dir_b, input)
    }

    pub fn port_a(&self, input: u8) -> u8 {
        levels(self.out_a, self.dir_a, input)
    }

    /// True where an enabled flag is set.
    pub fn asks(&self) -> bool {
        self.flags & self.enables != 0
    }

    /// Lets `ticks` VIA ticks pass.
    pub fn wait(&mut self, ticks: u16) {
        self.wait_t1(ticks);
        if self.acr & STILL == 0 {
            if ticks > self.t2.counter && self.t2.armed {
                self.flags |= T2;
                self.t2.armed = false;
            }
            self.t2.counter = self.t2.counter.wrapping_sub(ticks);
        }
    }

    fn wait_t1(&mut self, ticks: u16) {
        let t1 = &mut self.t1;
        let mut left = u32::from(ticks);
        if left == 0 {
            return;
        }
        if t1.due {
            t1.counter = t1.latch;
            t1.due = false;
            left -= 1;
        }
        if left <= u32::from(t1.counter) {
            t1.counter -= left as u16;
            return;
        }
        // The passage from 0 to $FFFF comes after counter + 1 ticks.
        left -= u32::from(t1.counter) + 1;
        if t1.armed {
            self.flags |= T1;
        }
        if self.acr & FREE == 0 {
            t1.armed = false;
            t1.counter = 0xFFFF - left as u16;
            return;
        }
        // In free run the load takes one tick and the way to the next passage latch + 1.
        left %= u32::from(t1.latch) + 2;
        if left == 0 {
            t1.counter = 0xFFFF;
            t1.due = true;
        } else {
            t1.counter = t1.latch - (left - 1) as u16;
        }
    }

    /// What any access to register 1 clears.
    fn touch_port_a(&mut self) {
        self.flags &= !BLANK;
        if !matches!(self.pcr >> 1 & 7, 0b001 | 0b011) {
            self.flags &= !SECOND;
        }
    }

    /// What any access to register 10 does: the pulses are counted anew.
    fn touch_shift(&mut self) {
        self.flags &= !SHIFT;
        self.pulses = 0;
    }

    /// A pulse of the keyboard's clock with the level of its data line, by ACR bits 4 to 2: shift in
    /// (011), shift out (111), or nothing. Gives the bit shifted out, else 0.
    pub fn pulse(&mut self, level: bool) -> u8 {
        let (next, value) = match self.acr >> 2 & 7 {
            0b011 => (u8::from(level), 0),
            0b111 => (self.sr >> 7, self.sr >> 7),
            _ => return 0,
        };
        self.sr = self.sr << 1 | next;
        self.pulses += 1;
        if self.pulses == 8 {
            self.pulses = 0;
            self.flags |= SHIFT;
        }
        value
    }

    pub fn write(&mut self, register: u8, value: u8) {
        let high = u16::from(value) << 8;
        match register {
            0 => self.out_b = value,
            1 => {
                self.out_a = value;
                self.touch_port_a();
            }
            2 => self.dir_b = value,
            3 => self.dir_a = value,
            4 | 6 => self.t1.latch = self.t1.latch & 0xFF00 | u16::from(value),
            5 => {
                self.t1.latch = self.t1.latch & 0x00FF | high;
                self.t1.counter = self.t1.latch;
                self.t1.armed = true;
                self.t1.due = false;
                self.flags &= !T1;
            }
            7 => {
                self.t1.latch = self.t1.latch & 0x00FF | high;
                self.flags &= !T1;
            }
            8 => self.t2.low = value,
            9 => {
                self.t2.counter = high | u16::from(self.t2.low);
                self.t2.armed = true;
                self.flags &= !T2;
            }
            10 => {
                self.sr = value;
                self.touch_shift();
            }
            11 => self.acr = value,
            12 => self.pcr = value,
            13 => self.flags &= !value,
            14 if value & 0x80 != 0 => self.enables |= value & 0x7F,
            14 => self.enables &= !value,
            _ => self.out_a = value,
        }
    }

    /// The value read, with the levels that the outside gives each port.
    pub fn read(&mut self, register: u8, input_b: u8, input_a: u8) -> u8 {
        match register {
            0 => self.port_b(input_b),
            1 => {
                self.touch_port_a();
                self.port_a(input_a)
            }
            2 => self.dir_b,
            3 => self.dir_a,
            4 => {
                self.flags &= !T1;
                self.t1.counter as u8
            }
            5 => (self.t1.counter >> 8) as u8,
            6 => self.t1.latch as u8,
            7 => (self.t1.latch >> 8) as u8,
            8 => {
                self.flags &= !T2;
                self.t2.counter as u8
            }
            9 => (self.t2.counter >> 8) as u8,
            10 => {
                self.touch_shift();
                self.sr
            }
            11 => self.acr,
            12 => self.pcr,
            13 => self.flags | u8::from(self.asks()) << 7,
            14 => self.enables | 0x80,
            _ => self.port_a(input_a),
        }
    }

    /// Clears all but the counters, the latches and register 10.
    pub fn reset(&mut self) {
        let old = std::mem::take(self);
        self.t1.counter = old.t1.counter;
        self.t1.latch = old.t1.latch;
        self.t2.counter = old.t2.counter;
        self.t2.low = old.t2.low;
        self.sr = old.sr;
    }
}

#[cfg(test)]
mod tests {
    use super::*;

    /// One tick, as the requirements tell it.
    fn tick(via: &mut Via) {
        if via.t1.due {
            via.t1.due = false;
            via.t1.counter = via.t1.latch;
        } else {
            let passage = via.t1.counter == 0;
            via.t1.counter = via.t1.counter.wrapping_sub(1);
            if passage {
                if via.t1.armed {
                    via.flags |= T1;
                }
                if via.acr & FREE == 0 {
                    via.t1.armed = false;
                } else {
                    via.t1.due = true;
                }
            }
        }
        if via.acr & STILL == 0 {
            if via.t2.counter == 0 && via.t2.armed {
                via.flags |= T2;
                via.t2.armed = false;
            }
            via.t2.counter = via.t2.counter.wrapping_sub(1);
        }
    }

    #[test]
    fn waits_equal_ticks() {
        let edges = [0u16, 1, 2, 3, 5, 254, 255, 256, 32767, 65533, 65534, 65535];
        for counter in edges {
            for latch in edges {
                for bits in 0..32u8 {
                    let start = Via {
                        t1: Timer1 { counter, latch, armed: bits & 1 != 0, due: bits & 2 != 0 },
                        t2: Timer2 { counter: latch, low: 7, armed: bits & 4 != 0 },
                        acr: (bits & 8) << 3 | (bits & 16) << 1,
                        ..Via::default()
                    };
                    let mut slow = start.clone();
                    let mut at = 0u32;
                    let mut stops: Vec<u32> = (0..24).collect();
                    for e in [counter, latch] {
                        stops.extend((0..6).map(|d| u32::from(e) + d));
                    }
                    stops.extend([65533, 65534, 65535]);
                    stops.retain(|&s| s < 65536);
                    stops.sort_unstable();
                    for stop in stops {
                        while at < stop {
                            tick(&mut slow);
                            at += 1;
                        }
                        let mut quick = start.clone();
                        quick.wait(stop as u16);
                        assert_eq!(quick, slow, "{start:?} after {stop} ticks");
                    }
                }
            }
        }
    }

    #[test]
    fn enables_keep_bit_7_clear() {
        let mut via = Via::default();
        via.write(14, 0xFF);
        assert_eq!(via.enables, 0x7F);
        via.write(14, 0x7E);
        assert_eq!(via.enables, 0x01);
    }
}
