//! Random histories, made of stretches that are each about something.
use crate::{Event, Random};
use std::collections::VecDeque;

pub const WRITE: u64 = 0;
pub const READ: u64 = 1;
pub const ARRIVAL: u64 = 2;
pub const SLOT: u64 = 3;
pub const PINS: u64 = 4;
pub const QUIET: u64 = 5;
pub const RESET: u64 = 6;
pub const IRQ_LOOK: u64 = 7;
pub const RTS_LOOK: u64 = 8;

/// A call of a history.
#[derive(Clone, Copy, Debug)]
pub enum Call {
    Step(Event),
    Drain(Drain),
}

/// A drain of a channel by so many reads at most, into a buffer of such a length.
#[derive(Clone, Copy, Debug)]
pub struct Drain {
    pub channel: u64,
    pub most: u64,
    pub length: usize,
}

/// What a stretch of a history is about.
#[derive(Clone, Copy)]
enum Mood {
    Fiddle,
    Receive,
    Transmit,
    Address,
    Special,
    Flow,
    Quiet,
    Pins,
    Interrupts,
    Guards,
    Levels,
    Resets,
    Windows,
    OutOfRange,
    Audit,
    Xoff,
    Sent,
    Telegram,
}

const MOODS: [Mood; 18] = [
    Mood::Fiddle,
    Mood::Receive,
    Mood::Transmit,
    Mood::Address,
    Mood::Special,
    Mood::Flow,
    Mood::Quiet,
    Mood::Pins,
    Mood::Interrupts,
    Mood::Guards,
    Mood::Levels,
    Mood::Resets,
    Mood::Windows,
    Mood::OutOfRange,
    Mood::Audit,
    Mood::Xoff,
    Mood::Sent,
    Mood::Telegram,
];

/// Makes the calls of a history, a stretch at a time.
pub struct Script {
    random: Random,
    moods: Vec<Mood>,
    calls: VecDeque<Call>,
}

impl Script {
    pub fn new(seed: u64) -> Script {
        let mut random = Random::new(seed);
        let moods =
            (0..2 + random.below(4)).map(|_| MOODS[random.below(MOODS.len() as u64) as usize]).collect();
        Script { random, moods, calls: VecDeque::new() }
    }

    pub fn next(&mut self) -> Call {
        // A stray call now and then, in the middle of a stretch as well.
        if self.random.once_in(60) {
            return if self.random.once_in(4) { Call::Drain(self.any_drain()) } else { Call::Step(self.any()) };
        }
        while self.calls.is_empty() {
            let mood = if self.random.once_in(4) {
                MOODS[self.random.below(MOODS.len() as u64) as usize]
            } else {
                self.moods[self.random.below(self.moods.len() as u64) as usize]
            };
            let channel = self.random.below(2);
            self.stretch(mood, channel);
        }
        self.calls.pop_front().unwrap()
    }

    pub fn below(&mut self, bound: u64) -> u64 {
        self.random.below(bound)
    }

    /// What a history ends with: a look into everything that no answer has shown yet.
    pub fn last_looks(&mut self) -> VecDeque<Call> {
        self.calls.clear();
        self.audit(0);
        self.audit(1);
        std::mem::take(&mut self.calls)
    }

    fn one_of(&mut self, values: &[u64]) -> u64 {
        values[self.random.below(values.len() as u64) as usize]
    }

    /// Values that registers turn on.
    fn byte(&mut self) -> u64 {
        match self.below(5) {
            0 => 1 << self.below(8),
            1 => 0xFF ^ 1 << self.below(8),
            2 => self.one_of(&[0x00, 0xFF, 0x03, 0x1D, 0x80, 0xBF, 0xF1, 0x10]),
            _ => self.below(256),
        }
    }

    fn mark(&mut self) -> u64 {
        if self.random.once_in(3) { self.below(8) } else { 0 }
    }

    /// Any event in range.
    fn any(&mut self) -> Event {
        let channel = self.below(2);
        match self.below(16) {
            0..=4 => [WRITE, channel, self.below(16), self.byte()],
            5..=8 => [READ, channel, self.below(16), self.random.next()],
            9..=10 => [ARRIVAL, channel, self.byte(), self.below(8)],
            11 => [SLOT, channel, self.random.next(), 0],
            12 => [PINS, channel, self.below(16), self.random.next()],
            13 => [QUIET, channel, self.random.next(), 0],
            14 => [IRQ_LOOK, self.random.next(), 0, 0],
            _ => [RTS_LOOK, channel, self.random.next(), 0],
        }
    }

    /// Any drain, also of a channel that there isn't.
    pub fn any_drain(&mut self) -> Drain {
        let channel = match self.below(8) {
            0 => self.one_of(&[2, 3, 256, 257, 1 << 32, 1 << 32 | 1, u64::MAX]),
            1 => self.random.next(),
            _ => self.below(2),
        };
        Drain { channel, most: self.most(), length: self.length() }
    }

    /// Any drain, now and then with a burst of arrivals before it.
    pub fn burst_and_drain(&mut self) -> Vec<Call> {
        let drain = self.any_drain();
        let mut calls = Vec::new();
        if self.random.once_in(4) {
            for _ in 0..self.below(70) {
                calls.push(Call::Step([ARRIVAL, drain.channel, self.byte(), self.mark()]));
            }
        }
        calls.push(Call::Drain(drain));
        calls
    }

    /// How many reads a drain may make: plenty, few, none, and numbers that are few or none once they are cut.
    fn most(&mut self) -> u64 {
        match self.below(8) {
            0..=2 => self.one_of(&[64, 65, 1000, u64::MAX]),
            3..=5 => self.below(70),
            6 => self.below(70) | 1 << (8 + self.below(56)),
            _ => self.one_of(&[0, 0, 1, 1 << 32, 1 << 63, u64::MAX - 1]),
        }
    }

    /// How long a buffer is.
    fn length(&mut self) -> usize {
        let length = match self.below(6) {
            0 | 1 => self.below(70),
            2 => self.one_of(&[0, 1, 63, 65]),
            3 => self.one_of(&[256, 257, 300]),
            _ => 64,
        };
        length as usize
    }

    fn push(&mut self, event: Event) {
        self.calls.push_back(Call::Step(event));
    }

    fn drain(&mut self, channel: u64, most: u64, length: usize) {
        self.calls.push_back(Call::Drain(Drain { channel, most, length }));
    }

    /// Some drain, mostly of this channel.
    fn some_drain(&mut self, channel: u64) {
        let drain = self.any_drain();
        self.drain(if drain.channel < 2 { channel } else { drain.channel }, drain.most, drain.length);
    }

    fn write(&mut self, channel: u64, address: u64, byte: u64) {
        self.push([WRITE, channel, address, byte]);
    }

    fn read(&mut self, channel: u64, address: u64) {
        self.push([READ, channel, address, 0]);
    }

    fn looks(&mut self, channel: u64) {
        self.push([IRQ_LOOK, 0, 0, 0]);
        self.push([RTS_LOOK, channel, 0, 0]);
    }

    /// Opens the general set, with some word length; at times leaves the window as it is.
    fn general(&mut self, channel: u64) {
        if !self.random.once_in(20) {
            let lcr = if self.random.once_in(3) { self.below(128) } else { 3 };
            self.write(channel, 3, lcr);
        }
    }

    /// EFR and back to the general set.
    fn efr(&mut self, channel: u64, efr: u64) {
        self.write(channel, 3, 0xBF);
        self.write(channel, 2, efr);
        self.general(channel);
    }

    /// A register of window BF and back, with a word length.
    fn enhanced(&mut self, channel: u64, address: u64, byte: u64, word: u64) {
        self.write(channel, 3, 0xBF);
        self.write(channel, address, byte);
        if self.random.once_in(8) {
            self.push([SLOT, channel, 0, 0]);
        }
        self.write(channel, 3, word);
    }

    /// XON1, XON2, XOFF1 and XOFF2: mostly such as the word length leaves whole, at times the same.
    fn pairs(&mut self, channel: u64, mask: u64) -> [u64; 4] {
        let mut pairs = [0; 4];
        self.write(channel, 3, 0xBF);
        for at in 0..4 {
            pairs[at] = match self.below(6) {
                0 => pairs[self.below(4) as usize],
                1 => self.below(256),
                _ => self.below(256) & mask,
            };
            self.write(channel, 4 + at as u64, pairs[at]);
        }
        pairs
    }

    /// Writes something again that Xon and Xoff hang on.
    fn rewrite(&mut self, channel: u64, efr: u64, word: u64) {
        match self.below(9) {
            0..=2 => {
                let high = if self.random.once_in(2) { efr } else { self.below(16) << 4 };
                let low = if self.random.once_in(2) { self.one_of(&[5, 6, 9, 10]) } else { self.below(16) };
                self.enhanced(channel, 2, high & 0xF0 | low, word);
            }
            3 | 4 => {
                let (address, byte) = (4 + self.below(4), self.below(256));
                self.enhanced(channel, address, byte, word);
            }
            5 => {
                let efcr = self.one_of(&[0, 0, 0, 0, 1, 2, 3, 4, 4, 0x10, 0x30]);
                self.write(channel, 15, efcr);
            }
            6 => {
                let mcr = self.one_of(&[0, 0x20, 0x24, 4]);
                self.write(channel, 4, mcr);
            }
            7 => {
                let word = self.below(4);
                self.write(channel, 3, word);
            }
            _ => {
                let pins = self.below(16);
                self.push([PINS, channel, pins, 0]);
            }
        }
    }

    /// A byte of two levels: none, the one, the other, or any.
    fn two_levels(&mut self) -> u64 {
        match self.below(4) {
            0 => 0,
            1 => self.below(16),
            2 => self.below(16) << 4,
            _ => self.below(256),
        }
    }

    /// TCR and TLR, by way of EFR 4 and MCR 2.
    fn levels(&mut self, channel: u64, efr: u64) {
        self.efr(channel, efr | 0x10);
        let mcr = self.below(256);
        self.write(channel, 4, mcr | 4);
        if !self.random.once_in(3) {
            let tcr = self.two_levels();
            self.write(channel, 6, tcr);
        }
        if !self.random.once_in(3) {
            let tlr = self.two_levels();
            self.write(channel, 7, tlr);
        }
        if self.random.once_in(2) {
            self.write(channel, 4, mcr & !4);
        }
        if self.random.once_in(2) {
            self.efr(channel, efr);
        }
    }

    fn fcr(&mut self, channel: u64) {
        let clears = if self.random.once_in(2) { self.one_of(&[0, 2, 4, 6, 8]) } else { 0 };
        let fifo = u64::from(!self.random.once_in(5));
        let levels = self.below(16) << 4;
        self.write(channel, 2, levels | clears | fifo);
    }

    fn arrival(&mut self, channel: u64) {
        let event = [ARRIVAL, channel, self.below(256), self.mark()];
        self.push(event);
    }

    /// A read or a look that shows something.
    fn glance(&mut self, channel: u64) {
        match self.below(8) {
            0 => self.read(channel, 2),
            1 => self.read(channel, 5),
            2 => self.read(channel, 6),
            3 => self.read(channel, 8),
            4 => self.read(channel, 9),
            5 => self.push([IRQ_LOOK, 0, 0, 0]),
            _ => self.push([RTS_LOOK, channel, 0, 0]),
        }
    }

    /// Characters of the pairs among others, with what decides whether they are taken.
    fn xoff(&mut self, channel: u64) {
        let word = self.below(4);
        let pairs = self.pairs(channel, 0xFF >> (3 - word));
        let low = if self.random.once_in(4) { self.below(16) } else { self.one_of(&[1, 2, 5, 10]) };
        let efr = self.one_of(&[0, 0x20, 0x20, 0x80]) | low;
        self.enhanced(channel, 2, efr | 0x10, word);
        let ier = self.one_of(&[0x20, 0x20, 0x21, 0x01, 0xFF]);
        self.write(channel, 1, ier);
        let mcr = self.one_of(&[0, 0x20]);
        self.write(channel, 4, mcr);
        let fcr = self.one_of(&[0x00, 0x01, 0x03]);
        self.write(channel, 2, fcr);
        if self.random.once_in(2) {
            self.enhanced(channel, 2, efr, word);
        }
        self.write(channel, 15, 0);
        for _ in 0..self.below(80) {
            // Now and then a character that the receiver has another rule for.
            let efcr = if self.random.once_in(6) { self.one_of(&[1, 2, 3]) } else { 0 };
            if efcr != 0 {
                self.write(channel, 15, efcr);
            }
            let byte = match self.below(8) {
                0..=4 => pairs[self.below(4) as usize],
                5 => pairs[self.below(4) as usize] ^ 1 << self.below(8),
                _ => self.below(256),
            };
            let mark = if self.random.once_in(5) { self.below(8) } else { 0 };
            self.push([ARRIVAL, channel, byte, mark]);
            if efcr != 0 {
                self.write(channel, 15, 0);
            }
            match self.below(12) {
                0 | 1 => self.read(channel, 2),
                2 => self.read(channel, 5),
                3 | 4 => self.push([SLOT, channel, 0, 0]),
                5 | 6 => {
                    let byte = self.below(256);
                    self.write(channel, 0, byte);
                    self.push([SLOT, channel, 0, 0]);
                }
                7 => {
                    for _ in 0..4 {
                        self.push([QUIET, channel, 0, 0]);
                    }
                }
                8 if self.random.once_in(2) => self.some_drain(channel),
                8 => self.read(channel, 0),
                9 => self.glance(channel),
                10 => self.rewrite(channel, efr, word),
                _ => {}
            }
        }
    }

    /// The queue filled and read, so that the second latch turns, with what becomes of the byte that waits.
    fn sent(&mut self, channel: u64) {
        let word = if self.random.once_in(3) { self.below(4) } else { 3 };
        let pairs = self.pairs(channel, 0xFF);
        let low = if self.random.once_in(4) { self.below(16) } else { self.one_of(&[4, 8, 5, 10]) };
        let efr = self.one_of(&[0, 0, 0x40, 0x80]) | low;
        self.enhanced(channel, 2, efr | 0x10, word);
        self.write(channel, 4, 4);
        // Low levels, so that the latch turns often.
        let tcr = self.one_of(&[0x00, 0x01, 0x02, 0x10, 0x11, 0x12, 0x13, 0x21]);
        self.write(channel, 6, tcr);
        self.write(channel, 15, 0);
        let fcr = self.one_of(&[0x01, 0x01, 0x01, 0x41, 0x00]);
        self.write(channel, 2, fcr);
        if self.random.once_in(2) {
            self.enhanced(channel, 2, efr, word);
        }
        for _ in 0..self.below(30) {
            let (moved, up, at_one_go) = (self.below(8), self.random.once_in(2), self.random.once_in(2));
            for _ in 0..moved {
                if up {
                    let byte = self.below(256);
                    self.push([ARRIVAL, channel, byte, 1]);
                } else if !at_one_go {
                    self.read(channel, 0);
                }
            }
            if !up && at_one_go {
                self.drain(channel, moved, 64);
            }
            for _ in 0..self.below(4) {
                match self.below(9) {
                    0 => {
                        let byte = self.below(256);
                        self.write(channel, 0, byte);
                    }
                    1 => self.read(channel, 5),
                    2 => self.glance(channel),
                    3 | 4 => self.rewrite(channel, efr, word),
                    5 => {
                        let fcr = self.one_of(&[0x01, 0x03, 0x05, 0x41, 0x00]);
                        self.write(channel, 2, fcr);
                    }
                    6 => {
                        let byte = pairs[self.below(4) as usize];
                        self.push([ARRIVAL, channel, byte, 0]);
                    }
                    _ => self.push([SLOT, channel, 0, 0]),
                }
            }
        }
    }

    /// Meter telegrams, taken at one go, mostly after the timeout interrupt.
    fn telegram(&mut self, channel: u64) {
        self.general(channel);
        self.write(channel, 15, 0);
        let ier = self.one_of(&[0x01, 0x01, 0x01, 0x05, 0x00]);
        self.write(channel, 1, ier);
        let fcr = self.one_of(&[0x01, 0x01, 0x41, 0xC3, 0x00]);
        self.write(channel, 2, fcr);
        for _ in 0..1 + self.below(6) {
            let marks = self.random.once_in(2);
            for _ in 0..self.one_of(&[1, 5, 20, 62, 64, 66]) {
                let byte = if self.random.once_in(30) { 0 } else { self.below(256) };
                let mark = if marks && self.random.once_in(10) { self.mark() } else { 0 };
                self.push([ARRIVAL, channel, byte, mark]);
            }
            for _ in 0..self.one_of(&[4, 4, 4, 5, 3, 0]) {
                self.push([QUIET, channel, 0, 0]);
            }
            if self.random.once_in(2) {
                self.read(channel, 2);
            }
            for _ in 0..1 + self.below(3) {
                self.at_one_go(channel);
            }
        }
    }

    /// A drain, at times in a window where RHR is closed or with the receiver off, and a look at what it leaves.
    fn at_one_go(&mut self, channel: u64) {
        let (closed, off) = (self.random.once_in(6), self.random.once_in(8));
        if closed {
            let lcr = if self.random.once_in(2) { 0xBF } else { 0x80 | self.below(128) };
            self.write(channel, 3, lcr);
        } else if off {
            self.write(channel, 15, 2);
        } else if self.random.once_in(4) {
            self.general(channel);
        }
        self.some_drain(channel);
        if closed {
            self.general(channel);
        } else if off {
            self.write(channel, 15, 0);
        }
        match self.below(6) {
            0 | 1 => self.read(channel, 2),
            2 => self.read(channel, 5),
            3 => self.read(channel, 0),
            _ => self.glance(channel),
        }
    }

    fn stretch(&mut self, mood: Mood, channel: u64) {
        match mood {
            Mood::Fiddle => {
                for _ in 0..self.below(40) {
                    let event = self.any();
                    self.push(event);
                    if self.random.once_in(12) {
                        self.some_drain(channel);
                    }
                    if self.random.once_in(8) {
                        self.general(channel);
                    }
                }
            }
            Mood::Receive => {
                self.general(channel);
                if !self.random.once_in(5) {
                    self.write(channel, 15, 0);
                }
                if self.random.once_in(2) {
                    self.fcr(channel);
                }
                let marks = self.random.once_in(2);
                for _ in 0..self.one_of(&[2, 10, 62, 66, 70]) {
                    let mark = if marks { self.mark() } else { 0 };
                    let event = [ARRIVAL, channel, self.below(256), mark];
                    self.push(event);
                    if self.random.once_in(12) {
                        self.glance(channel);
                    }
                }
                let at_one_go = self.random.once_in(3);
                for _ in 0..self.one_of(if at_one_go { &[1, 2, 3] } else { &[0, 1, 10, 40, 70] }) {
                    if at_one_go {
                        self.some_drain(channel);
                    } else {
                        self.read(channel, 0);
                    }
                    if self.random.once_in(4) {
                        self.glance(channel);
                    }
                }
                if self.random.once_in(4) {
                    self.fcr(channel);
                    self.read(channel, 5);
                    self.read(channel, 9);
                }
            }
            Mood::Transmit => {
                self.general(channel);
                if self.random.once_in(2) {
                    self.fcr(channel);
                }
                if !self.random.once_in(4) {
                    let efcr = self.one_of(&[0, 0, 4, 0x10, 0x30, 0x20]);
                    self.write(channel, 15, efcr);
                }
                if self.random.once_in(2) {
                    self.write(channel, 1, 2);
                }
                for _ in 0..self.one_of(&[1, 3, 20, 63, 66, 70]) {
                    let byte = self.below(256);
                    self.write(channel, 0, byte);
                    if self.random.once_in(10) {
                        self.glance(channel);
                    }
                }
                for _ in 0..self.one_of(&[1, 2, 10, 40, 68]) {
                    if self.random.once_in(10) {
                        self.general(channel);
                    }
                    if self.random.once_in(15) {
                        self.fcr(channel);
                    }
                    if self.random.once_in(15) {
                        let efcr = self.one_of(&[0, 4, 0x10, 0x30, 0x20]);
                        self.write(channel, 15, efcr);
                    }
                    if self.random.once_in(15) {
                        let pins = self.below(16);
                        self.push([PINS, channel, pins, 0]);
                    }
                    self.push([SLOT, channel, 0, 0]);
                    if self.random.once_in(3) {
                        self.glance(channel);
                    }
                }
            }
            Mood::Address | Mood::Special => {
                self.write(channel, 3, 0xBF);
                let word = self.below(4);
                let mask = 0xFF >> (3 - word);
                let xoff2 = if self.random.once_in(5) { self.below(256) } else { self.below(256) & mask };
                let xoff1 = if self.random.once_in(3) { xoff2 } else { self.below(256) };
                self.write(channel, 7, xoff2);
                self.write(channel, 6, xoff1);
                let efr = if self.random.once_in(4) { 0 } else { 0x20 };
                self.write(channel, 2, efr | 0x10);
                self.write(channel, 3, word);
                let ier = self.one_of(&[0x20, 0x20, 0x10, 0x21, 0xFF]);
                self.write(channel, 1, ier);
                if self.random.once_in(2) {
                    self.fcr(channel);
                }
                let nine = matches!(mood, Mood::Address);
                let efcr = if nine { 1 } else { 0 } | self.one_of(&[0, 0, 2]);
                self.write(channel, 15, efcr);
                for _ in 0..self.below(80) {
                    let byte = match self.below(6) {
                        0 | 1 => xoff2,
                        2 => xoff2 ^ self.below(256) & !mask & 0xFF,
                        3 => xoff1,
                        4 => xoff2 ^ 1 << self.below(8),
                        _ => self.below(256),
                    };
                    let mark = if nine { self.one_of(&[0, 1, 1, 1, 2, 5]) } else { self.one_of(&[0, 0, 1, 4]) };
                    self.push([ARRIVAL, channel, byte, mark]);
                    match self.below(5) {
                        0 => self.read(channel, 15),
                        1 => self.read(channel, 0),
                        2 => self.read(channel, 2),
                        3 => self.glance(channel),
                        _ => {}
                    }
                    if self.random.once_in(20) {
                        self.write(channel, 15, efcr);
                    }
                }
            }
            Mood::Flow => {
                let efr = self.one_of(&[0x40, 0x40, 0xC0, 0x50, 0x00]);
                self.levels(channel, efr);
                self.efr(channel, efr | 0x10);
                self.write(channel, 1, 0x40);
                if self.random.once_in(2) {
                    self.efr(channel, efr);
                }
                self.write(channel, 15, 0);
                let fcr = self.below(16) << 4 | 1;
                if self.random.once_in(4) {
                    self.fcr(channel);
                } else {
                    self.write(channel, 2, fcr);
                }
                // Up and down around a place, so that halt and resume are met from both sides.
                let rise = self.one_of(&[5, 10, 20, 40, 64, 64]);
                for _ in 0..rise {
                    self.arrival(channel);
                    self.push([RTS_LOOK, channel, 0, 0]);
                }
                for _ in 0..1 + self.below(4) {
                    let mut down = self.below(rise + 2);
                    if self.random.once_in(2) {
                        let at_one_go = self.below(down + 1);
                        self.drain(channel, at_one_go, 64);
                        self.push([RTS_LOOK, channel, 0, 0]);
                        down -= at_one_go;
                    }
                    for _ in 0..down {
                        self.read(channel, 0);
                        self.push([RTS_LOOK, channel, 0, 0]);
                        if self.random.once_in(10) {
                            self.read(channel, 2);
                        }
                    }
                    if self.random.once_in(3) {
                        self.efr(channel, efr & 0x80);
                        self.efr(channel, efr);
                        self.push([RTS_LOOK, channel, 0, 0]);
                    }
                    if self.random.once_in(4) {
                        let efcr = self.one_of(&[0x10, 0x20, 0x30, 0]);
                        self.write(channel, 15, efcr);
                        self.push([RTS_LOOK, channel, 0, 0]);
                        self.read(channel, 2);
                    }
                    let up = self.below(rise + 2);
                    for _ in 0..up {
                        self.arrival(channel);
                        self.push([RTS_LOOK, channel, 0, 0]);
                        if self.random.once_in(10) {
                            self.read(channel, 2);
                        }
                    }
                    if self.random.once_in(3) {
                        let mcr = self.below(4);
                        self.write(channel, 4, mcr);
                        self.looks(channel);
                    }
                }
            }
            Mood::Quiet => {
                self.general(channel);
                self.write(channel, 1, 1);
                self.fcr(channel);
                let efcr = self.one_of(&[0, 0, 2, 1, 3]);
                for _ in 0..1 + self.below(8) {
                    let arrivals = self.one_of(&[0, 1, 1, 2, 3]);
                    for _ in 0..arrivals {
                        self.arrival(channel);
                    }
                    for _ in 0..1 + self.below(6) {
                        self.push([QUIET, channel, 0, 0]);
                        if self.random.once_in(2) {
                            self.read(channel, 2);
                        }
                    }
                    match self.below(6) {
                        0 => self.read(channel, 0),
                        1 => {
                            self.write(channel, 15, efcr);
                            self.arrival(channel);
                            self.write(channel, 15, 0);
                        }
                        2 => {
                            let arrivals = self.one_of(&[1, 64]);
                            for _ in 0..arrivals {
                                self.arrival(channel);
                            }
                            for _ in 0..4 {
                                self.push([QUIET, channel, 0, 0]);
                            }
                            self.arrival(channel);
                        }
                        3 => self.fcr(channel),
                        4 => self.some_drain(channel),
                        _ => {}
                    }
                    self.read(channel, 2);
                }
            }
            Mood::Pins => {
                let efr = self.one_of(&[0x10, 0x90, 0x80, 0]);
                self.efr(channel, efr | 0x10);
                let ier = self.one_of(&[0x08, 0x80, 0x88, 0xC0, 0xFF]);
                self.write(channel, 1, ier);
                self.efr(channel, efr);
                for _ in 0..self.below(30) {
                    let pins = self.below(16);
                    self.push([PINS, channel, pins, 0]);
                    match self.below(6) {
                        0 => self.read(channel, 6),
                        1 => self.read(channel, 2),
                        2 => {
                            let byte = self.below(256);
                            self.write(channel, 0, byte);
                        }
                        3 | 4 => self.push([SLOT, channel, 0, 0]),
                        _ => self.looks(channel),
                    }
                }
            }
            Mood::Interrupts => {
                let efr = self.below(256);
                self.efr(channel, efr | 0x10);
                let ier = self.byte();
                self.write(channel, 1, ier);
                self.efr(channel, efr);
                if self.random.once_in(2) {
                    self.fcr(channel);
                }
                let few = self.below(60);
                for _ in 0..few {
                    match self.below(12) {
                        0 | 1 => self.arrival(channel),
                        2 => {
                            let byte = self.below(256);
                            self.write(channel, 0, byte);
                        }
                        3 => self.push([SLOT, channel, 0, 0]),
                        4 => {
                            let pins = self.below(16);
                            self.push([PINS, channel, pins, 0]);
                        }
                        5 => {
                            let mcr = self.below(256);
                            self.write(channel, 4, mcr);
                        }
                        6 => {
                            let ier = self.byte();
                            self.write(channel, 1, ier);
                        }
                        7 => {
                            for _ in 0..4 {
                                self.push([QUIET, channel, 0, 0]);
                            }
                        }
                        8 if self.random.once_in(2) => self.some_drain(channel),
                        8 => self.read(channel, 0),
                        9 => {
                            // A special character, if EFR 5 lets it.
                            self.write(channel, 15, 0);
                            self.push([ARRIVAL, channel, 0, 0]);
                        }
                        _ => {
                            self.read(channel, 2);
                            self.looks(channel);
                        }
                    }
                }
                for _ in 0..8 {
                    self.read(channel, 2);
                }
            }
            Mood::Guards => {
                for _ in 0..1 + self.below(8) {
                    let efr = self.byte();
                    self.efr(channel, efr);
                    for _ in 0..1 + self.below(6) {
                        let address = self.one_of(&[1, 1, 2, 4, 4, 6, 7, 15, 5, 8, 9, 12]);
                        let byte = self.byte();
                        self.write(channel, address, byte);
                        let address = self.one_of(&[1, 4, 7, 15, 2, 5]);
                        self.read(channel, address);
                    }
                    self.write(channel, 3, 0x80);
                    let bytes = [self.byte(), self.byte()];
                    self.write(channel, 0, bytes[0]);
                    self.write(channel, 1, bytes[1]);
                    self.read(channel, 0);
                    self.read(channel, 1);
                    self.general(channel);
                }
            }
            Mood::Levels => {
                self.levels(channel, 0);
                self.write(channel, 15, 0);
                self.write(channel, 1, 3);
                self.fcr(channel);
                if self.random.once_in(2) {
                    let arrivals = 1 + self.below(64);
                    for _ in 0..arrivals {
                        self.push([ARRIVAL, channel, 0x41, 0]);
                        self.push([IRQ_LOOK, 0, 0, 0]);
                        if self.random.once_in(3) {
                            self.read(channel, 2);
                        }
                    }
                } else {
                    let written = 1 + self.below(66);
                    for _ in 0..written {
                        let byte = self.below(256);
                        self.write(channel, 0, byte);
                        self.read(channel, 2);
                    }
                    if self.random.once_in(3) {
                        self.write(channel, 1, 2);
                    }
                    let left = self.below(68);
                    for _ in 0..left {
                        self.push([SLOT, channel, 0, 0]);
                        self.read(channel, 2);
                        if self.random.once_in(30) {
                            self.levels(channel, 0);
                        }
                    }
                }
            }
            Mood::Resets => {
                match self.below(4) {
                    0 => self.push([RESET, 0, 0, 0]),
                    1 => {
                        let junk = self.random.next();
                        self.push([RESET, junk, junk, junk]);
                    }
                    _ => {
                        self.general(channel);
                        let byte = if self.random.once_in(3) { self.byte() } else { 8 };
                        self.write(channel, 14, byte);
                    }
                }
                if self.random.once_in(2) {
                    let channel = self.below(2);
                    self.audit(channel);
                } else {
                    // The flags that a reset must clear, seen before anything else happens.
                    for channel in 0..2 {
                        self.read(channel, 3);
                        if self.random.once_in(2) {
                            self.read(channel, 5);
                            self.write(channel, 0, 0x41);
                            self.push([SLOT, channel, 0, 0]);
                            self.push([SLOT, channel, 0, 0]);
                        }
                        let low = if self.random.once_in(2) { self.below(16) } else { 0 };
                        self.efr(channel, 0x10 | low);
                        let ier = self.one_of(&[0xFF, 0xF0, 0x0F, 0x20, 0xC0]);
                        self.write(channel, 1, ier);
                        for _ in 0..6 {
                            self.read(channel, 2);
                        }
                        self.read(channel, 5);
                        self.read(channel, 6);
                        self.push([SLOT, channel, 0, 0]);
                        self.push([SLOT, channel, 0, 0]);
                    }
                }
            }
            Mood::Windows => {
                for _ in 0..1 + self.below(10) {
                    let lcr = match self.below(4) {
                        0 => 0xBF,
                        1 => 0x80 | self.below(128),
                        2 => self.one_of(&[0x3F, 0xBE, 0xFF, 0xAF, 0x80]),
                        _ => self.below(256),
                    };
                    self.write(channel, 3, lcr);
                    for _ in 0..self.below(12) {
                        let address = self.below(16);
                        if address == 3 {
                            continue;
                        }
                        if self.random.once_in(2) {
                            let byte = self.byte();
                            self.write(channel, address, byte);
                        }
                        self.read(channel, address);
                        if self.random.once_in(12) {
                            self.some_drain(channel);
                        }
                    }
                    self.read(channel, 3);
                }
                self.general(channel);
            }
            Mood::OutOfRange => {
                for _ in 0..self.below(20) {
                    let mut event = self.any();
                    let bounds: [u64; 4] = [9, 2, 16, 256];
                    for _ in 0..1 + self.below(3) {
                        let place = self.below(4) as usize;
                        event[place] = match self.below(6) {
                            0 => bounds[place],
                            1 => self.one_of(&[8, 9, 15, 16, 255, 256, 7]),
                            2 => self.below(16) | 1 << (8 + self.below(56)),
                            3 => self.random.next(),
                            4 => u64::MAX - self.below(3),
                            _ => self.below(512),
                        };
                    }
                    self.push(event);
                    if self.random.once_in(6) {
                        self.some_drain(channel);
                    }
                }
            }
            Mood::Audit => self.audit(channel),
            Mood::Xoff => self.xoff(channel),
            Mood::Sent => self.sent(channel),
            Mood::Telegram => self.telegram(channel),
        }
    }

    /// Looks into everything a channel holds, until it is empty.
    fn audit(&mut self, channel: u64) {
        self.looks(channel);
        self.read(channel, 3);
        for address in [2, 5, 6, 2, 9, 8, 4, 1, 15, 7] {
            self.read(channel, address);
        }
        // The EFR below drops what waits.
        self.push([SLOT, channel, 0, 0]);
        self.push([SLOT, channel, 0, 0]);
        self.write(channel, 3, 0xBF);
        for address in [2, 4, 5, 6, 7] {
            self.read(channel, address);
        }
        self.write(channel, 2, 0x10);
        self.write(channel, 3, 0x80);
        self.read(channel, 0);
        self.read(channel, 1);
        self.write(channel, 3, 3);
        self.write(channel, 1, 0xFF);
        for _ in 0..6 {
            self.read(channel, 2);
        }
        for address in [5, 6, 4, 15] {
            self.read(channel, address);
        }
        self.write(channel, 4, 4);
        self.read(channel, 6);
        self.read(channel, 7);
        self.write(channel, 15, 0);
        for _ in 0..self.one_of(&[3, 20, 66]) {
            self.read(channel, 0);
            self.read(channel, 5);
            self.read(channel, 2);
        }
        for _ in 0..self.one_of(&[3, 20, 66]) {
            self.push([SLOT, channel, 0, 0]);
            self.read(channel, 8);
            self.read(channel, 2);
        }
        self.looks(channel);
    }
}
