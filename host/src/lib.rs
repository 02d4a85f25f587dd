//! The chip of `include/sc16is752.h` for Rust: a record that is lent to the proved step, event by event, and to the proved drain.

pub mod model;
pub mod script;
pub mod wrong;

/// The record's size in bytes, as the C header has it. The layout inside is nobody's business here.
const SIZE: usize = 580;

#[repr(C)]
#[derive(Clone, PartialEq, Eq)]
struct Record([u8; SIZE]);

extern "C" {
    fn sc16is752_new(chip: *mut Record);
    fn sc16is752_step(chip: *mut Record, kind: u64, x: u64, y: u64, z: u64) -> u32;
    fn sc16is752_drain(chip: *mut Record, channel: u64, most: u64, buffer: *mut u8, length: usize) -> usize;
}

/// What an event is answered with: the reply, or document 01's refusal number.
#[derive(Clone, Copy, Debug, PartialEq, Eq)]
pub enum Answer {
    Reply(u32),
    Refused(u32),
}

/// A chip. Only `new` makes a record and only `step` and `drain` write it, so it is well formed as they ask.
/// Two are equal if their records are, byte for byte.
#[derive(Clone, PartialEq, Eq)]
pub struct Chip(Box<Record>);

impl Chip {
    pub fn new() -> Chip {
        let mut record = Box::new(Record([0; SIZE]));
        // The record is zeroed, of its full size, and nobody else's.
        unsafe { sc16is752_new(&mut *record) };
        Chip(record)
    }

    /// One event by its kind and operands, any numbers at all.
    pub fn step(&mut self, kind: u64, x: u64, y: u64, z: u64) -> Answer {
        // `new` made the record, and `&mut self` lends it to this call alone.
        match unsafe { sc16is752_step(&mut *self.0, kind, x, y, z) } {
            reply if reply < 512 => Answer::Reply(reply),
            refused => Answer::Refused(refused - 512),
        }
    }

    /// Reads RHR into the buffer, `most` times at most, until the queue is empty or the buffer full, and hands
    /// back the filled front part. The channel and `most` may be any numbers at all.
    pub fn drain<'a>(&mut self, channel: u64, most: u64, buffer: &'a mut [u8]) -> &'a mut [u8] {
        // As for `step`; and the buffer, of just this length, is lent to this call alone.
        let length = unsafe {
            sc16is752_drain(&mut *self.0, channel, most, buffer.as_mut_ptr(), buffer.len())
        };
        &mut buffer[..length]
    }
}

impl Default for Chip {
    fn default() -> Chip {
        Chip::new()
    }
}

/// Random numbers from a seed, the same on every machine (xorshift64*).
pub struct Random(u64);

impl Random {
    pub fn new(seed: u64) -> Random {
        Random(seed.wrapping_mul(0x9E37_79B9_7F4A_7C15) | 1)
    }

    pub fn next(&mut self) -> u64 {
        self.0 ^= self.0 >> 12;
        self.0 ^= self.0 << 25;
        self.0 ^= self.0 >> 27;
        self.0.wrapping_mul(0x2545_F491_4F6C_DD1D)
    }

    /// A number below a bound.
    pub fn below(&mut self, bound: u64) -> u64 {
        (self.next() >> 33) % bound
    }

    /// True once in so many times.
    pub fn once_in(&mut self, times: u64) -> bool {
        self.below(times) == 0
    }
}

/// How many operands each kind has.
pub const OPERANDS: [usize; 9] = [3, 2, 3, 1, 2, 1, 0, 0, 1];

/// An event of plain numbers: its kind and three operands.
pub type Event = [u64; 4];

/// A number by document 01's number rule.
fn put_number(bytes: &mut Vec<u8>, n: u64) {
    if n < 128 {
        bytes.push(n as u8);
    } else {
        bytes.push((n % 128 + 128) as u8);
        bytes.push((n / 128) as u8);
    }
}

/// The event as an event file has it. Its numbers must be below 16,384 and its kind below 9.
pub fn put_event(bytes: &mut Vec<u8>, event: Event) {
    let operands = OPERANDS[event[0] as usize];
    for &n in &event[..=operands] {
        put_number(bytes, n);
    }
}
