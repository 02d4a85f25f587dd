//! Runs random histories on two records, and each drain of the one as single reads on the other. After a drain the part
//! must be what the reads gave, the rest of the buffer and what lies around it as it was, and the two records the same,
//! byte for byte.
//!
//! usage: drain SEED HISTORIES
use host::script::{Call, Drain, Script, READ};
use host::{Answer, Chip, Event, Random};

const LCR: u64 = 3;
const RXLVL: u64 = 9;

/// How many rounds a history has, each a call, or a drain with what comes before it.
const LENGTH: usize = 3_000;

/// Bytes on both sides of a buffer.
const GUARD: usize = 80;

/// The record that is drained at one go, the one that is read singly, and the bytes around the buffers.
struct Pair {
    drained: Chip,
    single: Chip,
    random: Random,
    drains: usize,
    characters: usize,
}

fn read(chip: &mut Chip, channel: u64, address: u64) -> Option<u8> {
    match chip.step(READ, channel, address, 0) {
        Answer::Reply(byte) => Some(byte as u8),
        Answer::Refused(_) => None,
    }
}

/// How many reads a drain comes to. A copy of the record is asked, so that the record has had nothing but the reads.
fn reads(chip: &Chip, drain: Drain) -> Option<u64> {
    let mut copy = chip.clone();
    if read(&mut copy, drain.channel, LCR)? >= 0x80 {
        return None;
    }
    let queued = read(&mut copy, drain.channel, RXLVL)?;
    Some(drain.most.min(u64::from(queued)).min(drain.length as u64))
}

impl Pair {
    fn call(&mut self, call: Call) -> Result<(), String> {
        match call {
            Call::Step(event) => self.step(event),
            Call::Drain(drain) => self.drain(drain),
        }
    }

    fn step(&mut self, [kind, x, y, z]: Event) -> Result<(), String> {
        let (drained, single) = (self.drained.step(kind, x, y, z), self.single.step(kind, x, y, z));
        if drained != single {
            return Err(format!("the drained record says {drained:?}, the other {single:?}"));
        }
        Ok(())
    }

    fn drain(&mut self, drain: Drain) -> Result<(), String> {
        let Drain { channel, most, length } = drain;
        let before: Vec<u8> = (0..GUARD + length + GUARD).map(|_| self.random.below(256) as u8).collect();
        let mut after = before.clone();
        let part = self.drained.drain(channel, most, &mut after[GUARD..GUARD + length]).len();
        let behind = GUARD + part;

        let mut expected = Vec::new();
        for _ in 0..reads(&self.single, drain).unwrap_or(0) {
            expected.extend(read(&mut self.single, channel, 0));
        }
        if after[GUARD..behind] != expected {
            return Err(format!("the part is {:02X?}, the reads gave {expected:02X?}", &after[GUARD..behind]));
        }
        if after[..GUARD] != before[..GUARD] || after[behind..] != before[behind..] {
            return Err(format!("a byte beside the part of {part} has changed"));
        }
        if self.drained != self.single {
            return Err(format!("the records differ after a part of {part}"));
        }
        self.drains += 1;
        self.characters += part;
        Ok(())
    }
}

fn main() {
    let arguments: Vec<String> = std::env::args().collect();
    let [_, seed, histories] = &arguments[..] else {
        eprintln!("usage: drain SEED HISTORIES");
        std::process::exit(2);
    };
    let seed: u64 = seed.parse().expect("a seed is a number");
    let histories: u64 = histories.parse().expect("a count is a number");

    let (mut drains, mut characters) = (0, 0);
    for seed in seed..seed + histories {
        let mut script = Script::new(seed);
        let random = Random::new(!seed);
        let mut pair = Pair { drained: Chip::new(), single: Chip::new(), random, drains: 0, characters: 0 };
        // More drains than a history has by itself, in some so many that the queue hardly fills.
        let between = [5, 40, 400][script.below(3) as usize];
        for index in 0..LENGTH {
            let calls = if script.below(between) == 0 { script.burst_and_drain() } else { vec![script.next()] };
            for call in calls {
                if let Err(difference) = pair.call(call) {
                    println!("drain: seed {seed}: round {index} {call:X?}: {difference}");
                    std::process::exit(1);
                }
            }
        }
        drains += pair.drains;
        characters += pair.characters;
    }
    println!("drain: {histories} histories, {drains} drains of {characters} characters, all the same as single reads");
}
