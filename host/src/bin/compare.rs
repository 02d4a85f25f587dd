//! Runs random histories through the proved chip and the second model, and compares every answer and every buffer
//! that a drain is lent.
//!
//! usage: compare SEED HISTORIES [LENGTH]
//!        compare --wrong SEED HISTORIES [LENGTH]
//!        compare --before SEED HISTORIES [LENGTH]
//!
//! With --wrong each wrong change of the second model takes its place in turn, and those that no history
//! tells from the chip are named. With --before EFR 3:0 stay clear in every history, and the chip is compared
//! with the second model without Xon and Xoff.
use host::model::{Before, Machine, Right, Switch};
use host::script::{Call, Drain, Script, IRQ_LOOK, READ, RTS_LOOK, WRITE};
use host::{wrong, Answer, Chip, Event};

/// What a call comes to.
#[derive(PartialEq, Eq)]
enum Outcome {
    Step(Answer),
    /// How long the part is, and the whole buffer.
    Drain(usize, Vec<u8>),
}

/// A chip and a model side by side, with the calls they had.
struct Pair<S> {
    switch: S,
    chip: Chip,
    model: Machine<S>,
    past: Vec<(Call, Outcome)>,
}

/// Where the two part, and what the model says there.
struct Difference {
    past: Vec<(Call, Outcome)>,
    model: Outcome,
}

/// What a drain leaves of a buffer in which no byte is like its neighbours.
fn drained(length: usize, drain: impl FnOnce(&mut [u8]) -> &mut [u8]) -> Outcome {
    let mut buffer: Vec<u8> = (0..length).map(|at| 0xA5 ^ at as u8).collect();
    let part = drain(&mut buffer).len();
    Outcome::Drain(part, buffer)
}

impl<S: Switch> Pair<S> {
    fn step(&mut self, event: Event) -> Result<(), Outcome> {
        self.call(Call::Step(event))
    }

    fn call(&mut self, call: Call) -> Result<(), Outcome> {
        let (call, chip, model) = match call {
            Call::Step([kind, x, y, mut z]) => {
                if !self.switch.xon_xoff() && kind == WRITE && y == 2 && self.model.efr_open(x) {
                    z &= !0x0F;
                }
                let (chip, model) = (self.chip.step(kind, x, y, z), self.model.step(kind, x, y, z));
                (Call::Step([kind, x, y, z]), Outcome::Step(chip), Outcome::Step(model))
            }
            Call::Drain(Drain { channel, most, length }) => {
                let chip = drained(length, |buffer| self.chip.drain(channel, most, buffer));
                let model = drained(length, |buffer| self.model.drain(channel, most, buffer));
                (call, chip, model)
            }
        };
        let same = chip == model;
        self.past.push((call, chip));
        if same { Ok(()) } else { Err(model) }
    }

    /// Every read and look that changes nothing.
    fn sweep(&mut self) -> Result<(), Outcome> {
        self.step([IRQ_LOOK, 0, 0, 0])?;
        for channel in 0..2 {
            self.step([RTS_LOOK, channel, 0, 0])?;
            for &address in self.model.still_addresses(channel as usize) {
                self.step([READ, channel, address, 0])?;
            }
        }
        Ok(())
    }

    fn history(&mut self, seed: u64, length: Option<usize>) -> Result<(), Outcome> {
        let mut script = Script::new(seed);
        let length = length.unwrap_or_else(|| match script.below(8) {
            0..=2 => 20 + script.below(200) as usize,
            3..=6 => 300 + script.below(1500) as usize,
            _ => 5000,
        });
        let sweeps = [20, 100, 1000][script.below(3) as usize];
        while self.past.len() < length {
            self.call(script.next())?;
            if script.below(sweeps) == 0 {
                self.sweep()?;
            }
        }
        for call in script.last_looks() {
            self.call(call)?;
        }
        self.sweep()
    }
}

/// How many answers were the same, and how many of them were drains.
#[derive(Default)]
struct Count {
    answers: usize,
    drains: usize,
}

/// One history: what was the same, or where they part.
fn compare<S: Switch>(switch: S, seed: u64, length: Option<usize>) -> Result<Count, Difference> {
    let mut pair = Pair { switch, chip: Chip::new(), model: Machine::with(switch), past: Vec::new() };
    match pair.history(seed, length) {
        Ok(()) => {
            let drains = pair.past.iter().filter(|(call, _)| matches!(call, Call::Drain(_))).count();
            Ok(Count { answers: pair.past.len(), drains })
        }
        Err(model) => Err(Difference { past: pair.past, model }),
    }
}

fn show(outcome: &Outcome) -> String {
    match outcome {
        Outcome::Step(Answer::Reply(n)) => format!("OK {n} ({n:02X})"),
        Outcome::Step(Answer::Refused(n)) => format!("REFUSED {n}"),
        Outcome::Drain(part, buffer) => format!("{part} of {buffer:02X?}"),
    }
}

fn report(seed: u64, difference: &Difference) {
    let index = difference.past.len() - 1;
    let (call, chip) = &difference.past[index];
    println!(
        "compare: seed {seed}: call {index} {call:X?}: the chip says {}, the model {}",
        show(chip),
        show(&difference.model)
    );
    for (at, (call, outcome)) in difference.past.iter().enumerate().skip(index.saturating_sub(12)) {
        println!("  {at} {call:X?} {}", show(outcome));
    }
}

fn all_same<S: Switch>(switch: S, seed: u64, histories: u64, length: Option<usize>) {
    let mut same = Count::default();
    for seed in seed..seed + histories {
        match compare(switch, seed, length) {
            Ok(count) => {
                same.answers += count.answers;
                same.drains += count.drains;
            }
            Err(difference) => {
                report(seed, &difference);
                std::process::exit(1);
            }
        }
    }
    let with = if switch.xon_xoff() { "" } else { " with EFR 3:0 clear and a model without Xon and Xoff" };
    let Count { answers, drains } = same;
    println!("compare: {histories} histories{with}, {answers} answers, {drains} of them drains, all the same");
}

fn wrong_ones(seed: u64, histories: u64, length: Option<usize>) {
    let mut unseen = 0;
    let mut latest = 0;
    for &(wrong, what) in wrong::ALL {
        match (0..histories).find(|history| compare(wrong, seed + history, length).is_err()) {
            Some(history) => latest = latest.max(history + 1),
            None => {
                println!("compare: not found: {wrong:?}: {what}");
                unseen += 1;
            }
        }
    }
    println!(
        "compare: {} wrong changes, {} found (the last of them by history {latest}), {unseen} not found",
        wrong::ALL.len(),
        wrong::ALL.len() - unseen
    );
    if unseen != 0 {
        std::process::exit(1);
    }
}

fn usage() -> ! {
    eprintln!("usage: compare [--wrong | --before] SEED HISTORIES [LENGTH]");
    std::process::exit(2);
}

fn main() {
    let mut arguments: Vec<String> = std::env::args().skip(1).collect();
    let mode = arguments.first().filter(|first| first.starts_with("--")).cloned().unwrap_or_default();
    if !mode.is_empty() {
        arguments.remove(0);
    }
    let numbers: Option<Vec<u64>> = arguments.iter().map(|argument| argument.parse().ok()).collect();
    let (seed, histories, length) = match numbers.as_deref() {
        Some(&[seed, histories]) => (seed, histories, None),
        Some(&[seed, histories, length]) => (seed, histories, Some(length as usize)),
        _ => usage(),
    };
    match mode.as_str() {
        "" => all_same(Right, seed, histories, length),
        "--before" => all_same(Before, seed, histories, length),
        "--wrong" => wrong_ones(seed, histories, length),
        _ => usage(),
    }
}
