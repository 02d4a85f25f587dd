//! Times the lent step and the second model on the same events, in one run: nanoseconds an event for each sort of event and
//! for mixed traffic, and their ratio. Then a full queue drained at one go and by single reads, on records of the same
//! kind: nanoseconds a character, and their ratio.
//!
//! usage: speed [EVENTS]
use host::model::Model;
use host::script::{ARRIVAL, READ};
use host::{Answer, Chip, Event, Random};
use std::hint::black_box;
use std::time::Instant;

/// Eight data bits, both queues on, all interrupts but the enhanced ones enabled.
const SETUP: [Event; 3] = [[0, 0, 3, 0x03], [0, 0, 2, 0x01], [0, 0, 1, 0x0F]];

/// XON1 11, XOFF1 13, and EFR 1:0 of 10: what the sort of Xoff and Xon needs besides.
const XON_XOFF: [Event; 5] =
    [[0, 0, 3, 0xBF], [0, 0, 4, 0x11], [0, 0, 6, 0x13], [0, 0, 2, 0x02], [0, 0, 3, 0x03]];

/// The sorts of events, each a round that leaves the queues as they were.
const SORTS: [(&str, &[Event]); 8] = [
    ("write SPR", &[[0, 0, 7, 0x55]]),
    ("read LSR", &[[1, 0, 5, 0]]),
    ("read IIR", &[[1, 0, 2, 0]]),
    ("arrival, read RHR", &[[2, 0, 0x41, 0], [1, 0, 0, 0]]),
    ("write THR, slot", &[[0, 0, 0, 0x41], [3, 0, 0, 0]]),
    ("pins", &[[4, 0, 1, 0], [4, 0, 0, 0]]),
    ("quiet", &[[5, 0, 0, 0]]),
    ("IRQ look, RTS look", &[[7, 0, 0, 0], [8, 0, 0, 0]]),
];

/// A telegram on each channel now and then: characters arrive in bursts, are looked at and taken, answers are sent.
fn mixed(random: &mut Random, events: usize) -> Vec<Event> {
    let mut traffic = Vec::new();
    while traffic.len() < events {
        let channel = random.below(2);
        let burst = 1 + random.below(20);
        for _ in 0..burst {
            let mark = if random.once_in(50) { 1 } else { 0 };
            traffic.push([2, channel, random.below(256), mark]);
        }
        traffic.push([7, 0, 0, 0]);
        traffic.push([1, channel, 2, 0]);
        for _ in 0..burst {
            traffic.push([1, channel, 5, 0]);
            traffic.push([1, channel, 0, 0]);
        }
        for _ in 0..random.below(8) {
            traffic.push([0, channel, 0, random.below(256)]);
            traffic.push([3, channel, 0, 0]);
        }
        traffic.push([5, channel, 0, 0]);
        traffic.push([4, channel, random.below(16), 0]);
        traffic.push([1, channel, 6, 0]);
    }
    traffic.truncate(events);
    traffic
}

/// A round over and over.
fn rounds(round: &[Event], events: usize) -> Vec<Event> {
    round.iter().copied().cycle().take(events).collect()
}

fn sum(answer: Answer) -> u64 {
    match answer {
        Answer::Reply(n) => n as u64,
        Answer::Refused(n) => 512 + n as u64,
    }
}

/// Nanoseconds an event, the least of five rounds, with the sum of all answers so that none is left out.
fn time(events: &[Event], mut step: impl FnMut(Event) -> Answer) -> (f64, u64) {
    let mut best = f64::MAX;
    let mut total = 0;
    for _ in 0..5 {
        let start = Instant::now();
        for &event in events {
            total += sum(step(black_box(event)));
        }
        best = best.min(start.elapsed().as_nanos() as f64 / events.len() as f64);
    }
    (best, total)
}

fn compare(name: &str, setup: &[Event], events: &[Event]) {
    let mut chip = Chip::new();
    let mut model = Model::new();
    for e in SETUP.iter().chain(&SETUP.map(|e| [e[0], 1, e[2], e[3]])).chain(setup) {
        chip.step(e[0], e[1], e[2], e[3]);
        model.step(e[0], e[1], e[2], e[3]);
    }
    let (ours, a) = time(events, |e| chip.step(e[0], e[1], e[2], e[3]));
    let (theirs, b) = time(events, |e| model.step(e[0], e[1], e[2], e[3]));
    assert_eq!(a, b, "the two models disagree");
    println!("{name:<20} {ours:>10.1} {theirs:>14.1} {:>8.2}", ours / theirs);
}

/// A full queue.
const FULL: usize = 64;

/// How many full records are emptied between two looks at the clock: so many that the looks don't count, and so few that
/// the nearest cache holds them.
const RECORDS: usize = 24;

/// Nanoseconds to empty full queues, with the sum of all characters. The records are copies of a filled one, made while the
/// clock stands still, so that neither filling nor copying is timed.
fn time_emptying<T: Clone>(filled: &T, mut empty: impl FnMut(&mut T) -> u64) -> (f64, u64) {
    let mut records = vec![filled.clone(); RECORDS];
    let mut total = 0;
    let start = Instant::now();
    for record in &mut records {
        total += empty(black_box(record));
    }
    (start.elapsed().as_nanos() as f64, total)
}

/// A full queue drained at one go against as many single reads: nanoseconds a character, the least of five rounds, in which
/// the two take turns, so that what slows the machine slows both.
fn compare_drain<T: Clone>(
    name: &str,
    mut record: T,
    characters: usize,
    step: impl Fn(&mut T, Event) -> Answer,
    drain: impl Fn(&mut T, &mut [u8]) -> usize,
) {
    for event in SETUP {
        step(&mut record, event);
    }
    for at in 0..FULL as u64 {
        step(&mut record, [ARRIVAL, 0, at, 0]);
    }
    let turns = characters.div_ceil(FULL * RECORDS);
    let mut buffer = [0; FULL];
    let (mut at_one_go, mut singly) = (f64::MAX, f64::MAX);
    for _ in 0..5 {
        let mut times = [0.0; 2];
        for _ in 0..turns {
            let (drained, a) = time_emptying(&record, |record| {
                let part = drain(record, black_box(&mut buffer));
                black_box(&buffer)[..part].iter().map(|&byte| u64::from(byte)).sum()
            });
            let (read, b) = time_emptying(&record, |record| {
                (0..FULL).map(|_| sum(step(record, black_box([READ, 0, 0, 0])))).sum()
            });
            assert_eq!(a, b, "a drain and single reads disagree");
            times[0] += drained;
            times[1] += read;
        }
        let [drained, read] = times.map(|time| time / (turns * RECORDS * FULL) as f64);
        (at_one_go, singly) = (at_one_go.min(drained), singly.min(read));
    }
    println!("{name:<20} {at_one_go:>10.1} {singly:>14.1} {:>8.2}", at_one_go / singly);
}

fn main() {
    let events: usize = match std::env::args().nth(1) {
        Some(n) => n.parse().expect("a count is a number"),
        None => 2_000_000,
    };
    println!("{:<20} {:>10} {:>14} {:>8}", "ns an event", "lent step", "second model", "ratio");
    for (name, round) in SORTS {
        compare(name, &[], &rounds(round, events));
    }
    compare("Xoff, Xon", &XON_XOFF, &rounds(&[[2, 0, 0x13, 0], [2, 0, 0x11, 0]], events));
    compare("mixed traffic", &[], &mixed(&mut Random::new(1), events));

    println!();
    println!("{:<20} {:>10} {:>14} {:>8}", "ns a character", "at one go", "single reads", "ratio");
    compare_drain(
        "lent record",
        Chip::new(),
        events,
        |chip, e| chip.step(e[0], e[1], e[2], e[3]),
        |chip, buffer| chip.drain(0, u64::MAX, buffer).len(),
    );
    compare_drain(
        "second model",
        Model::new(),
        events,
        |model, e| model.step(e[0], e[1], e[2], e[3]),
        |model, buffer| model.drain(0, u64::MAX, buffer).len(),
    );
}
