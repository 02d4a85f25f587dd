//! Runs random histories through the lent step and through the bench program, and compares every answer.
//!
//! usage: agree PROGRAM SEED HISTORIES
use host::{put_event, Answer, Chip, Event, Random};
use std::io::Write;
use std::process::{Command, Stdio};

/// Values that registers turn on: single bits, the window values of LCR, plain random bytes.
fn byte(random: &mut Random) -> u64 {
    match random.below(4) {
        0 => 1 << random.below(8),
        1 => [0x03, 0x1B, 0x80, 0xBF, 0xF1, 0x10, 0x21, 0x00][random.below(8) as usize],
        _ => random.below(256),
    }
}

fn event(random: &mut Random) -> Event {
    let channel = random.below(2);
    let mut event = match random.below(16) {
        0..=4 => [0, channel, random.below(16), byte(random)],
        5..=8 => [1, channel, random.below(16), 0],
        9..=11 => [2, channel, byte(random), random.below(8)],
        12 => [3, channel, 0, 0],
        13 => [4, channel, random.below(16), 0],
        14 => [5, channel, 0, 0],
        _ => [[6, 7, 7, 8][random.below(4) as usize], channel, 0, 0],
    };
    // Now and then a number out of its range, that a file can still hold.
    if random.once_in(40) {
        let place = 1 + random.below(3) as usize;
        event[place] = random.below(16384);
    }
    event
}

fn line(index: usize, answer: Answer) -> String {
    match answer {
        Answer::Reply(n) => format!("{index} OK {n}"),
        Answer::Refused(n) => format!("{index} REFUSED {n}"),
    }
}

fn printed(program: &str, input: Vec<u8>) -> String {
    let mut child = Command::new(program)
        .stdin(Stdio::piped())
        .stdout(Stdio::piped())
        .spawn()
        .expect("the bench program starts");
    let mut stdin = child.stdin.take().unwrap();
    let feed = std::thread::spawn(move || stdin.write_all(&input));
    let output = child.wait_with_output().expect("the bench program ends");
    feed.join().unwrap().expect("the bench program reads its input");
    String::from_utf8(output.stdout).expect("the bench program prints text")
}

fn main() {
    let arguments: Vec<String> = std::env::args().collect();
    let [_, program, seed, histories] = &arguments[..] else {
        eprintln!("usage: agree PROGRAM SEED HISTORIES");
        std::process::exit(2);
    };
    let seed: u64 = seed.parse().expect("a seed is a number");
    let histories: u64 = histories.parse().expect("a count is a number");

    let mut compared = 0;
    for history in 0..histories {
        let mut random = Random::new(seed + history);
        let mut chip = Chip::new();
        let mut input = Vec::new();
        let mut expected = Vec::new();
        while input.len() + 7 <= 65_536 && expected.len() < 8_000 {
            let event = event(&mut random);
            put_event(&mut input, event);
            expected.push(line(expected.len(), chip.step(event[0], event[1], event[2], event[3])));
        }
        let printed = printed(program, input);
        for (index, (ours, theirs)) in expected.iter().zip(printed.lines()).enumerate() {
            if ours != theirs {
                println!("agree: seed {}: event {index}: the lent step says '{ours}', the program '{theirs}'", seed + history);
                std::process::exit(1);
            }
        }
        if printed.lines().count() != expected.len() {
            println!("agree: seed {}: {} answers, {} lines", seed + history, expected.len(), printed.lines().count());
            std::process::exit(1);
        }
        compared += expected.len();
    }
    println!("agree: {histories} histories, {compared} answers, all the same");
}
