//! The search for slow pickles. From each pickle of `reading`, and from a few small ones, it goes on by changing opcodes, and keeps a change
//! that makes the prefix reading slower. Its draws come from a seed; which changes are kept depends on the clock too. It is the processor's
//! time that counts, so that other work on the machine disturbs little.

use std::time::{Duration, Instant};

use crate::hostile::MOST;
use crate::inputs::Draw;
use crate::rooms::Rooms;
use crate::{ours, reading};

/// Changes that are tried from each start, and the seed, where none is given.
const ROUNDS: usize = 300;
const SEED: u64 = 1;
/// After this time a start has no further round.
const LONGEST: Duration = Duration::from_secs(20);
/// Where the slowest pickle is put, from the folder that the driver runs in.
const SLOWEST: &str = "../slowest.pickle";

extern "C" {
    /// The C library's: the processor's time of this process, in microseconds.
    fn clock() -> i64;
}

fn now() -> i64 {
    // SAFETY: it takes nothing, and reads a clock.
    unsafe { clock() }
}

/// An opcode with its argument.
type Opcode = Vec<u8>;

/// A pickle that was found, without its STOP.
struct Found {
    name: &'static str,
    opcodes: Vec<Opcode>,
    /// Microseconds.
    time: i64,
}

/// `search [ROUNDS [SEED]]`. Status 2: those are no numbers.
pub fn run(words: &[String]) -> u8 {
    let number = |place: usize, default: u64| words.get(place).map_or(Ok(default), |word| word.parse());
    let (Ok(rounds), Ok(seed), true) = (number(0, ROUNDS as u64), number(1, SEED), words.len() <= 2) else {
        eprintln!("bench: search [ROUNDS [SEED]]");
        return 2;
    };
    println!("\nsearch: {rounds} changes from each start, fewer of a slow one, seed {seed}.\n");
    println!("{:<34} {:>12} {:>12} {:>7} {:>7} {:>7}", "begun from", "its us", "slowest us", "bytes", "answer", "rounds");
    let mut search = Search { draw: Draw(seed), rooms: Rooms::new() };
    let starts = starts();
    let mut slowest: Option<Found> = None;
    let mut by_hand = 0;
    for (name, opcodes) in &starts {
        let began = search.time(opcodes, 5);
        let (found, done) = search.climb(name, opcodes.clone(), began, rounds, &starts);
        let (pickle, answer) = (whole(&found.opcodes), search.answer(&found.opcodes));
        println!("{name:<34} {began:>12} {:>12} {:>7} {answer:>7} {done:>7}", found.time, pickle.len());
        by_hand = by_hand.max(began);
        if slowest.as_ref().map_or(true, |slowest| slowest.time < found.time) {
            slowest = Some(found);
        }
    }
    let slowest = slowest.expect("there are starts");
    std::fs::write(SLOWEST, whole(&slowest.opcodes)).expect("the slowest pickle cannot be written");
    println!("\nThe slowest by hand takes {by_hand} us.");
    println!("The slowest found takes {} us, begun from '{}': bench/target/slowest.pickle.", slowest.time, slowest.name);
    0
}

/// What the search begins from: the pickles of `reading`, and small ones that have what a loop could go over.
fn starts() -> Vec<(&'static str, Vec<Opcode>)> {
    let small: [(&'static str, &[u8]); 4] = [
        ("small: a set in a list", b"](c__builtin__\nset\n]K\x01a\x85Re."),
        ("small: an Object with a state", b"cm\nn\n)\x81}b."),
        ("small: a dict of tuples", b"}(K\x01K\x02\x86K\x03\x85K\x04N\x86K\x05u."),
        ("small: texts", b"(U\x01aX\x02\x00\x00\x00\xC3\xA9V\\u20ac\nS'\\x41'\nt."),
    ];
    let by_hand = reading::pickles().into_iter().map(|input| (input.name, opcodes(&input.pickle)));
    by_hand.chain(small.map(|(name, pickle)| (name, opcodes(pickle)))).collect()
}

/// The opcodes of a pickle before its STOP.
fn opcodes(pickle: &[u8]) -> Vec<Opcode> {
    let (mut found, mut at) = (Vec::new(), 0);
    while let Some(length) = length(&pickle[at..]) {
        found.push(pickle[at..at + length].to_vec());
        at += length;
    }
    found
}

/// The bytes of the first opcode; nothing at STOP and where it breaks off.
fn length(rest: &[u8]) -> Option<usize> {
    let line = |from: usize| rest.get(from..)?.iter().position(|&byte| byte == b'\n').map(|place| from + place + 1);
    let long = || rest.get(1..5).map(|bytes| 5 + u32::from_le_bytes(bytes.try_into().unwrap()) as usize);
    let length = match rest.first()? {
        b'.' => None,
        b'I' | b'L' | b'F' | b'S' | b'V' | b'p' | b'g' => line(1),
        b'c' => line(line(1)?),
        b'K' | b'q' | b'h' | 0x80 => Some(2),
        b'M' => Some(3),
        b'J' | b'r' | b'j' => Some(5),
        b'G' => Some(9),
        b'U' | 0x8A => rest.get(1).map(|&length| 2 + length as usize),
        b'T' | b'X' | 0x8B => long(),
        _ => Some(1),
    };
    length.filter(|&length| length <= rest.len())
}

fn whole(opcodes: &[Opcode]) -> Vec<u8> {
    [&opcodes.concat()[..], b"."].concat()
}

fn size(opcodes: &[Opcode]) -> usize {
    opcodes.iter().map(Vec::len).sum()
}

/// Opcodes that are as good as any with another argument.
const PLAIN: &[&[u8]] = &[
    b"N", b"\x88", b"K\x07", b"M\x07\x07", b"I7\n", b"L7L\n", b"F1.5\n", b"G\x3F\xF8\0\0\0\0\0\0", b"\x8A\x01\x07", b")", b"]", b"}", b"(", b"l",
    b"t", b"d", b"a", b"e", b"s", b"u", b"\x85", b"\x86", b"\x87", b"0", b"1", b"2", b"R", b"\x81", b"b", b"c__builtin__\nset\n",
    b"c__builtin__\nfrozenset\n", b"cm\nn\n",
];

struct Search {
    draw: Draw,
    rooms: Rooms,
}

impl Search {
    /// The best of some calls.
    fn time(&mut self, opcodes: &[Opcode], calls: usize) -> i64 {
        let pickle = whole(opcodes);
        let mut call = || {
            let start = now();
            ours::from_bytes_prefix(&pickle, &mut self.rooms);
            now() - start
        };
        (0..calls).map(|_| call()).min().unwrap_or_default()
    }

    fn answer(&mut self, opcodes: &[Opcode]) -> u64 {
        ours::from_bytes_prefix(&whole(opcodes), &mut self.rooms).number
    }

    /// The slowest that so many changes lead to, and how many were tried.
    fn climb(
        &mut self, name: &'static str, opcodes: Vec<Opcode>, time: i64, rounds: u64, others: &[(&'static str, Vec<Opcode>)],
    ) -> (Found, u64) {
        let start = Instant::now();
        let mut best = Found { name, opcodes, time };
        for done in 0..rounds {
            if start.elapsed() > LONGEST {
                return (best, done);
            }
            let mut changed = best.opcodes.clone();
            for _ in 0..1 + self.draw.below(3) {
                self.change(&mut changed, others);
            }
            while size(&changed) >= MOST {
                let (from, to) = self.part(changed.len());
                changed.drain(from..to);
            }
            // A single call tells most of them apart; more tell that it was no disturbance.
            if self.time(&changed, 1) > best.time {
                let time = self.time(&changed, 5);
                if time > best.time {
                    best = Found { name, opcodes: changed, time };
                }
            }
        }
        (best, rounds)
    }

    /// Changes a part of the opcodes.
    fn change(&mut self, opcodes: &mut Vec<Opcode>, others: &[(&'static str, Vec<Opcode>)]) {
        let (from, to) = self.part(opcodes.len());
        match self.draw.below(6) {
            // Over and over, as long as there are bytes.
            0 => {
                let part = opcodes[from..to].to_vec();
                let room = (MOST - 1).saturating_sub(size(opcodes)) / size(&part).max(1);
                let times = self.some(room);
                opcodes.splice(to..to, part.iter().cloned().cycle().take(times * part.len()));
            }
            1 => {
                opcodes.drain(from..to);
            }
            2 => {
                let new: Vec<Opcode> = (from..to).map(|_| self.opcode()).collect();
                opcodes.splice(from..to, new);
            }
            3 => {
                let new = self.opcode();
                opcodes.insert(from, new);
            }
            4 => {
                let part: Vec<Opcode> = opcodes.drain(from..to).collect();
                let place = self.draw.below(opcodes.len() + 1);
                opcodes.splice(place..place, part);
            }
            _ => {
                let (_, other) = &others[self.draw.below(others.len())];
                let (first, last) = self.part(other.len());
                opcodes.splice(from..to, other[first..last].iter().cloned());
            }
        }
    }

    /// Where a part begins and ends; short parts are as likely as long ones.
    fn part(&mut self, length: usize) -> (usize, usize) {
        let from = self.draw.below(length + 1);
        (from, from + self.some(length - from))
    }

    /// A number up to this one, all magnitudes alike.
    fn some(&mut self, most: usize) -> usize {
        let bits = self.draw.below(usize::BITS as usize - most.leading_zeros() as usize + 1);
        self.draw.below(most.min((1 << bits) - 1) + 1)
    }

    fn opcode(&mut self) -> Opcode {
        match self.draw.below(8) {
            0 => vec![self.draw.among(b"qh"), self.draw.below(4) as u8],
            1 => [&[self.draw.among(b"rj")][..], &(self.some(4096) as u32).to_le_bytes()].concat(),
            2 => self.text(),
            _ => self.draw.among(PLAIN).to_vec(),
        }
    }

    /// A text, a line with escapes, or a name, in bytes that are UTF-8 or not.
    fn text(&mut self) -> Opcode {
        let length = self.some(4096);
        let bytes: &[u8] = if self.draw.below(2) == 0 { b"ab" } else { b"a\xC3\xA9\xE2\xFF" };
        let text: Vec<u8> = (0..length).map(|_| self.draw.among(bytes)).collect();
        match self.draw.below(5) {
            0 => [b"T", &(length as u32).to_le_bytes()[..], &text].concat(),
            1 => [b"X", &(length as u32).to_le_bytes()[..], &text].concat(),
            2 => [b"S'", &b"\\x41".repeat(length / 4)[..], b"'\n"].concat(),
            3 => [b"V", &b"\\u20ac".repeat(length / 6)[..], b"\n"].concat(),
            _ => [b"c", &text[..], b"\nn\n"].concat(),
        }
    }
}
