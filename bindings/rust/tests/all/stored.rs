//! The stored pickles with the answers due, from tests/cases/stored.txt of the repository.

pub struct Case {
    pub pickle: Vec<u8>,
    pub due: Due,
}

/// What the prefix reading must answer.
pub enum Due {
    Refused { number: u64, detail: u64 },
    Value { length: usize, words: Vec<u64>, text: Vec<u8> },
}

pub fn cases() -> Vec<Case> {
    include_str!("../../../../tests/cases/stored.txt").lines().map(case).collect()
}

fn case(line: &str) -> Case {
    let fields: Vec<&str> = line.split('\t').collect();
    let answer: Vec<&str> = fields[2].split(' ').collect();
    let due = match answer[..] {
        ["refused", number, detail] => Due::Refused { number: number.parse().unwrap(), detail: detail.parse().unwrap() },
        ["value", length, count, words, text] => {
            let words = words_of(words);
            assert_eq!(words.len(), 4 * count.parse::<usize>().unwrap());
            Due::Value { length: length.parse().unwrap(), words, text: bytes_of(text) }
        }
        _ => panic!("stored.txt: {}", fields[2]),
    };
    Case { pickle: bytes_of(fields[1]), due }
}

fn bytes_of(hex: &str) -> Vec<u8> {
    let hex = if hex == "-" { "" } else { hex };
    (0..hex.len()).step_by(2).map(|at| u8::from_str_radix(&hex[at..at + 2], 16).unwrap()).collect()
}

fn words_of(hex: &str) -> Vec<u64> {
    (0..hex.len()).step_by(16).map(|at| u64::from_str_radix(&hex[at..at + 16], 16).unwrap()).collect()
}
