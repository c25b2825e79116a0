//! What the substituted de.rs reads from: the pickle, with a log of the counts before each opcode.

use std::io::{self, Read};

/// The counts before an opcode, and the place of its byte.
pub struct Step {
    pub place: usize,
    pub stack: usize,
    pub marks: usize,
    pub memo: usize,
    pub nodes: usize,
    pub links: usize,
    /// The line of a FLOAT, as its literal is parsed: without the newline and one CR.
    pub float: Option<Vec<u8>>,
}

/// The node table at STOP, in the form of README.md, and the number of its root.
pub struct Stop {
    pub root: usize,
    pub nodes: Vec<String>,
}

pub struct Tape<'a> {
    data: &'a [u8],
    rest: &'a [u8],
    links: usize,
    pub steps: Vec<Step>,
    pub stop: Option<Stop>,
    /// Whether the node table is wanted: `expect` has no use for it.
    pub wants_nodes: bool,
}

impl<'a> Tape<'a> {

    pub fn new(data: &'a [u8]) -> Self {
        Tape { data, rest: data, links: 0, steps: Vec::new(), stop: None, wants_nodes: false }
    }

    /// The bytes not read yet: what `len` means for the slice that the unchanged de.rs reads from.
    pub fn len(&self) -> usize {
        self.rest.len()
    }

    pub fn place(&self) -> usize {
        self.data.len() - self.rest.len()
    }

    /// Called before each opcode is read.
    pub fn step(&mut self, stack: usize, marks: usize, memo: usize, nodes: usize) {
        self.steps.push(Step { place: self.place(), stack, marks, memo, nodes, links: self.links, float: None });
    }

    /// Called when items have been added; never falls.
    pub fn add_links(&mut self, count: usize) {
        self.links += count;
    }

    /// Called with FLOAT's line before it is parsed.
    pub fn float(&mut self, line: &[u8]) {
        if let Some(step) = self.steps.last_mut() {
            step.float = Some(line.to_vec());
        }
    }

}

impl Read for Tape<'_> {
    fn read(&mut self, buf: &mut [u8]) -> io::Result<usize> {
        self.rest.read(buf)
    }
}
