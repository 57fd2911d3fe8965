//! The yardstick of bench/exploring.py: a plain Rust program, without proofs, that looks through all runs of the program
//! there, layer by layer of contexts, as `btrun explore` does, and prints the same number of states. The code is written
//! down here, so it reads no program. States are the keys of a map of the standard library.
//!
//! Usage: explore THREADS
use std::collections::HashMap;
use std::env;

const LOCK: u32 = 0;
const SHARED: u32 = 1;

#[derive(Clone, PartialEq, Eq, Hash)]
struct Frame {
    number: u32,
    locals: u32,
}

#[derive(Clone, PartialEq, Eq, Hash)]
struct State {
    globals: u32,
    stacks: Vec<Vec<Frame>>,
    last: u32,
}

enum Step {
    Stays,
    Fails,
    Leads(State),
}

fn bit(word: u32, slot: u32) -> u32 {
    word >> slot & 1
}

fn with(word: u32, slot: u32, value: u32) -> u32 {
    word & !(1 << slot) | value << slot
}

/// The step of a thread, as `btrun code` lists the instructions of the program.
fn step(state: &State, thread: usize) -> Step {
    let Some(top) = state.stacks[thread].last() else {
        return Step::Stays;
    };
    let (mut globals, mut locals) = (state.globals, top.locals);
    let next = match top.number {
        0 => 1,
        1 => {
            let (a, b, c) = (bit(locals, 0), bit(locals, 1), bit(locals, 2));
            locals = (a ^ 1) | (a ^ b) << 1 | ((a & b) ^ c) << 2;
            2
        }
        2 if bit(globals, LOCK) == 1 => return Step::Stays,
        2 => 3,
        3 => {
            globals = with(globals, LOCK, 1);
            4
        }
        4 => {
            globals = with(globals, SHARED, bit(globals, SHARED) ^ bit(locals, 0));
            5
        }
        5 if globals > 3 => return Step::Fails,
        5 => 6,
        _ => {
            globals = with(globals, LOCK, 0);
            0
        }
    };
    let mut after = state.clone();
    after.globals = globals;
    *after.stacks[thread].last_mut().unwrap() = Frame { number: next, locals };
    after.last = thread as u32;
    Step::Leads(after)
}

struct Space {
    nodes: Vec<State>,
    found: HashMap<State, u32>,
}

impl Space {
    /// Makes the steps of a thread from a node, with either choice bit; whether an assertion fails.
    fn expand(&mut self, at: usize, thread: usize) -> bool {
        for _ in 0..2 {
            match step(&self.nodes[at], thread) {
                Step::Stays => {}
                Step::Fails => return true,
                Step::Leads(state) => {
                    if !self.found.contains_key(&state) {
                        self.found.insert(state.clone(), self.nodes.len() as u32);
                        self.nodes.push(state);
                    }
                }
            }
        }
        false
    }
}

fn main() {
    let threads: usize = env::args().nth(1).unwrap().parse().unwrap();
    let stacks = vec![vec![Frame { number: 0, locals: 0 }]; threads];
    let first = State { globals: 0, stacks, last: u32::MAX };
    let mut space = Space { nodes: vec![first.clone()], found: HashMap::from([(first, 0)]) };
    let (mut from, mut contexts) = (0, 0);
    loop {
        let next = space.nodes.len();
        for at in from..next {
            for thread in 0..threads {
                if space.nodes[at].last != thread as u32 && space.expand(at, thread) {
                    return println!("an assertion fails within {} contexts", contexts + 1);
                }
            }
        }
        let mut at = next;
        while at < space.nodes.len() {
            let thread = space.nodes[at].last as usize;
            if space.expand(at, thread) {
                return println!("an assertion fails within {} contexts", contexts + 1);
            }
            at += 1;
        }
        if next == space.nodes.len() {
            return println!("{} states, the last new one within {}", space.nodes.len(), contexts);
        }
        (from, contexts) = (next, contexts + 1);
    }
}
