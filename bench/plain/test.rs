//! The yardstick of bench/drawing.py: a plain Rust program, without proofs, that makes the runs of `btrun test` over
//! examples/bluetooth/mended.bp, draw for draw, and prints the same counts. The code is written down here, with the steps
//! that are visible, so it reads no program. It draws by the same generator: PCG XSH RR 64/32 (O'Neill), written out.
//!
//! Usage: test RUNS CONTEXTS CALLS SEED
const PILOTS: u64 = 64;
const COMPARED: usize = 1 << 20;
const NOWHERE: u32 = 1 << 20;
const POWERS: u32 = 14;
const LOTS: u32 = 20;
const WITH_ONE: u32 = 4;
const WITH_FEW: u32 = 5;
const RESUMING: u32 = 14;
const UNMOVED: u32 = 3;
const SCHEDULE_STREAM: u64 = 118;
const BITS_STREAM: u64 = 54;

const STOPPING: u32 = 0;
const IDLE: u32 = 1;
const STOPPED: u32 = 2;
const HIGH: u32 = 3;
const LOW: u32 = 4;

/// `low` is 1 at first, the other globals are 0.
const INIT: u32 = 1 << LOW;

/// The entries of the threads: `worker` and `stopper`.
const ENTRIES: [u32; 2] = [0, 6];

struct Generator {
    state: u64,
    increment: u64,
}

impl Generator {
    fn new(state: u64, stream: u64) -> Generator {
        let increment = stream << 1 | 1;
        let mut generator = Generator { state: state.wrapping_add(increment), increment };
        generator.step();
        generator
    }

    fn step(&mut self) {
        self.state = self.state.wrapping_mul(6364136223846793005).wrapping_add(self.increment);
    }

    fn word(&mut self) -> u32 {
        let state = self.state;
        self.step();
        (((state >> 18 ^ state) >> 27) as u32).rotate_right((state >> 59) as u32)
    }

    fn below(&mut self, count: u32) -> u32 {
        let word = self.word();
        if count == 0 { 0 } else { word % count }
    }
}

enum Expr {
    One,
    Global(u32),
    Not(Box<Expr>),
    Or(Box<Expr>, Box<Expr>),
    Xor(Box<Expr>, Box<Expr>),
}

fn value(expr: &Expr, globals: u32) -> bool {
    match expr {
        Expr::One => true,
        Expr::Global(slot) => globals >> slot & 1 == 1,
        Expr::Not(inner) => !value(inner, globals),
        Expr::Or(left, right) => value(left, globals) | value(right, globals),
        Expr::Xor(left, right) => value(left, globals) ^ value(right, globals),
    }
}

enum Instr {
    Skip(u32),
    Call(u32, u32),
    If(Expr, u32, u32),
    Assert(Expr, u32),
    Assume(Expr, u32),
    Assign(Vec<(u32, Expr)>, u32),
    Return,
}

fn global(slot: u32) -> Expr {
    Expr::Global(slot)
}

fn not(inner: Expr) -> Expr {
    Expr::Not(Box::new(inner))
}

fn xor(left: Expr, right: Expr) -> Expr {
    Expr::Xor(Box::new(left), Box::new(right))
}

/// The flat code of the program, as `btrun code` lists it.
fn program() -> Vec<Instr> {
    let count = vec![(HIGH, xor(global(HIGH), global(LOW))), (LOW, not(global(LOW)))];
    let discount = vec![(HIGH, xor(global(HIGH), not(global(LOW)))), (LOW, not(global(LOW)))];
    vec![
        Instr::Call(11, 1),
        Instr::If(global(STOPPING), 2, 3),
        Instr::Skip(4),
        Instr::Assert(not(global(STOPPED)), 4),
        Instr::Call(13, 5),
        Instr::Return,
        Instr::Assign(vec![(STOPPING, Expr::One)], 7),
        Instr::Call(13, 8),
        Instr::Assume(global(IDLE), 9),
        Instr::Assign(vec![(STOPPED, Expr::One)], 10),
        Instr::Return,
        Instr::Assign(count, 12),
        Instr::Return,
        Instr::Assign(discount, 14),
        Instr::If(Expr::Or(Box::new(global(HIGH)), Box::new(global(LOW))), 15, 16),
        Instr::Skip(17),
        Instr::Assign(vec![(IDLE, Expr::One)], 17),
        Instr::Return,
    ]
}

/// Whether the step of an instruction touches what the other thread does.
fn is_visible(number: u32) -> bool {
    matches!(number, 1 | 3 | 6 | 8 | 9 | 11 | 13 | 14 | 16)
}

#[derive(Clone, Copy, PartialEq)]
enum Reply {
    Ended,
    NoContexts,
    Failed,
    Stepped,
}

#[derive(Clone, Copy)]
struct Call {
    thread: u32,
    #[allow(dead_code)]
    bit: bool,
    reply: Reply,
}

struct Thread {
    frames: Vec<u32>,
    calls: u32,
    is_ended: bool,
    choices: Generator,
    word: u32,
    place: u32,
}

struct Test<'a> {
    code: &'a [Instr],
    contexts: u32,
    calls: u32,
    globals: u32,
    threads: Vec<Thread>,
    used: u32,
    last: Option<u32>,
    history: Vec<Call>,
    /// How many steps were visible.
    visible: u64,
    /// Of the threads and instructions of the steps.
    key: u64,
}

/// Any number that mixes well will do.
fn mixed(key: u64, thread: u32, number: u32) -> u64 {
    (key.rotate_left(5) ^ u64::from(number << 6 | thread)).wrapping_mul(0x517c_c1b7_2722_0a95)
}

impl Test<'_> {
    fn restart(&mut self, seed: u64) {
        self.globals = INIT;
        self.used = 0;
        self.last = None;
        self.history.clear();
        self.visible = 0;
        self.key = 1;
        for (number, thread) in self.threads.iter_mut().enumerate() {
            thread.frames.clear();
            thread.frames.push(ENTRIES[number]);
            thread.calls = 0;
            thread.is_ended = false;
            thread.choices = Generator::new(seed, BITS_STREAM + number as u64);
            thread.word = thread.choices.word();
            thread.place = 0;
        }
    }

    fn is_finished(&self, thread: u32) -> bool {
        let guest = &self.threads[thread as usize];
        guest.is_ended || guest.calls >= self.calls
    }

    /// Whether the next statement of a thread is an assumption that is 0.
    fn waits(&self, thread: u32) -> bool {
        match self.threads[thread as usize].frames.last() {
            Some(number) => match &self.code[*number as usize] {
                Instr::Assume(expr, _) => !value(expr, self.globals),
                _ => false,
            },
            None => false,
        }
    }

    /// Whether the next step of a thread is visible.
    fn is_visible(&self, thread: u32) -> bool {
        self.threads[thread as usize].frames.last().is_some_and(|number| is_visible(*number))
    }

    fn may_step(&self, thread: u32) -> bool {
        !self.is_finished(thread) && !self.waits(thread)
    }

    /// Makes a call of a thread that does not wait.
    fn ask(&mut self, thread: u32) -> Reply {
        let guest = &mut self.threads[thread as usize];
        let bit = guest.word >> guest.place & 1 == 1;
        if guest.place == 31 {
            guest.word = guest.choices.word();
            guest.place = 0;
        } else {
            guest.place += 1;
        }
        guest.calls += 1;
        let reply = self.reply_to(thread);
        self.history.push(Call { thread, bit, reply });
        reply
    }

    /// The key of the steps, and of where the threads stand in the end.
    fn end_key(&self) -> u64 {
        let stands = self.threads.iter().map(|guest| *guest.frames.last().unwrap_or(&NOWHERE));
        stands.enumerate().fold(self.key, |key, (thread, number)| mixed(key, thread as u32, number))
    }

    fn reply_to(&mut self, thread: u32) -> Reply {
        let guest = &mut self.threads[thread as usize];
        let Some(number) = guest.frames.last_mut() else {
            guest.is_ended = true;
            return Reply::Ended;
        };
        let used = self.used + u32::from(self.last != Some(thread));
        if used > self.contexts {
            guest.is_ended = true;
            return Reply::NoContexts;
        }
        self.used = used;
        self.last = Some(thread);
        self.key = mixed(self.key, thread, *number);
        self.visible += u64::from(is_visible(*number));
        match &self.code[*number as usize] {
            Instr::Skip(next) | Instr::Assume(_, next) => *number = *next,
            Instr::Call(callee, next) => {
                *number = *next;
                guest.frames.push(*callee);
            }
            Instr::If(expr, next, other) => {
                *number = if value(expr, self.globals) { *next } else { *other };
            }
            Instr::Assert(expr, next) => {
                if !value(expr, self.globals) {
                    guest.is_ended = true;
                    return Reply::Failed;
                }
                *number = *next;
            }
            Instr::Assign(targets, next) => {
                let mut globals = self.globals;
                for (slot, expr) in targets {
                    globals = globals & !(1 << slot) | u32::from(value(expr, self.globals)) << slot;
                }
                self.globals = globals;
                *number = *next;
            }
            Instr::Return => {
                guest.frames.pop();
            }
        }
        Reply::Stepped
    }
}

struct Scheduler {
    generator: Generator,
    current: u32,
    has_stepped: bool,
    switches: u32,
    places: u64,
    is_resuming: bool,
    /// The threads that were left since they had to wait, as a mask.
    waiting: u64,
}

impl Scheduler {
    fn new(seed: u64, contexts: u32, lengths: &[u64]) -> Scheduler {
        let mut generator = Generator::new(seed, SCHEDULE_STREAM);
        let threads = ENTRIES.len() as u32;
        let current = generator.below(threads);
        let drawn = generator.below(lengths.len() as u32);
        let length = match lengths.get(drawn as usize) {
            Some(length) => *length,
            None => 8 << generator.below(POWERS),
        };
        let switches = switches(&mut generator, contexts, length);
        let places = places(&mut generator, length, switches, threads);
        let is_resuming = generator.below(LOTS) < RESUMING;
        Scheduler { generator, current, has_stepped: false, switches, places, is_resuming, waiting: 0 }
    }

    fn switches_now(&mut self, test: &Test) -> bool {
        if self.switches == 0 || self.places == 0 || !test.is_visible(self.current) {
            return false;
        }
        if !self.has_stepped {
            self.has_stepped = true;
            return false;
        }
        let place = u64::from(self.generator.word()) % self.places;
        self.places -= 1;
        let is_here = place < u64::from(self.switches);
        self.switches -= u32::from(is_here);
        is_here
    }

    /// How likely a switch goes to a thread.
    fn weight(&self, test: &Test, thread: u32) -> u32 {
        if thread == self.current || !test.may_step(thread) {
            0
        } else if test.threads[thread as usize].calls == 0 {
            UNMOVED
        } else {
            1
        }
    }

    fn go_to(&mut self, test: &Test, thread: u32) {
        self.current = thread;
        self.has_stepped = test.is_visible(thread);
        self.waiting &= !(1 << thread);
    }

    fn next(&mut self, test: &Test) -> Option<u32> {
        let threads = 0..ENTRIES.len() as u32;
        if self.waiting != 0 {
            let resumed = threads.clone().find(|thread| self.waiting >> thread & 1 == 1 && test.may_step(*thread));
            if let Some(thread) = resumed {
                self.go_to(test, thread);
                return Some(thread);
            }
        }
        if test.may_step(self.current) {
            if !self.switches_now(test) {
                return Some(self.current);
            }
        } else if self.is_resuming && !test.is_finished(self.current) {
            self.waiting |= 1 << self.current;
        }
        let sum = threads.clone().map(|thread| self.weight(test, thread)).sum();
        let next = if sum > 0 {
            let mut left = self.generator.below(sum);
            threads.clone().find(|thread| {
                let weight = self.weight(test, *thread);
                let is_it = left < weight;
                left = left.saturating_sub(weight);
                is_it
            })
        } else {
            threads.clone().find(|thread| test.may_step(*thread))
        };
        if let Some(thread) = next {
            self.go_to(test, thread);
        }
        next
    }
}

fn switches(generator: &mut Generator, contexts: u32, length: u64) -> u32 {
    if contexts < 2 {
        return 0;
    }
    let room = (length - length / 8).saturating_sub(1).max(1);
    let most = u64::from(contexts - 1).min(room) as u32;
    match generator.below(LOTS) {
        lot if lot < WITH_ONE => 1,
        lot if lot < WITH_FEW => most.min(2),
        _ => most - generator.below((most / 2).max(1)),
    }
}

/// Over how many places switches are spread.
fn places(generator: &mut Generator, length: u64, switches: u32, threads: u32) -> u64 {
    let steps = match generator.below(2) {
        0 => length,
        _ => (length * u64::from(switches.min(threads)) / u64::from(threads)).max(1),
    };
    steps - steps / 2 + u64::from(generator.below(steps as u32 / 2 + 1))
}

/// Marks the instruction at which a thread has to wait.
fn reach_wait(test: &Test, thread: u32, reached: &mut [bool]) {
    let Some(number) = test.threads[thread as usize].frames.last() else {
        return;
    };
    if !reached[*number as usize] && !test.is_finished(thread) && test.waits(thread) {
        reached[*number as usize] = true;
    }
}

fn reach_waits(test: &Test, reached: &mut [bool]) {
    for thread in 0..ENTRIES.len() as u32 {
        reach_wait(test, thread, reached);
    }
}

fn run(test: &mut Test, seed: u64, lengths: &[u64], reached: &mut [bool]) {
    test.restart(seed);
    let mut scheduler = Scheduler::new(seed, test.contexts, lengths);
    reach_waits(test, reached);
    while let Some(thread) = scheduler.next(test) {
        let number = test.threads[thread as usize].frames.last().copied();
        let reply = test.ask(thread);
        if let (Some(number), true) = (number, reply != Reply::NoContexts) {
            reached[number as usize] = true;
        }
        reach_wait(test, thread, reached);
        if reply == Reply::Failed {
            break;
        }
    }
    reach_waits(test, reached);
}

#[derive(Default)]
struct Tally {
    runs: u64,
    calls: u64,
    longest: u64,
    finished: u64,
    out_of_contexts: u64,
    cut_off: u64,
    starved: u64,
    deadlocked: u64,
    contexts: Vec<u64>,
    stepped: [bool; 2],
    keys: Vec<u64>,
}

impl Tally {
    fn add(&mut self, test: &Test) {
        let calls = test.history.len() as u64;
        self.runs += 1;
        self.calls += calls;
        self.longest = self.longest.max(calls);
        while self.contexts.len() <= test.used as usize {
            self.contexts.push(0);
        }
        self.contexts[test.used as usize] += 1;
        if self.keys.len() < COMPARED {
            self.keys.push(test.end_key());
        }
        let (mut refused, mut ended, mut has_failed) = (false, 0, false);
        for call in &test.history {
            match call.reply {
                Reply::Ended => ended += 1,
                Reply::NoContexts => refused = true,
                Reply::Failed | Reply::Stepped => self.stepped[call.thread as usize] = true,
            }
            has_failed |= call.reply == Reply::Failed;
        }
        if has_failed {
            return;
        }
        let left: Vec<u32> = (0..ENTRIES.len() as u32).filter(|&thread| !test.threads[thread as usize].frames.is_empty()).collect();
        if !left.is_empty() && left.iter().all(|&thread| test.waits(thread)) {
            self.deadlocked += 1;
        } else if (0..ENTRIES.len() as u32).any(|thread| !test.is_finished(thread)) {
            self.starved += 1;
        } else if refused {
            self.out_of_contexts += 1;
        } else if ended == ENTRIES.len() {
            self.finished += 1;
        } else {
            self.cut_off += 1;
        }
    }

    /// How many runs were different, and how many no other one was like.
    fn distinct(&mut self) -> (usize, usize) {
        self.keys.sort_unstable();
        let runs = self.keys.chunk_by(|a, b| a == b);
        runs.fold((0, 0), |(all, once), like| (all + 1, once + usize::from(like.len() == 1)))
    }

    /// The least, the middle and the greatest number of contexts.
    fn contexts_used(&self) -> (usize, usize, usize) {
        let (half, mut before, mut used) = (self.runs.div_ceil(2), 0, (0, 0, 0));
        for (contexts, runs) in self.contexts.iter().enumerate().filter(|(_, runs)| **runs > 0) {
            if before == 0 {
                used.0 = contexts;
            }
            if before < half {
                used.1 = contexts;
            }
            used.2 = contexts;
            before += runs;
        }
        used
    }
}

fn main() {
    let words: Vec<String> = std::env::args().collect();
    let number = |n: usize| words[n].parse::<u64>().expect("a number");
    let (runs, contexts, calls, seed) = (number(1), number(2) as u32, number(3) as u32, number(4));
    let code = program();
    let thread = |_| Thread { frames: Vec::new(), calls: 0, is_ended: false, choices: Generator::new(0, 0), word: 0, place: 0 };
    let threads = (0..ENTRIES.len()).map(thread).collect();
    let mut test = Test { code: &code, contexts, calls, globals: 0, threads, used: 0, last: None, history: Vec::new(), visible: 0, key: 1 };
    let mut lengths = Vec::new();
    let mut reached = vec![false; code.len()];
    for pilot in 0..PILOTS {
        run(&mut test, seed.wrapping_add(pilot), &[], &mut reached);
        if test.visible > 0 && test.threads.iter().all(|thread| thread.calls < calls) {
            lengths.push(test.visible);
        }
    }
    let mut reached = vec![false; code.len()];
    let mut tally = Tally::default();
    let mut found = None;
    for run_number in 0..runs {
        run(&mut test, seed.wrapping_add(run_number), &lengths, &mut reached);
        tally.add(&test);
        if test.history.last().map(|call| call.reply) == Some(Reply::Failed) {
            found = Some(run_number);
            break;
        }
    }
    match found {
        Some(run_number) => eprintln!("an assertion failed in run {run_number} of {runs}"),
        None => eprintln!("no assertion failed in {runs} runs"),
    }
    let (least, middle, most) = tally.contexts_used();
    let is_statement = |instr: &Instr| !matches!(instr, Instr::Return);
    let statements = code.iter().filter(|instr| is_statement(instr)).count();
    let tried = code.iter().zip(&reached).filter(|(instr, is_reached)| **is_reached && is_statement(instr)).count();
    let asserted = code.iter().zip(&reached).filter(|(instr, is_reached)| **is_reached && matches!(instr, Instr::Assert(..))).count();
    let stepped = tally.stepped.iter().filter(|has_stepped| **has_stepped).count();
    eprintln!("runs {}, calls {}, longest {}", tally.runs, tally.calls, tally.longest);
    eprintln!(
        "ended: finished {}, out of contexts {}, cut off {}, starved {}, deadlocked {}",
        tally.finished, tally.out_of_contexts, tally.cut_off, tally.starved, tally.deadlocked
    );
    eprintln!("contexts: least {least}, middle {middle}, most {most}");
    eprintln!("reached: statements {tried} of {statements}, assertions {asserted} of 1, threads {stepped} of 2");
    let compared = tally.keys.len();
    let (different, once) = tally.distinct();
    eprintln!("distinct: runs {different} of {compared}, seen once {once}");
}
