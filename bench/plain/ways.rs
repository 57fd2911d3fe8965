//! Ways to draw schedules, for bench/placing.py: it makes runs of a program by each way, and prints the share of those
//! in which an assertion failed, in percent. The way `btrun` draws as `btrun test` does, draw for draw, so the first run
//! that fails is the same; `btrun-whole` draws no focus. The others are a random walk (`walk`), one that draws
//! a thread by its visible steps left (`weighted`), and priorities with D - 1 changes (`pctD`). They have a
//! `-visible` form too, in which a thread is left only before a visible step. No error of a text is told.
//!
//! Usage: ways FILE ENTRY,.. INIT CONTEXTS CALLS SEED RUNS WAY..
use std::collections::HashMap;

const PILOTS: u64 = 64;
const POWERS: u32 = 14;
const LOTS: u32 = 20;
const WITH_ONE: u32 = 4;
const WITH_FEW: u32 = 5;
const RESUMING: u32 = 14;
const UNMOVED: u32 = 3;
const LONG: u64 = 100;
const FOCUSED: u32 = 7;
const SCHEDULE_STREAM: u64 = 118;
const BITS_STREAM: u64 = 54;

struct Generator {
    state: u64,
    increment: u64,
}

impl Generator {
    fn new(state: u64, stream: u64) -> Generator {
        let increment = stream << 1 | 1;
        let mut generator = Generator { state: state.wrapping_add(increment), increment };
        generator.step();
        generator
    }

    fn step(&mut self) {
        self.state = self.state.wrapping_mul(6364136223846793005).wrapping_add(self.increment);
    }

    fn word(&mut self) -> u32 {
        let state = self.state;
        self.step();
        (((state >> 18 ^ state) >> 27) as u32).rotate_right((state >> 59) as u32)
    }

    fn below(&mut self, count: u32) -> u32 {
        let word = self.word();
        if count == 0 { 0 } else { word % count }
    }
}

/// Globals have the slots below 128, locals those from 128 on.
#[derive(Clone)]
enum Expr {
    Const(bool),
    Var(u32),
    Not(Box<Expr>),
    Binary(char, Box<Expr>, Box<Expr>),
}

impl Expr {
    fn value(&self, globals: u128, locals: u128) -> bool {
        match self {
            Expr::Const(bit) => *bit,
            Expr::Var(slot) if *slot < 128 => globals >> slot & 1 == 1,
            Expr::Var(slot) => locals >> (slot - 128) & 1 == 1,
            Expr::Not(inner) => !inner.value(globals, locals),
            Expr::Binary(op, left, right) => {
                let (left, right) = (left.value(globals, locals), right.value(globals, locals));
                match op {
                    '&' => left & right,
                    '|' => left | right,
                    '^' | '#' => left ^ right,
                    '=' => left == right,
                    _ => !left | right,
                }
            }
        }
    }

    fn globals(&self) -> u128 {
        match self {
            Expr::Const(_) => 0,
            Expr::Var(slot) => if *slot < 128 { 1 << slot } else { 0 },
            Expr::Not(inner) => inner.globals(),
            Expr::Binary(_, left, right) => left.globals() | right.globals(),
        }
    }
}

#[derive(Clone)]
enum Do {
    Go,
    Return,
    Assign(Vec<u32>, Vec<Expr>),
    /// Without an expression the choice bit decides.
    Branch(Option<Expr>, usize),
    Assert(Option<Expr>),
    Assume(Option<Expr>),
    Call(String, usize, Vec<Expr>),
}

#[derive(Clone)]
struct Instr {
    what: Do,
    next: usize,
}

impl Instr {
    fn reads(&self) -> u128 {
        let all = |exprs: &[Expr]| exprs.iter().fold(0, |mask, expr| mask | expr.globals());
        match &self.what {
            Do::Go | Do::Return => 0,
            Do::Assign(_, exprs) | Do::Call(_, _, exprs) => all(exprs),
            Do::Branch(test, _) | Do::Assert(test) | Do::Assume(test) => test.as_ref().map_or(0, Expr::globals),
        }
    }

    fn writes(&self) -> u128 {
        match &self.what {
            Do::Assign(slots, _) => slots.iter().filter(|slot| **slot < 128).fold(0, |mask, slot| mask | 1 << slot),
            _ => 0,
        }
    }
}

/// Reads a program that has no error.
struct Reader {
    words: Vec<String>,
    at: usize,
    globals: Vec<String>,
    locals: Vec<String>,
    code: Vec<Instr>,
    entries: HashMap<String, usize>,
    labels: HashMap<String, usize>,
    jumps: Vec<(usize, String)>,
}

fn words_of(text: &str) -> Vec<String> {
    let chars: Vec<char> = text.chars().collect();
    let (mut words, mut at) = (Vec::new(), 0);
    while at < chars.len() {
        let rest = &chars[at..];
        let is_name = |c: &char| c.is_ascii_alphanumeric() || *c == '_';
        let long = match rest[0] {
            c if c.is_whitespace() => 0,
            '/' => 0,
            '{' => rest.iter().position(|c| *c == '}').expect("a brace") + 1,
            c if c.is_ascii_alphabetic() || c == '_' => rest.iter().take_while(|c| is_name(c)).count(),
            ':' | '!' if rest.get(1) == Some(&'=') => 2,
            '=' if rest.get(1) == Some(&'>') => 2,
            _ => 1,
        };
        if long > 0 {
            words.push(rest[..long].iter().collect());
            at += long;
        } else if rest[0] == '/' {
            at += rest.iter().position(|c| *c == '\n').unwrap_or(rest.len());
        } else {
            at += 1;
        }
    }
    words
}

impl Reader {
    fn peek(&self) -> &str {
        self.words.get(self.at).map_or("", String::as_str)
    }

    fn word(&mut self) -> String {
        self.at += 1;
        self.words[self.at - 1].clone()
    }

    fn takes(&mut self, word: &str) -> bool {
        let is_there = self.peek() == word;
        self.at += usize::from(is_there);
        is_there
    }

    fn want(&mut self, word: &str) {
        assert!(self.takes(word), "{word} in place of {}", self.peek());
    }

    fn names(&mut self, end: &str) -> Vec<String> {
        let mut names = Vec::new();
        while !self.takes(end) {
            names.push(self.word());
            self.takes(",");
        }
        names
    }

    fn slot(&self, name: &str) -> u32 {
        let place = |names: &[String]| names.iter().position(|it| it == name);
        place(&self.locals).map_or_else(|| place(&self.globals).expect("a variable") as u32, |place| 128 + place as u32)
    }

    fn unary(&mut self) -> Expr {
        let word = self.word();
        match word.as_str() {
            "!" => Expr::Not(Box::new(self.unary())),
            "(" => {
                let inner = self.expr(0);
                self.want(")");
                inner
            }
            "0" | "1" => Expr::Const(word == "1"),
            name => Expr::Var(self.slot(name)),
        }
    }

    /// The tighter an operator binds, the higher its level.
    fn expr(&mut self, level: usize) -> Expr {
        const LEVELS: [&[&str]; 5] = [&["=>"], &["|"], &["^"], &["&"], &["=", "!="]];
        if level == LEVELS.len() {
            return self.unary();
        }
        let mut left = self.expr(level + 1);
        while LEVELS[level].contains(&self.peek()) {
            let op = match self.word().as_str() {
                "=>" => '>',
                "!=" => '#',
                word => word.chars().next().expect("an operator"),
            };
            let right = self.expr(if level == 0 { 0 } else { level + 1 });
            left = Expr::Binary(op, Box::new(left), Box::new(right));
        }
        left
    }

    fn exprs(&mut self, end: &str) -> Vec<Expr> {
        let mut exprs = Vec::new();
        while !self.takes(end) {
            exprs.push(self.expr(0));
            self.takes(",");
        }
        exprs
    }

    fn decider(&mut self) -> Option<Expr> {
        self.want("(");
        let test = if self.takes("?") { None } else { Some(self.expr(0)) };
        self.want(")");
        test
    }

    fn emit(&mut self, what: Do) -> usize {
        let next = self.code.len() + 1;
        self.code.push(Instr { what, next });
        next - 1
    }

    /// The instructions from `first` on that go on at `end` go on there instead.
    fn redirect(&mut self, first: usize, end: usize, to: usize) {
        for instr in &mut self.code[first..end] {
            if instr.next == end {
                instr.next = to;
            }
            match &mut instr.what {
                Do::Branch(_, other) if *other == end => *other = to,
                _ => {}
            }
        }
    }

    fn set_other(&mut self, number: usize, to: usize) {
        if let Do::Branch(_, other) = &mut self.code[number].what {
            *other = to;
        }
    }

    fn block(&mut self, ends: &[&str]) {
        while !ends.contains(&self.peek()) {
            if self.words[self.at + 1] == ":" {
                let label = self.word();
                self.labels.insert(label, self.code.len());
                self.want(":");
            }
            self.statement();
        }
        self.word();
    }

    fn statement(&mut self) {
        let word = self.word();
        match word.as_str() {
            "skip" => drop(self.emit(Do::Go)),
            "return" => drop(self.emit(Do::Return)),
            "goto" => {
                let label = self.word();
                let number = self.emit(Do::Go);
                self.jumps.push((number, label));
            }
            "if" => return self.branch(),
            "while" => return self.turn(),
            "assert" | "assume" => {
                let test = self.decider();
                self.emit(if word == "assert" { Do::Assert(test) } else { Do::Assume(test) });
            }
            "print" => {
                self.want("(");
                let shown = self.exprs(")");
                self.emit(Do::Assign(Vec::new(), shown));
            }
            name if self.takes("(") => {
                let given = self.exprs(")");
                self.emit(Do::Call(name.to_owned(), 0, given));
            }
            name => {
                let mut names = vec![name.to_owned()];
                self.takes(",");
                names.extend(self.names(":="));
                let slots = names.iter().map(|name| self.slot(name)).collect();
                let values = self.exprs(";");
                self.emit(Do::Assign(slots, values));
                return;
            }
        }
        self.want(";");
    }

    fn branch(&mut self) {
        let test = self.decider();
        let number = self.emit(Do::Branch(test, 0));
        self.want("then");
        self.block(&["else"]);
        let other = self.code.len();
        self.block(&["fi"]);
        self.redirect(number + 1, other, self.code.len());
        self.set_other(number, other);
    }

    fn turn(&mut self) {
        let test = self.decider();
        let number = self.emit(Do::Branch(test, 0));
        self.want("do");
        self.block(&["od"]);
        let end = self.code.len();
        self.redirect(number + 1, end, number);
        self.set_other(number, end);
    }

    fn procedure(&mut self) {
        let name = self.word();
        self.want("(");
        self.locals = self.names(")");
        self.want("begin");
        while self.takes("decl") {
            let more = self.names(";");
            self.locals.extend(more);
        }
        self.entries.entry(name).or_insert(self.code.len());
        self.labels.clear();
        self.block(&["end"]);
        self.emit(Do::Return);
        for (number, label) in std::mem::take(&mut self.jumps) {
            self.code[number].next = self.labels[&label];
        }
    }

    fn program(mut self) -> (Vec<Instr>, HashMap<String, usize>) {
        while self.takes("decl") {
            let more = self.names(";");
            self.globals.extend(more);
        }
        while self.at < self.words.len() {
            self.procedure();
        }
        for instr in &mut self.code {
            if let Do::Call(name, callee, _) = &mut instr.what {
                *callee = self.entries[name];
            }
        }
        (self.code, self.entries)
    }
}

/// The globals that the statements read and write to which a thread can come.
fn touched(code: &[Instr], entry: usize) -> (u128, u128) {
    let (mut seen, mut left) = (vec![false; code.len()], vec![entry]);
    let (mut reads, mut writes) = (0, 0);
    while let Some(number) = left.pop() {
        if number >= code.len() || std::mem::replace(&mut seen[number], true) {
            continue;
        }
        let instr = &code[number];
        reads |= instr.reads();
        writes |= instr.writes();
        match &instr.what {
            Do::Return => continue,
            Do::Branch(_, other) => left.push(*other),
            Do::Call(_, callee, _) => left.push(*callee),
            _ => {}
        }
        left.push(instr.next);
    }
    (reads, writes)
}

/// For each instruction the threads whose steps there touch what another thread does.
fn visible_steps(code: &[Instr], entries: &[usize]) -> Vec<u64> {
    let touched: Vec<(u128, u128)> = entries.iter().map(|entry| touched(code, *entry)).collect();
    let mut masks = vec![0; code.len()];
    for thread in 0..entries.len() {
        let others = touched.iter().enumerate().filter(|(other, _)| *other != thread);
        let (reads, writes) = others.fold((0, 0), |(reads, writes), (_, it)| (reads | it.0, writes | it.1));
        for (mask, instr) in masks.iter_mut().zip(code) {
            if instr.reads() & writes != 0 || instr.writes() & (reads | writes) != 0 {
                *mask |= 1 << thread;
            }
        }
    }
    if masks.iter().all(|mask| *mask == 0) { vec![u64::MAX; code.len()] } else { masks }
}

#[derive(Clone, Copy, PartialEq)]
enum Reply {
    Ended,
    NoContexts,
    Failed,
    Stepped,
}

struct Thread {
    frames: Vec<(usize, u128)>,
    calls: u32,
    is_ended: bool,
    choices: Generator,
    word: u32,
    place: u32,
    /// How many visible steps it made.
    seen: u64,
}

struct Machine<'a> {
    code: &'a [Instr],
    entries: &'a [usize],
    visible: &'a [u64],
    init: u128,
    contexts: u32,
    calls: u32,
    globals: u128,
    threads: Vec<Thread>,
    used: u32,
    last: Option<usize>,
    /// How many calls were made, and how many visible steps.
    made: u64,
    seen: u64,
    /// How many visible steps each instruction made.
    visits: Vec<u64>,
}

impl Machine<'_> {
    fn restart(&mut self, seed: u64) {
        self.globals = self.init;
        self.used = 0;
        self.last = None;
        (self.made, self.seen) = (0, 0);
        self.visits.fill(0);
        for (number, thread) in self.threads.iter_mut().enumerate() {
            thread.frames.clear();
            thread.frames.push((self.entries[number], 0));
            thread.calls = 0;
            thread.is_ended = false;
            thread.choices = Generator::new(seed, BITS_STREAM + number as u64);
            thread.word = thread.choices.word();
            thread.place = 0;
            thread.seen = 0;
        }
    }

    fn is_finished(&self, thread: usize) -> bool {
        let guest = &self.threads[thread];
        guest.is_ended || guest.calls >= self.calls
    }

    fn may_step(&self, thread: usize) -> bool {
        if self.is_finished(thread) {
            return false;
        }
        let Some((number, locals)) = self.threads[thread].frames.last() else {
            return true;
        };
        match &self.code[*number].what {
            Do::Assume(Some(test)) => test.value(self.globals, *locals),
            _ => true,
        }
    }

    fn is_visible(&self, thread: usize) -> bool {
        let next = self.threads[thread].frames.last();
        next.is_some_and(|(number, _)| self.visible[*number] >> thread & 1 == 1)
    }

    fn ask(&mut self, thread: usize) -> Reply {
        let guest = &mut self.threads[thread];
        let bit = guest.word >> guest.place & 1 == 1;
        if guest.place == 31 {
            guest.word = guest.choices.word();
            guest.place = 0;
        } else {
            guest.place += 1;
        }
        guest.calls += 1;
        self.made += 1;
        let reply = self.reply_to(thread, bit);
        let guest = &mut self.threads[thread];
        guest.is_ended |= reply != Reply::Stepped;
        reply
    }

    fn reply_to(&mut self, thread: usize, bit: bool) -> Reply {
        let guest = &mut self.threads[thread];
        let Some((number, locals)) = guest.frames.last_mut() else {
            return Reply::Ended;
        };
        let used = self.used + u32::from(self.last != Some(thread));
        if used > self.contexts {
            return Reply::NoContexts;
        }
        let (globals, seen) = (self.globals, *locals);
        let holds = |test: &Option<Expr>| test.as_ref().map_or(bit, |test| test.value(globals, seen));
        let instr = &self.code[*number];
        match &instr.what {
            Do::Assume(test) if !holds(test) => return Reply::Stepped,
            _ => (self.used, self.last) = (used, Some(thread)),
        }
        let is_seen = self.visible[*number] >> thread & 1;
        self.seen += is_seen;
        self.visits[*number] += is_seen;
        guest.seen += is_seen;
        *number = instr.next;
        match &instr.what {
            Do::Assert(test) if !holds(test) => return Reply::Failed,
            Do::Go | Do::Assert(_) | Do::Assume(_) => {}
            Do::Return => drop(guest.frames.pop()),
            Do::Branch(test, other) => *number = if holds(test) { instr.next } else { *other },
            Do::Call(_, callee, given) => {
                let bits = given.iter().enumerate();
                let locals = bits.fold(0, |mask, (slot, expr)| mask | u128::from(expr.value(globals, seen)) << slot);
                guest.frames.push((*callee, locals));
            }
            Do::Assign(slots, values) => {
                for (slot, expr) in slots.iter().zip(values) {
                    let bit = u128::from(expr.value(globals, seen));
                    let word = if *slot < 128 { &mut self.globals } else { &mut *locals };
                    *word = *word & !(1 << (slot & 127)) | bit << (slot & 127);
                }
            }
        }
        Reply::Stepped
    }
}

/// Globals before whose accesses alone a run switches, and how many steps of pilots access one of them.
#[derive(Clone, Copy)]
struct Focus {
    globals: u128,
    steps: u64,
}

/// How many calls each pilot made, and how many visible steps, in all and by thread, and the focuses of long runs.
#[derive(Clone, Copy)]
struct Lengths<'a> {
    all: &'a [u64],
    visible: &'a [u64],
    by_thread: &'a [Vec<u64>],
    focuses: &'a [Focus],
}

/// For each global that steps access, those that no more of them access.
fn focuses_of(code: &[Instr], visits: &[u64]) -> Vec<Focus> {
    let steps_on = |globals: u128| {
        let touching = code.iter().zip(visits).filter(|(instr, _)| (instr.reads() | instr.writes()) & globals != 0);
        touching.map(|(_, count)| count).sum::<u64>()
    };
    let counts: Vec<u64> = (0..128).map(|slot| steps_on(1 << slot)).collect();
    let up_to = |most: u64| (0..128).filter(|slot| (1..=most).contains(&counts[*slot])).fold(0, |globals, slot| globals | 1 << slot);
    let masks = counts.iter().filter(|count| **count > 0).map(|count| up_to(*count));
    masks.map(|globals| Focus { globals, steps: steps_on(globals) }).collect()
}

/// Who makes the next call.
trait Way {
    fn next(&mut self, machine: &Machine) -> Option<usize>;
}

/// A number of switches, spread over places: visible steps, but the first since a switch. Some schedules go back to a
/// thread that had to wait as soon as it may step.
struct Spread {
    generator: Generator,
    focus: Option<u128>,
    current: usize,
    has_stepped: bool,
    switches: u32,
    places: u64,
    is_resuming: bool,
    /// The threads that were left since they had to wait, as a mask.
    waiting: u64,
}

impl Spread {
    fn new(seed: u64, machine: &Machine, lengths: Lengths) -> Spread {
        let mut generator = Generator::new(seed, SCHEDULE_STREAM);
        let threads = machine.threads.len() as u32;
        let current = generator.below(threads) as usize;
        let drawn = generator.below(lengths.visible.len() as u32);
        let mut length = match lengths.visible.get(drawn as usize) {
            Some(length) => *length,
            None => 8 << generator.below(POWERS),
        };
        let mut focus = None;
        if length >= LONG && !lengths.focuses.is_empty() && generator.below(LOTS) < FOCUSED {
            let drawn = lengths.focuses[generator.below(lengths.focuses.len() as u32) as usize];
            length = (length * drawn.steps / lengths.visible.iter().sum::<u64>()).max(1);
            focus = Some(drawn.globals);
        }
        let switches = switches(&mut generator, machine.contexts, length);
        let places = places(&mut generator, length, switches, threads);
        let is_resuming = generator.below(LOTS) < RESUMING;
        Spread { generator, focus, current, has_stepped: false, switches, places, is_resuming, waiting: 0 }
    }

    /// Whether a switch before the next step of a thread may matter.
    fn matters(&self, machine: &Machine, thread: usize) -> bool {
        let next = machine.threads[thread].frames.last().map(|(number, _)| &machine.code[*number]);
        let is_in = |globals: u128| next.is_some_and(|instr| (instr.reads() | instr.writes()) & globals != 0);
        machine.is_visible(thread) && self.focus.is_none_or(is_in)
    }

    fn go_to(&mut self, machine: &Machine, thread: usize) {
        self.current = thread;
        self.has_stepped = self.matters(machine, thread);
        self.waiting &= !(1 << thread);
    }

    fn switches_now(&mut self, machine: &Machine) -> bool {
        if self.switches == 0 || self.places == 0 || !self.matters(machine, self.current) {
            return false;
        }
        if !self.has_stepped {
            self.has_stepped = true;
            return false;
        }
        let place = u64::from(self.generator.word()) % self.places;
        self.places -= 1;
        let is_here = place < u64::from(self.switches);
        self.switches -= u32::from(is_here);
        is_here
    }

    fn weight(&self, machine: &Machine, thread: usize) -> u32 {
        match machine.threads[thread].calls {
            _ if thread == self.current || !machine.may_step(thread) => 0,
            0 => UNMOVED,
            _ => 1,
        }
    }
}

impl Way for Spread {
    fn next(&mut self, machine: &Machine) -> Option<usize> {
        let mut threads = 0..machine.threads.len();
        if self.waiting != 0 {
            let resumed = threads.clone().find(|thread| self.waiting >> thread & 1 == 1 && machine.may_step(*thread));
            if let Some(thread) = resumed {
                self.go_to(machine, thread);
                return Some(thread);
            }
        }
        if machine.may_step(self.current) {
            if !self.switches_now(machine) {
                return Some(self.current);
            }
        } else if self.is_resuming && !machine.is_finished(self.current) {
            self.waiting |= 1 << self.current;
        }
        let sum = threads.clone().map(|thread| self.weight(machine, thread)).sum();
        let next = if sum > 0 {
            let mut left = self.generator.below(sum);
            threads.find(|thread| {
                let weight = self.weight(machine, *thread);
                let is_it = left < weight;
                left = left.saturating_sub(weight);
                is_it
            })
        } else {
            threads.find(|thread| machine.may_step(*thread))
        };
        if let Some(thread) = next {
            self.go_to(machine, thread);
        }
        next
    }
}

fn switches(generator: &mut Generator, contexts: u32, length: u64) -> u32 {
    if contexts < 2 {
        return 0;
    }
    let room = (length - length / 8).saturating_sub(1).max(1);
    let most = u64::from(contexts - 1).min(room) as u32;
    match generator.below(LOTS) {
        lot if lot < WITH_ONE => 1,
        lot if lot < WITH_FEW => most.min(2),
        _ => most - generator.below((most / 2).max(1)),
    }
}

/// Over how many places switches are spread.
fn places(generator: &mut Generator, length: u64, switches: u32, threads: u32) -> u64 {
    let steps = match generator.below(2) {
        0 => length,
        _ => (length * u64::from(switches.min(threads)) / u64::from(threads)).max(1),
    };
    steps - steps / 2 + u64::from(generator.below(steps as u32 / 2 + 1))
}

/// Each step is one of any thread that may step.
struct Walk {
    generator: Generator,
    current: usize,
    only_visible: bool,
}

impl Way for Walk {
    fn next(&mut self, machine: &Machine) -> Option<usize> {
        let may_stay = machine.may_step(self.current) && machine.last.is_some();
        if self.only_visible && may_stay && !machine.is_visible(self.current) {
            return Some(self.current);
        }
        let threads = 0..machine.threads.len();
        let able = threads.clone().filter(|thread| machine.may_step(*thread)).count();
        let drawn = self.generator.below(able as u32) as usize;
        let next = threads.clone().filter(|thread| machine.may_step(*thread)).nth(drawn);
        self.current = next.unwrap_or(self.current);
        next
    }
}

/// Each visible step is one of a thread drawn by how many it still has before it, by a pilot. No thread is left once the
/// contexts are used up.
struct Weighted {
    generator: Generator,
    current: usize,
    has_stepped: bool,
    lengths: Vec<u64>,
}

impl Weighted {
    fn new(seed: u64, machine: &Machine, lengths: Lengths) -> Weighted {
        let mut generator = Generator::new(seed, SCHEDULE_STREAM);
        let drawn = generator.below(lengths.by_thread.len() as u32) as usize;
        let lengths = lengths.by_thread.get(drawn).cloned().unwrap_or(vec![1; machine.threads.len()]);
        Weighted { generator, current: 0, has_stepped: false, lengths }
    }

    fn weight(&self, machine: &Machine, thread: usize) -> u32 {
        let left = self.lengths[thread].saturating_sub(machine.threads[thread].seen);
        if machine.may_step(thread) { left.max(1) as u32 } else { 0 }
    }
}

impl Way for Weighted {
    fn next(&mut self, machine: &Machine) -> Option<usize> {
        let may_stay = machine.may_step(self.current) && machine.last == Some(self.current);
        let is_visible = may_stay && machine.is_visible(self.current);
        if may_stay && (machine.used >= machine.contexts || !is_visible || !self.has_stepped) {
            self.has_stepped |= is_visible;
            return Some(self.current);
        }
        let mut threads = 0..machine.threads.len();
        let mut left = self.generator.below(threads.clone().map(|thread| self.weight(machine, thread)).sum());
        let next = threads.find(|thread| {
            let weight = self.weight(machine, *thread);
            let is_it = left < weight;
            left = left.saturating_sub(weight);
            is_it
        })?;
        (self.current, self.has_stepped) = (next, machine.is_visible(next));
        Some(next)
    }
}

/// Of the threads that may step, the one of the highest priority. At each of some steps that are drawn among as many as
/// a pilot made, the running thread gets the least.
struct Priorities {
    ranks: Vec<i64>,
    changes: Vec<u64>,
    step: u64,
    least: i64,
    only_visible: bool,
}

impl Priorities {
    fn new(seed: u64, machine: &Machine, lengths: &[u64], depth: u32, only_visible: bool) -> Priorities {
        let mut generator = Generator::new(seed, SCHEDULE_STREAM);
        let count = machine.threads.len() as u32;
        let mut ranks: Vec<i64> = (1..=i64::from(count)).collect();
        for last in (1..count).rev() {
            ranks.swap(last as usize, generator.below(last + 1) as usize);
        }
        let drawn = generator.below(lengths.len() as u32) as usize;
        let length = lengths.get(drawn).copied().unwrap_or(100);
        let changes = (1..depth).map(|_| u64::from(generator.below(length as u32))).collect();
        Priorities { ranks, changes, step: 0, least: 0, only_visible }
    }

    fn highest(&self, machine: &Machine) -> Option<usize> {
        (0..self.ranks.len()).filter(|thread| machine.may_step(*thread)).max_by_key(|thread| self.ranks[*thread])
    }
}

impl Way for Priorities {
    fn next(&mut self, machine: &Machine) -> Option<usize> {
        let mut next = self.highest(machine)?;
        if !self.only_visible || machine.is_visible(next) {
            if self.changes.contains(&self.step) {
                self.ranks[next] = self.least;
                self.least -= 1;
                next = self.highest(machine)?;
            }
            self.step += 1;
        }
        Some(next)
    }
}

fn way_of(name: &str, seed: u64, machine: &Machine, lengths: Lengths) -> Box<dyn Way> {
    let (kind, form) = name.split_once('-').unwrap_or((name, ""));
    let only_visible = form == "visible";
    let length = if only_visible { lengths.visible } else { lengths.all };
    if let Some(depth) = kind.strip_prefix("pct") {
        return Box::new(Priorities::new(seed, machine, length, depth.parse().expect("a depth"), only_visible));
    }
    if kind == "walk" {
        return Box::new(Walk { generator: Generator::new(seed, SCHEDULE_STREAM), current: 0, only_visible });
    }
    if kind == "weighted" {
        return Box::new(Weighted::new(seed, machine, lengths));
    }
    let focuses = if form == "whole" { &[] } else { lengths.focuses };
    Box::new(Spread::new(seed, machine, Lengths { focuses, ..lengths }))
}

/// Whether an assertion failed.
fn run(machine: &mut Machine, seed: u64, way: &str, lengths: Lengths) -> bool {
    machine.restart(seed);
    let mut way = way_of(way, seed, machine, lengths);
    while let Some(thread) = way.next(machine) {
        if machine.ask(thread) == Reply::Failed {
            return true;
        }
    }
    false
}

fn main() {
    let words: Vec<String> = std::env::args().collect();
    let text = std::fs::read_to_string(&words[1]).expect("a program");
    let reader = Reader {
        words: words_of(&text),
        at: 0,
        globals: Vec::new(),
        locals: Vec::new(),
        code: Vec::new(),
        entries: HashMap::new(),
        labels: HashMap::new(),
        jumps: Vec::new(),
    };
    let (code, named) = reader.program();
    let entries: Vec<usize> = words[2].split(',').map(|name| named[name]).collect();
    let visible = visible_steps(&code, &entries);
    let init = words[3].chars().enumerate().fold(0, |mask, (slot, bit)| mask | u128::from(bit == '1') << slot);
    let number = |n: usize| words[n].parse::<u64>().expect("a number");
    let (contexts, calls, seed, runs) = (number(4) as u32, number(5) as u32, number(6), number(7));
    let thread = |_| Thread {
        frames: Vec::new(),
        calls: 0,
        is_ended: false,
        choices: Generator::new(0, 0),
        word: 0,
        place: 0,
        seen: 0,
    };
    let threads = (0..entries.len()).map(thread).collect();
    let mut machine = Machine {
        code: &code,
        entries: &entries,
        visible: &visible,
        init,
        contexts,
        calls,
        globals: 0,
        threads,
        used: 0,
        last: None,
        made: 0,
        seen: 0,
        visits: vec![0; code.len()],
    };
    let (mut all, mut seen, mut by_thread, mut visits) = (Vec::new(), Vec::new(), Vec::new(), vec![0; code.len()]);
    for pilot in (0..PILOTS).map(|pilot| seed.wrapping_add(pilot)) {
        run(&mut machine, pilot, "btrun", Lengths { all: &[], visible: &[], by_thread: &[], focuses: &[] });
        if machine.threads.iter().all(|thread| thread.calls < calls) && machine.seen > 0 {
            all.push(machine.made);
            seen.push(machine.seen);
            by_thread.push(machine.threads.iter().map(|thread| thread.seen).collect());
            visits.iter_mut().zip(&machine.visits).for_each(|(sum, count)| *sum += count);
        }
    }
    let focuses = if seen.iter().any(|length| *length >= LONG) { focuses_of(&code, &visits) } else { Vec::new() };
    let lengths = Lengths { all: &all, visible: &seen, by_thread: &by_thread, focuses: &focuses };
    for way in &words[8..] {
        let mut is_failed = |number: u64| run(&mut machine, seed.wrapping_add(number), way, lengths);
        let failed: Vec<u64> = (0..runs).filter(|number| is_failed(*number)).collect();
        let first = failed.first().map_or("-".to_owned(), u64::to_string);
        println!("{way} {:.4} {first}", 100.0 * failed.len() as f64 / runs as f64);
    }
}
