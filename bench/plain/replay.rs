//! The yardstick of bench/replaying.py: a plain Rust program, without proofs, that replays a trace of either version
//! on the flat code of that bench's program, keeps its history, and prints its rows and its outcome. The code is
//! written down here; the program that is read has to be that one.
//!
//! Usage: replay PROGRAM TRACE
use std::io::{self, BufWriter, Write};

const PROGRAM: &[u8] = b"decl x, y; main() begin decl a; \
    while (?) do a, x := !a, y ^ a; y := x; od print (x, y); skip; end\n";

const LONGEST: usize = 67_108_864;

enum Expr {
    Local(u32),
    Global(u32),
    Not(Box<Expr>),
    Xor(Box<Expr>, Box<Expr>),
}

enum Instr {
    Assign(Vec<(bool, u32)>, Vec<Expr>, u32),
    WhileChoice(u32, u32),
    Print(Vec<Expr>, u32),
    Skip(u32),
    Return,
}

#[derive(Clone, Copy, PartialEq)]
enum Reply {
    Ended,
    NoContexts,
    Stepped,
}

/// A call, as the history keeps it. Nothing reads it here.
#[allow(dead_code)]
struct Call {
    thread: u32,
    bit: bool,
    reply: Reply,
}

struct Thread {
    frames: Vec<(u32, u128)>,
    calls: u32,
    ended: bool,
}

struct Machine {
    globals: u128,
    threads: Vec<Thread>,
    used: u32,
    last: Option<u32>,
    rows: Vec<(u32, Vec<bool>)>,
    history: Vec<Call>,
}

struct Head {
    version: u8,
    threads: usize,
    globals: u128,
    contexts: u32,
    calls: u32,
}

fn value(expr: &Expr, globals: u128, locals: u128) -> bool {
    match expr {
        Expr::Local(slot) => (locals >> slot) & 1 == 1,
        Expr::Global(slot) => (globals >> slot) & 1 == 1,
        Expr::Not(inner) => !value(inner, globals, locals),
        Expr::Xor(left, right) => value(left, globals, locals) ^ value(right, globals, locals),
    }
}

fn with_bit(word: u128, slot: u32, bit: bool) -> u128 {
    if bit { word | 1 << slot } else { word & !(1 << slot) }
}

impl Machine {
    fn ask(&mut self, code: &[Instr], contexts: u32, thread: u32, bit: bool) -> Reply {
        let guest = &mut self.threads[thread as usize];
        guest.calls += 1;
        let Some(&(number, locals)) = guest.frames.last() else {
            guest.ended = true;
            return Reply::Ended;
        };
        let used = self.used + u32::from(self.last != Some(thread));
        if used > contexts {
            guest.ended = true;
            return Reply::NoContexts;
        }
        let top = guest.frames.len() - 1;
        match &code[number as usize] {
            Instr::Assign(targets, values, next) => {
                let mut bits: u128 = 0;
                for (place, expr) in values.iter().enumerate() {
                    bits = with_bit(bits, place as u32, value(expr, self.globals, locals));
                }
                let mut locals = locals;
                for (place, (is_local, slot)) in targets.iter().enumerate() {
                    let bit = (bits >> place) & 1 == 1;
                    if *is_local {
                        locals = with_bit(locals, *slot, bit);
                    } else {
                        self.globals = with_bit(self.globals, *slot, bit);
                    }
                }
                guest.frames[top] = (*next, locals);
            }
            Instr::WhileChoice(next, other) => {
                guest.frames[top] = (if bit { *next } else { *other }, locals);
            }
            Instr::Print(values, next) => {
                let row = values.iter().map(|expr| value(expr, self.globals, locals)).collect();
                self.rows.push((thread, row));
                guest.frames[top] = (*next, locals);
            }
            Instr::Skip(next) => guest.frames[top] = (*next, locals),
            Instr::Return => {
                guest.frames.pop();
            }
        }
        self.used = used;
        self.last = Some(thread);
        Reply::Stepped
    }
}

fn program() -> Vec<Instr> {
    let xor = Expr::Xor(Box::new(Expr::Global(1)), Box::new(Expr::Local(0)));
    vec![
        Instr::WhileChoice(1, 3),
        Instr::Assign(
            vec![(true, 0), (false, 0)],
            vec![Expr::Not(Box::new(Expr::Local(0))), xor],
            2,
        ),
        Instr::Assign(vec![(false, 1)], vec![Expr::Global(0)], 0),
        Instr::Print(vec![Expr::Global(0), Expr::Global(1)], 4),
        Instr::Skip(5),
        Instr::Return,
    ]
}

/// The decimal that begins the text, and how many bytes it has.
fn number(text: &[u8]) -> Option<(u64, usize)> {
    let mut number: u64 = 0;
    let mut count = 0;
    while let Some(digit) = text.get(count).filter(|byte| byte.is_ascii_digit()) {
        number = number.checked_mul(10)?.checked_add(u64::from(digit - b'0'))?;
        count += 1;
    }
    let is_padded = count > 1 && text[0] == b'0';
    (count > 0 && !is_padded).then_some((number, count))
}

/// The rest of the line behind the word, and what is behind the line.
fn field<'a>(text: &'a [u8], word: &[u8]) -> Option<(&'a [u8], &'a [u8])> {
    let rest = text.strip_prefix(word)?;
    let end = rest.iter().position(|byte| *byte == b'\n')?;
    Some((&rest[..end], &rest[end + 1..]))
}

fn whole_number(text: &[u8]) -> Option<u64> {
    let (number, count) = number(text)?;
    (count == text.len()).then_some(number)
}

fn head(text: &[u8]) -> Option<(Head, &[u8])> {
    let (version, mut rest) = field(text, b"btrace ")?;
    let mut threads = 0;
    while let Some((name, behind)) = field(rest, b"entry ") {
        if name != b"main" {
            return None;
        }
        threads += 1;
        rest = behind;
    }
    let (init, rest) = field(rest, b"init ")?;
    let globals = match init {
        b"00" => 0,
        b"01" => 2,
        b"10" => 1,
        b"11" => 3,
        _ => return None,
    };
    let (contexts, rest) = field(rest, b"contexts ")?;
    let (calls, rest) = field(rest, b"calls ")?;
    let (seed, rest) = field(rest, b"seed ")?;
    let version = match version {
        b"1" => 1,
        b"2" => 2,
        _ => return None,
    };
    let contexts = whole_number(contexts).filter(|number| *number <= 1_000)? as u32;
    let calls = whole_number(calls).filter(|number| (1..=100_000).contains(number))? as u32;
    let is_taken = (1..=64).contains(&threads) && seed == b"none";
    is_taken.then_some((Head { version, threads, globals, contexts, calls }, rest))
}

fn turn(digit: u8, letter: u8) -> Option<(bool, Reply)> {
    let bit = match digit {
        b'0' => false,
        b'1' => true,
        _ => return None,
    };
    let reply = match letter {
        b'e' => Reply::Ended,
        b'n' => Reply::NoContexts,
        b's' => Reply::Stepped,
        _ => return None,
    };
    Some((bit, reply))
}

/// The thread that begins the line, and how many bytes it and the space behind it have.
fn thread(text: &[u8], threads: usize) -> Option<(u32, usize)> {
    let (thread, count) = number(text)?;
    let is_there = thread < threads as u64 && text.get(count) == Some(&b' ');
    is_there.then_some((thread as u32, count + 1))
}

/// Plays a call, which has to be the machine's, and keeps it.
fn play(
    machine: &mut Machine,
    code: &[Instr],
    head: &Head,
    thread: u32,
    bit: bool,
    reply: Reply,
) -> Option<()> {
    let guest = &machine.threads[thread as usize];
    if guest.ended || guest.calls >= head.calls {
        return None;
    }
    if machine.ask(code, head.contexts, thread, bit) != reply {
        return None;
    }
    machine.history.push(Call { thread, bit, reply });
    Some(())
}

/// Plays the line of a call, and answers how many bytes it has.
fn play_call(machine: &mut Machine, code: &[Instr], head: &Head, text: &[u8]) -> Option<usize> {
    let (thread, size) = thread(text, head.threads)?;
    let &[digit, b' ', letter, b'\n'] = text.get(size..size + 4)? else {
        return None;
    };
    let (bit, reply) = turn(digit, letter)?;
    play(machine, code, head, thread, bit, reply)?;
    Some(size + 4)
}

/// Plays the line of a piece behind one of the thread `last`, and answers its thread and how many bytes it has.
fn play_piece(
    machine: &mut Machine,
    code: &[Instr],
    head: &Head,
    last: Option<u32>,
    text: &[u8],
) -> Option<(u32, usize)> {
    let (thread, start) = thread(text, head.threads)?;
    let length = text[start..].iter().position(|byte| *byte == b'\n')?;
    if last == Some(thread) || length == 0 || length % 2 == 1 {
        return None;
    }
    for pair in text[start..start + length].chunks_exact(2) {
        let (bit, reply) = turn(pair[0], pair[1])?;
        play(machine, code, head, thread, bit, reply)?;
    }
    Some((thread, start + length + 1))
}

/// Plays the lines of calls, and answers what is behind them.
fn play_lines<'a>(machine: &mut Machine, code: &[Instr], head: &Head, text: &'a [u8]) -> Option<&'a [u8]> {
    let mut last = None;
    let mut at = 0;
    while text.get(at).is_some_and(|byte| byte.is_ascii_digit()) {
        at += if head.version == 1 {
            play_call(machine, code, head, &text[at..])?
        } else {
            let (thread, size) = play_piece(machine, code, head, last, &text[at..])?;
            last = Some(thread);
            size
        };
    }
    Some(&text[at..])
}

/// The machine behind the calls of the trace, where the text is one.
fn replay(text: &[u8]) -> Option<Machine> {
    if text.len() > LONGEST {
        return None;
    }
    let code = program();
    let (head, rest) = head(text)?;
    let threads = (0..head.threads).map(|_| Thread { frames: vec![(0, 0)], calls: 0, ended: false });
    let mut machine = Machine {
        globals: head.globals,
        threads: threads.collect(),
        used: 0,
        last: None,
        rows: Vec::new(),
        history: Vec::new(),
    };
    let end = play_lines(&mut machine, &code, &head, rest)?;
    let calls = machine.history.len();
    let open = machine.threads.iter().filter(|t| !t.ended && t.calls < head.calls).count();
    (end == format!("end {calls} {open}\n").as_bytes()).then_some(machine)
}

fn main() -> io::Result<()> {
    let words: Vec<String> = std::env::args().collect();
    assert!(std::fs::read(&words[1])? == PROGRAM, "another program");
    let text = std::fs::read(&words[2])?;
    let Some(machine) = replay(&text) else {
        eprintln!("no trace");
        std::process::exit(2);
    };
    let mut out = BufWriter::new(io::stdout().lock());
    for (thread, values) in &machine.rows {
        write!(out, "print {thread} ")?;
        for bit in values {
            out.write_all(&[b'0' + u8::from(*bit)])?;
        }
        out.write_all(b"\n")?;
    }
    writeln!(out, "outcome clean")?;
    out.flush()
}
