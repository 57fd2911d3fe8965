//! The yardstick of bench/driving.py: a plain Rust program, without proofs, that drives the flat code of that
//! bench's program by a schedule and prints the same trace. The code is written down here, so it reads no program.
//!
//! Usage: drive SCHEDULE THREADS CONTEXTS CALLS
use std::io::{self, BufWriter, Write};

enum Expr {
    Local(u32),
    Global(u32),
    Not(Box<Expr>),
    Xor(Box<Expr>, Box<Expr>),
}

enum Instr {
    Assign(Vec<(bool, u32)>, Vec<Expr>, u32),
    WhileChoice(u32, u32),
    Return,
}

#[derive(Clone, Copy, PartialEq)]
enum Reply {
    Ended,
    NoContexts,
    Stepped,
}

#[derive(Clone, Copy)]
struct Call {
    thread: u32,
    bit: bool,
    reply: Reply,
}

struct Thread {
    frames: Vec<(u32, u128)>,
    calls: u32,
    ended: bool,
}

struct Machine {
    globals: u128,
    threads: Vec<Thread>,
    used: u32,
    last: Option<u32>,
}

fn value(expr: &Expr, globals: u128, locals: u128) -> bool {
    match expr {
        Expr::Local(slot) => (locals >> slot) & 1 == 1,
        Expr::Global(slot) => (globals >> slot) & 1 == 1,
        Expr::Not(inner) => !value(inner, globals, locals),
        Expr::Xor(left, right) => value(left, globals, locals) ^ value(right, globals, locals),
    }
}

fn with_bit(word: u128, slot: u32, bit: bool) -> u128 {
    if bit { word | 1 << slot } else { word & !(1 << slot) }
}

impl Machine {
    fn ask(&mut self, code: &[Instr], contexts: u32, thread: u32, bit: bool) -> Reply {
        let guest = &mut self.threads[thread as usize];
        guest.calls += 1;
        let Some(&(number, locals)) = guest.frames.last() else {
            guest.ended = true;
            return Reply::Ended;
        };
        let used = self.used + u32::from(self.last != Some(thread));
        if used > contexts {
            guest.ended = true;
            return Reply::NoContexts;
        }
        let top = guest.frames.len() - 1;
        match &code[number as usize] {
            Instr::Assign(targets, values, next) => {
                let mut bits: u128 = 0;
                for (place, expr) in values.iter().enumerate() {
                    bits = with_bit(bits, place as u32, value(expr, self.globals, locals));
                }
                let mut locals = locals;
                for (place, (is_local, slot)) in targets.iter().enumerate() {
                    let bit = (bits >> place) & 1 == 1;
                    if *is_local {
                        locals = with_bit(locals, *slot, bit);
                    } else {
                        self.globals = with_bit(self.globals, *slot, bit);
                    }
                }
                guest.frames[top] = (*next, locals);
            }
            Instr::WhileChoice(next, other) => {
                guest.frames[top] = (if bit { *next } else { *other }, locals);
            }
            Instr::Return => {
                guest.frames.pop();
            }
        }
        self.used = used;
        self.last = Some(thread);
        Reply::Stepped
    }
}

/// decl x, y; main() begin decl a; while (?) do a, x := !a, y ^ a; y := x; od end
fn program() -> Vec<Instr> {
    let xor = Expr::Xor(Box::new(Expr::Global(1)), Box::new(Expr::Local(0)));
    vec![
        Instr::WhileChoice(1, 3),
        Instr::Assign(
            vec![(true, 0), (false, 0)],
            vec![Expr::Not(Box::new(Expr::Local(0))), xor],
            2,
        ),
        Instr::Assign(vec![(false, 1)], vec![Expr::Global(0)], 0),
        Instr::Return,
    ]
}

fn line(text: &[u8]) -> Option<(u32, bool, usize)> {
    let space = text.iter().take(3).position(|b| *b == b' ')?;
    let digits = &text[..space];
    if digits.is_empty() || (digits.len() > 1 && digits[0] == b'0') {
        return None;
    }
    let mut thread = 0;
    for digit in digits {
        if !digit.is_ascii_digit() {
            return None;
        }
        thread = thread * 10 + u32::from(digit - b'0');
    }
    match text.get(space + 1..space + 3)? {
        b"0\n" => Some((thread, false, space + 3)),
        b"1\n" => Some((thread, true, space + 3)),
        _ => None,
    }
}

fn decimal<'a>(mut number: u32, buffer: &'a mut [u8; 10]) -> &'a [u8] {
    let mut at = 10;
    loop {
        at -= 1;
        buffer[at] = b'0' + (number % 10) as u8;
        number /= 10;
        if number == 0 {
            return &buffer[at..];
        }
    }
}

fn main() -> io::Result<()> {
    let words: Vec<String> = std::env::args().collect();
    let number = |n: usize| words[n].parse::<u32>().expect("a number");
    let (threads, contexts, calls) = (number(2), number(3), number(4));
    let schedule = std::fs::read(&words[1])?;
    let code = program();
    let mut machine = Machine { globals: 0, threads: Vec::new(), used: 0, last: None };
    for _ in 0..threads {
        machine.threads.push(Thread { frames: vec![(0, 0)], calls: 0, ended: false });
    }
    let mut history = Vec::new();
    let mut at = 0;
    while at < schedule.len() {
        let (thread, bit, length) = line(&schedule[at..]).expect("a line");
        let guest = machine.threads.get(thread as usize).expect("a thread");
        assert!(!guest.ended && guest.calls < calls, "finished");
        let reply = machine.ask(&code, contexts, thread, bit);
        history.push(Call { thread, bit, reply });
        at += length;
    }
    let mut out = BufWriter::new(io::stdout().lock());
    writeln!(out, "btrace 1")?;
    for _ in 0..threads {
        writeln!(out, "entry main")?;
    }
    writeln!(out, "init 00\ncontexts {contexts}\ncalls {calls}\nseed none")?;
    let mut buffer = [0; 10];
    for call in &history {
        out.write_all(decimal(call.thread, &mut buffer))?;
        let letter = match call.reply {
            Reply::Ended => b'e',
            Reply::NoContexts => b'n',
            Reply::Stepped => b's',
        };
        out.write_all(&[b' ', b'0' + u8::from(call.bit), b' ', letter, b'\n'])?;
    }
    let open = machine.threads.iter().filter(|t| !t.ended && t.calls < calls).count();
    writeln!(out, "end {} {open}", history.len())?;
    out.flush()
}
