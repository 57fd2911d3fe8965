//! The yardstick of bench/running.py: a plain Rust program, without proofs, that runs that bench's program by
//! threads, a mutex and a bounded channel, and prints a trace of its own. The code is written down here.
//!
//! Usage: run PROGRAM THREADS CALLS TURN RING, where PROGRAM is steps or waits
use std::io::{self, BufWriter, Write};
use std::sync::atomic::{AtomicU32, Ordering};
use std::sync::mpsc::{Receiver, SyncSender, TryRecvError, TrySendError, sync_channel};
use std::sync::Mutex;
use std::thread;

const SEED: u64 = 42;

enum Expr {
    Constant(bool),
    Global(u32),
}

enum Instr {
    Assume(Expr, u32),
    While(Expr, u32, u32),
    Skip(u32),
    Return,
}

#[derive(Clone, Copy, PartialEq)]
enum Reply {
    Ended,
    NoContexts,
    Blocked,
    Stepped,
}

#[derive(Clone, Copy)]
struct Call {
    thread: u32,
    bit: bool,
    reply: Reply,
}

/// The choice bits of a thread: PCG XSH RR 64/32, each word from its lowest bit.
struct Choices {
    state: u64,
    increment: u64,
    word: u32,
    place: u32,
}

impl Choices {
    fn new(seed: u64, thread: u32) -> Choices {
        let increment = (54 + u64::from(thread)) << 1 | 1;
        let mut choices = Choices { state: seed.wrapping_add(increment), increment, word: 0, place: 32 };
        choices.step();
        choices
    }

    fn step(&mut self) {
        self.state = self.state.wrapping_mul(6364136223846793005).wrapping_add(self.increment);
    }

    fn next(&mut self) -> bool {
        if self.place == 32 {
            let state = self.state;
            self.step();
            let mixed = (((state >> 18) ^ state) >> 27) as u32;
            self.word = mixed.rotate_right((state >> 59) as u32);
            self.place = 0;
        }
        let bit = (self.word >> self.place) & 1 == 1;
        self.place += 1;
        bit
    }
}

struct Guest {
    frames: Vec<(u32, u128)>,
    choices: Choices,
    calls: u32,
    ended: bool,
}

struct Desk {
    code: Vec<Instr>,
    globals: u128,
    guests: Vec<Guest>,
    used: u32,
    last: Option<u32>,
    contexts: u32,
    calls: u32,
    to: SyncSender<Call>,
}

fn value(expr: &Expr, globals: u128) -> bool {
    match expr {
        Expr::Constant(bit) => *bit,
        Expr::Global(slot) => (globals >> slot) & 1 == 1,
    }
}

impl Desk {
    /// The reply to the next call of a thread; the call is made only where it is sent.
    fn reply(&self, thread: u32) -> (Reply, Option<u32>) {
        let guest = &self.guests[thread as usize];
        let Some(&(number, _)) = guest.frames.last() else {
            return (Reply::Ended, None);
        };
        if self.used + u32::from(self.last != Some(thread)) > self.contexts {
            return (Reply::NoContexts, None);
        }
        match &self.code[number as usize] {
            Instr::Assume(expr, next) if value(expr, self.globals) => (Reply::Stepped, Some(*next)),
            Instr::Assume(..) => (Reply::Blocked, None),
            Instr::While(expr, next, other) => {
                (Reply::Stepped, Some(if value(expr, self.globals) { *next } else { *other }))
            }
            Instr::Skip(next) => (Reply::Stepped, Some(*next)),
            Instr::Return => (Reply::Stepped, None),
        }
    }

    /// Up to so many calls of a thread: whether its thread is live behind them, or the channel is full.
    fn turn(&mut self, thread: u32, n: u32) -> Result<bool, ()> {
        for _ in 0..n {
            let (reply, next) = self.reply(thread);
            let guest = &self.guests[thread as usize];
            // the bit is drawn from a copy, since a call that is not sent uses none
            let mut choices = Choices { ..guest.choices };
            let bit = choices.next();
            match self.to.try_send(Call { thread, bit, reply }) {
                Ok(()) => {}
                Err(TrySendError::Full(_)) => return Err(()),
                Err(TrySendError::Disconnected(_)) => return Ok(false),
            }
            let guest = &mut self.guests[thread as usize];
            guest.choices = choices;
            guest.calls += 1;
            if reply == Reply::Stepped {
                self.used += u32::from(self.last != Some(thread));
                self.last = Some(thread);
                let top = guest.frames.len() - 1;
                match next {
                    Some(next) => guest.frames[top].0 = next,
                    None => {
                        guest.frames.pop();
                    }
                }
            }
            guest.ended = matches!(reply, Reply::Ended | Reply::NoContexts);
            if guest.ended || guest.calls >= self.calls {
                return Ok(false);
            }
            if reply != Reply::Stepped {
                return Ok(true);
            }
        }
        Ok(true)
    }
}

fn work(desk: &Mutex<Desk>, thread: u32, n: u32) {
    loop {
        let done = desk.lock().unwrap().turn(thread, n);
        match done {
            Ok(true) => {}
            Ok(false) => return,
            Err(()) => thread::yield_now(),
        }
    }
}

fn decimal<'a>(mut number: u32, buffer: &'a mut [u8; 10]) -> &'a [u8] {
    let mut at = 10;
    loop {
        at -= 1;
        buffer[at] = b'0' + (number % 10) as u8;
        number /= 10;
        if number == 0 {
            return &buffer[at..];
        }
    }
}

fn write_call<W: Write>(call: &Call, out: &mut W) -> io::Result<()> {
    let mut buffer = [0; 10];
    out.write_all(decimal(call.thread, &mut buffer))?;
    let letter = match call.reply {
        Reply::Ended => b'e',
        Reply::NoContexts => b'n',
        Reply::Blocked => b'b',
        Reply::Stepped => b's',
    };
    out.write_all(&[b' ', b'0' + u8::from(call.bit), b' ', letter, b'\n'])
}

/// Writes calls until all workers have ended and none is left; answers how many there were.
fn scribe<W: Write>(from: &Receiver<Call>, ended: &AtomicU32, threads: u32, out: &mut W) -> io::Result<u64> {
    let mut count = 0;
    loop {
        let all_ended = ended.load(Ordering::SeqCst) == threads;
        match from.try_recv() {
            Ok(call) => {
                write_call(&call, out)?;
                count += 1;
            }
            Err(TryRecvError::Empty) if !all_ended => {
                out.flush()?;
                thread::yield_now();
            }
            Err(_) => return Ok(count),
        }
    }
}

/// decl x; main() begin while (1) do skip; od end
fn steps() -> Vec<Instr> {
    vec![Instr::While(Expr::Constant(true), 1, 2), Instr::Skip(0), Instr::Return]
}

/// decl x; main() begin assume (x); end
fn waits() -> Vec<Instr> {
    vec![Instr::Assume(Expr::Global(0), 1), Instr::Return]
}

fn main() -> io::Result<()> {
    let words: Vec<String> = std::env::args().collect();
    let number = |n: usize| words[n].parse::<u32>().expect("a number");
    let code = if words[1] == "steps" { steps() } else { waits() };
    let (threads, calls, turn, ring) = (number(2), number(3), number(4), number(5));
    let (to, from) = sync_channel(ring as usize);
    let guest = |thread| Guest {
        frames: vec![(0, 0)],
        choices: Choices::new(SEED, thread),
        calls: 0,
        ended: false,
    };
    let desk = Mutex::new(Desk {
        code,
        globals: 0,
        guests: (0..threads).map(guest).collect(),
        used: 0,
        last: None,
        contexts: 1000,
        calls,
        to,
    });
    let ended = AtomicU32::new(0);
    let mut out = BufWriter::new(io::stdout().lock());
    writeln!(out, "btrace 1")?;
    for _ in 0..threads {
        writeln!(out, "entry main")?;
    }
    writeln!(out, "init 0\ncontexts 1000\ncalls {calls}\nseed {SEED}")?;
    let count = thread::scope(|scope| {
        for thread in 0..threads {
            let (desk, ended) = (&desk, &ended);
            scope.spawn(move || {
                work(desk, thread, turn);
                ended.fetch_add(1, Ordering::SeqCst);
            });
        }
        scribe(&from, &ended, threads, &mut out)
    })?;
    let desk = desk.into_inner().unwrap();
    let open = desk.guests.iter().filter(|guest| !guest.ended && guest.calls < calls).count();
    writeln!(out, "end {count} {open}")?;
    out.flush()
}
