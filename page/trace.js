"use strict";

// The trace is a list of calls as `btrun show --json` prints them, each a list of values without keys. Call number
// n is at index n - 1. A state is what the variables are after a call, and since which call each has its value;
// that after index -1 is the one at the start, which call 0 stands for.

const SNAPSHOT_EVERY = 256;
const KEYWORDS = new Set(
  "decl begin end skip print assert assume goto if then else fi while do od return".split(" "),
);

/** A call, of its values in the order of `show --json`. */
function callOf(values) {
  const [number, thread, context, isSwitch, line, column, procedure, depth, statement, ...rest] = values;
  const [choice, reply, changes, printed] = rest;
  const place = { line, column, procedure, depth, statement };
  return { number, thread, context, switch: isSwitch, ...place, choice, reply, changes, printed };
}

/** The least position in 0..count at which the test holds, where it holds from some position on. */
function leastWhere(count, holds) {
  let low = 0;
  let high = count;
  while (low < high) {
    const middle = (low + high) >> 1;
    if (holds(middle)) high = middle;
    else low = middle + 1;
  }
  return low;
}

/** The kind of a token that has a colour of its own. */
const kindOf = (text) => (KEYWORDS.has(text) ? "keyword" : ["0", "1"].includes(text) ? "bit" : "");

/** The name of a variable as `show` prints it: a local after the name of its procedure. */
const variableName = ({ procedure, name }) => (procedure === null ? name : `${procedure}.${name}`);

/** The program's text: a character for each byte, its lines and its tokens. */
class Program {
  constructor(bytes) {
    this.bytes = bytes;
    this.starts = [0];
    for (const end of bytes.matchAll(/\n/g)) this.starts.push(end.index + 1);
    this.tokens = [];
    this.tokenAt = new Map();
    this.cutTokens();
    this.procedures = new Map();
    this.readProcedures();
  }

  cutTokens() {
    const lexeme = /[ \t\r\n]+|\/\/[^\n]*|([A-Za-z_]\w*|\{[ -|~]*\}|:=|!=|=>|[01;,()|&^?:=!])/y;
    while (lexeme.lastIndex < this.bytes.length) {
      const start = lexeme.lastIndex;
      const found = lexeme.exec(this.bytes);
      if (!found) return;
      if (found[1]) {
        this.tokenAt.set(start, this.tokens.length);
        this.tokens.push({ start, end: lexeme.lastIndex, text: found[1] });
      }
    }
  }

  /** The names from a token up to an end, and where the end is. */
  namesUpTo(at, end) {
    const names = [];
    while (this.tokens[at] && this.tokens[at].text !== end) {
      if (this.tokens[at].text !== ",") names.push(this.tokens[at].text);
      at += 1;
    }
    return [names, at];
  }

  /** Finds each procedure's variables, formals first, and the place of its first statement. */
  readProcedures() {
    const text = (at) => this.tokens[at]?.text;
    let at = 0;
    while (at < this.tokens.length) {
      if (text(at) === "decl") {
        at = this.namesUpTo(at, ";")[1] + 1;
        continue;
      }
      const name = text(at);
      const [names, after] = this.namesUpTo(at + 2, ")");
      const [locals, body] = this.localsFrom(after + 2);
      this.procedures.set(name, { variables: [...names, ...locals], ...this.placeOf(this.tokens[body]?.start ?? 0) });
      at = this.namesUpTo(body, "end")[1] + 1;
    }
  }

  localsFrom(at) {
    const locals = [];
    while (this.tokens[at]?.text === "decl") {
      const [names, end] = this.namesUpTo(at + 1, ";");
      locals.push(...names);
      at = end + 1;
    }
    return [locals, at];
  }

  /** The line and the column of a byte. */
  placeOf(start) {
    const line = leastWhere(this.starts.length, (at) => this.starts[at] > start);
    return { line, column: start - this.starts[line - 1] + 1 };
  }

  variablesOf(procedure) {
    return this.procedures.get(procedure)?.variables ?? [];
  }

  /** The statement at a line and a column: where it begins and ends, and whether it calls or returns. */
  statementAt(line, column) {
    const start = this.starts[line - 1] + column - 1;
    let at = this.tokenAt.get(start) ?? -1;
    let end = start + 1;
    const first = this.tokens[at + 1]?.text === ":" ? at + 2 : at;
    const head = this.tokens[first]?.text ?? "";
    const isWord = ["if", "while", "assert", "assume", "print", "return"].includes(head);
    const isCall = !isWord && this.tokens[first + 1]?.text === "(";
    while (this.tokens[at] && ![";", "then", "do"].includes(this.tokens[at].text)) {
      end = this.tokens[at].end;
      at += 1;
    }
    return { start, end, callee: isCall ? head : null, returns: head === "return" };
  }

  /** The text between two places in pieces, each with its kind: a token's, a comment's, or none. */
  *pieces(start, end) {
    const kind = (from, to) => (this.bytes.slice(from, to).includes("//") ? "comment" : "");
    const gap = (from, to) => ({ piece: this.shown(from, to), kind: kind(from, to) });
    let from = start;
    let at = leastWhere(this.tokens.length, (it) => this.tokens[it].start >= start);
    for (; this.tokens[at]?.start < end; at += 1) {
      const token = this.tokens[at];
      yield gap(from, token.start);
      yield { piece: this.shown(token.start, token.end), kind: kindOf(token.text) };
      from = token.end;
    }
    yield gap(from, end);
  }

  /** The text between two places, for people. */
  shown(start, end) {
    const bytes = Uint8Array.from(this.bytes.slice(start, end), (it) => it.charCodeAt(0));
    return new TextDecoder().decode(bytes).replace(/[\r\n]/g, " ");
  }
}

/** A trace, and where in it each thread makes its calls and each context has its steps. */
class Trace {
  constructor(lines) {
    this.setup = lines[0];
    this.end = lines[lines.length - 1];
    this.calls = lines.slice(1, -1).map(callOf);
    this.callsOf = this.setup.threads.map(() => []);
    this.calls.forEach((call, index) => this.callsOf[call.thread].push(index));
    this.waits = new Map(this.end.deadlock.map((it) => [it.thread, it]));
    // The call in which an assertion failed, or the last one before a deadlock, as an index; else -1.
    this.outcome = this.calls.findLastIndex((call) => this.waits.size > 0 || call.reply === "failed");
    this.findContexts();
  }

  /** Notes for each call the last step at it or before it, and the first at it or after it, as an index. */
  findContexts() {
    const count = this.calls.length;
    this.stepBefore = new Int32Array(count);
    this.stepAfter = new Int32Array(count);
    this.calls.forEach((call, index) => {
      this.stepBefore[index] = call.context === null ? (index ? this.stepBefore[index - 1] : -1) : index;
    });
    for (let index = count - 1; index >= 0; index -= 1) {
      const after = index + 1 < count ? this.stepAfter[index + 1] : -1;
      this.stepAfter[index] = this.calls[index].context === null ? after : index;
    }
  }

  /** Where a thread waits for ever, from the last call on; undefined where it does not. */
  waitAfter(index, thread) {
    return index >= this.calls.length - 1 ? this.waits.get(thread) : undefined;
  }

  /** The contexts: the thread of each, its first step and its last, as indices. */
  contexts() {
    const found = [];
    this.calls.forEach(({ context, thread }, index) => {
      if (context === null) return;
      if (context > found.length) found.push({ thread, first: index });
      found[found.length - 1].last = index;
    });
    return found;
  }

  threadsWithCalls() {
    return [...this.callsOf.keys()].filter((thread) => this.callsOf[thread].length > 0);
  }

  /** The context that goes on at a call, whoever makes it: its number and its thread. */
  contextAround(index) {
    const before = this.calls[this.stepBefore[index]];
    const after = this.calls[this.stepAfter[index]];
    const goesOn = before && after && before.context === after.context;
    return goesOn ? { number: before.context, thread: before.thread } : null;
  }

  /** The thread's first call after an index, and its last one up to it; undefined where there is none. */
  neighbours(thread, index) {
    const own = this.callsOf[thread];
    const position = leastWhere(own.length, (at) => own[at] > index);
    return { next: own[position], last: own[position - 1] };
  }

  /** The first step of the next context after a call, or the first of the one before it. */
  otherContext(index, way) {
    let at = index + way;
    while (at > 0 && at < this.calls.length - 1 && !this.calls[at].switch) at += way;
    return Math.min(Math.max(at, 0), this.calls.length - 1);
  }
}

/** The variables of one owner: their values, and the number of the call since which each has its value. */
class Values {
  constructor(values, since) {
    Object.assign(this, { values, since });
  }

  /** Variables that are 0 since a call. */
  static zeros(count, call) {
    return new Values(new Uint8Array(count), new Int32Array(count).fill(call));
  }

  /** These with the changes of a call. */
  after(names, changes, call) {
    if (!changes.length) return this;
    const after = new Values(this.values.slice(), this.since.slice());
    for (const { name, value } of changes) {
      const at = names.indexOf(name);
      after.values[at] = value;
      after.since[at] = call;
    }
    return after;
  }
}

/**
 * The states of a trace. A state has the values of the globals and the frame on top of each stack, which knows the one
 * below it. Neither is ever changed: a step makes another one.
 */
class States {
  constructor(trace, program) {
    this.trace = trace;
    this.program = program;
    this.statements = new Map();
    this.globals = trace.setup.globals.map(({ name }) => name);
    const values = Uint8Array.from(trace.setup.globals, ({ value }) => value);
    const first = {
      globals: new Values(values, new Int32Array(values.length)),
      tops: trace.setup.threads.map((entry) => this.frame(entry, null, 0)),
    };
    this.snapshots = [first];
  }

  /** The state after a call. Snapshots are made up to there, where they are not there yet. */
  after(index) {
    const needed = Math.floor((index + 1) / SNAPSHOT_EVERY);
    while (this.snapshots.length <= needed) {
      const last = this.snapshots.length - 1;
      this.snapshots.push(this.afterSnapshot(last, (last + 1) * SNAPSHOT_EVERY));
    }
    return this.afterSnapshot(needed, index + 1);
  }

  /** The state after the first calls, so many, by way of this snapshot. */
  afterSnapshot(number, count) {
    let state = this.snapshots[number];
    for (let at = number * SNAPSHOT_EVERY; at < count; at += 1) state = this.next(state, at);
    return state;
  }

  statementOf(call) {
    const key = `${call.line}:${call.column}`;
    if (!this.statements.has(key)) this.statements.set(key, this.program.statementAt(call.line, call.column));
    return this.statements.get(key);
  }

  /** A new frame that a call makes, whose variables are 0. */
  frame(procedure, below, call) {
    const locals = Values.zeros(this.program.variablesOf(procedure).length, call);
    return { procedure, locals, depth: below ? below.depth + 1 : 1, below };
  }

  /** The state after one call more. */
  next(state, index) {
    const call = this.trace.calls[index];
    if (call.reply !== "stepped") return state;
    const written = call.changes.filter(({ procedure }) => procedure === null);
    const tops = state.tops.slice();
    tops[call.thread] = this.topAfter(state.tops[call.thread], call);
    return { globals: state.globals.after(this.globals, written, call.number), tops };
  }

  /** The frame on top of a thread's stack after a step. */
  topAfter(top, call) {
    const statement = call.line === null ? { callee: null, returns: true } : this.statementOf(call);
    if (statement.returns) return top.below;
    const written = call.changes.filter(({ procedure }) => procedure !== null);
    const after = statement.callee === null ? top : this.frame(statement.callee, top, call.number);
    if (!written.length) return after;
    const names = this.program.variablesOf(after.procedure);
    return { ...after, locals: after.locals.after(names, written, call.number) };
  }
}
