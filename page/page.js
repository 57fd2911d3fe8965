// What the page shows, and what its keys and buttons do.

const VERSION = 2;
const CALLS_OF_A_PAGE = 20;
const MAX_FRAMES = 8;
const MAX_CALLS_PRINTED = 2000;
const MIN_WIDTH = 160;
const KEY_WIDTH = 16;
// Up to so many lanes they are so many pixels wide.
const LANES = [[8, 12], [16, 10], [64, 7]];
const MAX_LANES_BETWEEN = 8;
const MAX_LANES_WITH_CONTEXT = 24;
const MAX_MARKS = 3;
// A deadlock of more threads is folded.
const MAX_WAITS = 2;
const LINK_DELAY = 250;

const byId = (id) => document.getElementById(id);

/** An element with a class and a text. */
function made(tag, name = "", text = "") {
  const element = document.createElement(tag);
  if (name) element.className = name;
  if (text) element.textContent = text;
  return element;
}

const counted = (count, name) => `${count} ${name}${count === 1 ? "" : "s"}`;

// Hues of threads, none of them near the red of a failure.
const HUES = [215, 150, 40, 280, 185, 90, 320, 250];
const hueOf = (thread) => String(HUES[thread % HUES.length]);

/** The number of a thread on its colour. */
function badge(thread) {
  const element = made("span", "badge", String(thread));
  element.style.setProperty("--hue", hueOf(thread));
  return element;
}

/** Gives a section the width to which its edge is dragged, or that the arrow keys choose. */
function makeResizable(handle) {
  const section = handle.parentNode;
  const way = Number(handle.dataset.way);
  const widen = (width) => {
    const pixels = Math.max(MIN_WIDTH, Math.round(width));
    byId("main").style.setProperty(`--${handle.dataset.side}-width`, `${pixels}px`);
    handle.setAttribute("aria-valuenow", pixels);
  };
  handle.setAttribute("aria-valuenow", section.clientWidth);
  handle.addEventListener("pointerdown", (event) => {
    const [width, from] = [section.clientWidth, event.clientX];
    handle.setPointerCapture(event.pointerId);
    handle.onpointermove = (moved) => widen(width + way * (moved.clientX - from));
  });
  handle.addEventListener("pointerup", () => { handle.onpointermove = null; });
  handle.addEventListener("keydown", (event) => {
    const by = { ArrowLeft: -KEY_WIDTH, ArrowRight: KEY_WIDTH }[event.key];
    if (!by) return;
    event.preventDefault();
    event.stopPropagation();
    widen(section.clientWidth + way * by);
  });
}

/** Shows the page light or dark: as it is chosen, or as the system asks for. */
function chooseTheme() {
  const isDark = matchMedia("(prefers-color-scheme: dark)").matches;
  document.documentElement.dataset.theme = byId("theme").value || (isDark ? "dark" : "light");
}

const placeOf = (call) => (call.line === null ? "-" : `${call.line}:${call.column}`);
const statementText = (call) => call.statement ?? "the thread has ended";
/** By how many frames a statement is indented. */
const indentOf = (call) => Math.max(Math.min(call.depth, MAX_FRAMES) - 1, 0);
const statementColumns = (call) => statementText(call).length + 2 * indentOf(call);

/** What came of a call, in the words of `show`. */
function resultOf(call) {
  const words = call.choice === null ? [] : [`?=${call.choice}`];
  if (call.reply !== "stepped") words.push(call.reply.replaceAll("_", " "));
  call.changes.forEach((change) => words.push(`${variableName(change)}=${change.value}`));
  if (call.printed !== null) words.push(`printed ${call.printed.join("")}`);
  return words.join(" ");
}

/** The statement at which a thread fails or waits, with the values that it reads. */
function conditionText({ statement, values }) {
  const known = values.map((it) => `${variableName(it)}=${it.value}`).join(" ");
  return `${statement}${known ? ` with ${known}` : ""}`;
}

/** The threads of a deadlock for each place and values with which they wait, most threads first. */
function waitingGroups(deadlock) {
  const groups = new Map();
  for (const it of deadlock) {
    const condition = `${placeOf(it)} ${conditionText(it)}`;
    groups.set(condition, [...(groups.get(condition) ?? []), it.thread]);
  }
  return [...groups].sort(([, some], [, others]) => others.length - some.length);
}

/** A deadlock in one sentence. */
function deadlockText(groups) {
  const texts = groups.map(([condition, threads], at) => {
    if (threads.length === 1) return `thread ${threads[0]} waits at ${condition}`;
    return `${threads.length}${at === 0 ? " threads wait" : ""} at ${condition}`;
  });
  return `Deadlock: ${texts.join("; ")}.`;
}

/** The page: which call is chosen, and which calls are shown. */
class Page {
  constructor(trace, program) {
    this.trace = trace;
    this.program = program;
    this.states = new States(trace, program);
    this.chosen = 0;
    this.threads = new Set(trace.setup.threads.keys());
    this.marks = new Map();
    this.source = new Rows(byId("source-box"), byId("source"), (line) => this.sourceRow(line));
    this.calls = new Rows(byId("calls-box"), byId("calls"), (position) => this.callRow(position));
    this.source.count = program.starts.length;
    byId("source").style.setProperty("--digits", String(program.starts.length).length);
    this.giveRoom();
    this.overview = new Overview(byId("overview"), trace, (index) => this.choose(index));
    this.showSetup();
    this.showThreads();
    this.listen();
    this.chosen = Math.max(0, trace.outcome);
    this.filter();
    this.followLink();
  }

  // What stays.

  showSetup() {
    const { setup, end, calls, outcome } = this.trace;
    const seed = setup.seed === null ? "no seed" : `seed ${setup.seed}`;
    const counts = [[end.calls, "call"], [end.contexts, "context"], [end.open, "open thread"]];
    const had = counts.map(([count, name]) => counted(count, name)).join(", ");
    const limits = `at most ${counted(setup.max_contexts, "context")} and ${counted(setup.max_calls, "call")} of a thread`;
    byId("counts").textContent = `${had}; ${limits}; ${seed}`;
    byId("outcome").append(this.outcomeShown());
    byId("outcome").classList.toggle("failed", end.failure !== null || end.deadlock.length > 0);
    byId("go-outcome").hidden = outcome < 0;
    byId("go-outcome").textContent = `Show the ${end.deadlock.length ? "deadlock" : "failure"}`;
    byId("number").max = calls.length;
    byId("of").textContent = `of ${calls.length}`;
  }

  /** How the trace ended. A deadlock of many threads is a line that opens. */
  outcomeShown() {
    const { failure, deadlock } = this.trace.end;
    if (failure !== null) {
      return `An assertion of thread ${failure.thread} failed at ${placeOf(failure)}: ${conditionText(failure)}.`;
    }
    if (!deadlock.length) return "No assertion failed.";
    const groups = waitingGroups(deadlock);
    return deadlock.length > MAX_WAITS ? this.folded(groups) : deadlockText(groups);
  }

  /** The line of a deadlock, which opens to the threads of each group. */
  folded(groups) {
    const details = made("details");
    const summary = made("summary");
    summary.append(made("span", "line", deadlockText(groups)));
    const list = made("ul");
    list.append(...groups.map(([condition, threads]) => {
      const item = made("li", "", `at ${condition}: `);
      item.append(...threads.flatMap((thread) => [badge(thread), " "]));
      return item;
    }));
    details.append(summary, list);
    return details;
  }

  /** A menu with a box to tick for each thread. */
  showThreads() {
    const boxes = this.trace.setup.threads.map((entry, thread) => {
      const label = made("label");
      const box = made("input");
      Object.assign(box, { type: "checkbox", checked: true, id: `thread-${thread}` });
      box.addEventListener("change", () => {
        this.threads[box.checked ? "add" : "delete"](thread);
        this.filter();
      });
      label.append(box, badge(thread), entry);
      return label;
    });
    const all = [["All", true], ["None", false]].map(([name, isChecked]) => {
      const button = made("button", "", name);
      button.type = "button";
      button.addEventListener("click", () => this.tick(isChecked));
      return button;
    });
    byId("threads").append(...(boxes.length > 2 ? all : []), ...boxes);
  }

  /** Ticks the boxes of all threads, or of none. */
  tick(isChecked) {
    const threads = [...this.trace.setup.threads.keys()];
    this.threads = new Set(isChecked ? threads : []);
    threads.forEach((thread) => { byId(`thread-${thread}`).checked = isChecked; });
    this.filter();
  }

  // What is shown.

  /** Finds the calls that the filters let through, and draws them. */
  filter() {
    const part = byId("variable").value;
    const isChanging = byId("changing").checked && part !== "";
    const isShown = (call) =>
      this.threads.has(call.thread) && (!isChanging || call.changes.some((it) => variableName(it).includes(part)));
    const count = this.threads.size;
    const all = this.trace.setup.threads.length;
    byId("threads-name").textContent = `Threads: ${count === all ? "all" : `${count} of ${all}`}`;
    this.shown = [];
    this.trace.calls.forEach((call, index) => isShown(call) && this.shown.push(index));
    this.calls.count = this.shown.length;
    this.calls.forgetAll();
    byId("slider").max = Math.max(1, this.shown.length);
    byId("calls-box").setAttribute("aria-rowcount", this.shown.length + 1);
    this.showLanes();
    this.showHeads();
    if (this.shown.length) this.choosePosition(this.positionOf(this.chosen));
    else this.showNothing();
  }

  /** The position of a call, or of the next one that is shown. */
  positionOf(index) {
    const position = leastWhere(this.shown.length, (at) => this.shown[at] >= index);
    return Math.min(position, this.shown.length - 1);
  }

  threadsShown() {
    return [...this.threads].sort((a, b) => a - b);
  }

  showNothing() {
    this.calls.redraw();
    const isEmpty = this.trace.calls.length === 0;
    const filtered = "No call is left by the threads and the variable that are chosen.";
    byId("said").textContent = isEmpty ? "The trace has no call." : filtered;
    this.showVariables(isEmpty ? -1 : this.chosen);
    this.showMarks();
  }

  /** Gives a lane to each thread that is shown and makes a call. */
  showLanes() {
    const threads = this.trace.threadsWithCalls().filter((thread) => this.threads.has(thread));
    this.laneOf = new Map(threads.map((thread, at) => [thread, at]));
    const count = Math.max(1, threads.length);
    byId("calls-box").style.setProperty("--lanes", count);
    byId("calls-box").style.setProperty("--lane", `${LANES.find(([most]) => count <= most)[1]}px`);
    byId("main").classList.toggle("many", count > MAX_LANES_BETWEEN);
    byId("calls-box").classList.toggle("most", count > MAX_LANES_WITH_CONTEXT);
  }

  showHeads() {
    const names = ["number", "context", "thread", "place", "statement", "result"];
    byId("calls-box").setAttribute("aria-colcount", names.length);
    const heads = names.map((name, at) => {
      const head = made("div", name, name === "number" ? "call" : name);
      head.setAttribute("role", "columnheader");
      head.setAttribute("aria-colindex", at + 1);
      return head;
    });
    byId("heads").replaceChildren(...heads.slice(0, 2), this.laneHeads(), ...heads.slice(2, 4), this.what(heads.slice(4)));
  }

  /** The number of the thread above each lane. */
  laneHeads() {
    const strip = made("div", "strip");
    strip.setAttribute("aria-hidden", "true");
    strip.append(...[...this.laneOf.keys()].map((thread) => {
      const number = this.block(thread, "lane-number");
      number.textContent = String(thread);
      number.title = `thread ${thread}: ${this.trace.setup.threads[thread]}`;
      return number;
    }));
    return strip;
  }

  /** The cells of the statement and of the result, which share their room. */
  what(cells) {
    const what = made("div", "what");
    what.setAttribute("role", "presentation");
    what.append(...cells);
    return what;
  }

  /** Tells the rows how many columns of text the longest statement and the longest result of the trace have. */
  giveRoom() {
    const longest = (lengths) => lengths.reduce((most, length) => Math.max(most, length), 0);
    const box = byId("calls-box");
    box.style.setProperty("--longest-statement", longest(this.trace.calls.map(statementColumns)));
    box.style.setProperty("--longest-result", longest(this.trace.calls.map((call) => resultOf(call).length)));
  }

  // A call's row.

  callRow(position) {
    const index = this.shown[position];
    const call = this.trace.calls[index];
    const row = made("div", "call");
    row.id = `call-${call.number}`;
    row.dataset.position = position;
    row.setAttribute("role", "row");
    row.setAttribute("aria-rowindex", position + 2);
    row.setAttribute("aria-selected", String(index === this.chosen));
    row.classList.toggle("switch", call.switch);
    row.classList.toggle("failed", call.reply === "failed");
    const thread = this.cell("thread", 3, "");
    thread.title = this.trace.setup.threads[call.thread];
    thread.append(badge(call.thread));
    const what = this.what([this.statementCell(call), this.cell("result", 6, resultOf(call))]);
    what.style.setProperty("--statement", statementColumns(call));
    what.style.setProperty("--result", resultOf(call).length);
    row.append(
      this.cell("number", 1, `${call.switch ? ">" : ""}${call.number}`),
      this.cell("context", 2, call.context === null ? "-" : String(call.context)),
      this.strip(position, index, call),
      thread,
      this.cell("place", 4, placeOf(call)),
      what,
    );
    return row;
  }

  cell(name, column, text) {
    const cell = made("div", name, text);
    cell.setAttribute("role", name === "number" ? "rowheader" : "gridcell");
    cell.setAttribute("aria-colindex", column);
    if (text.length > 12) cell.title = text;
    return cell;
  }

  statementCell(call) {
    const name = call.context === null ? "statement idle" : "statement step";
    const cell = this.cell(name, 5, statementText(call));
    cell.style.setProperty("--indent", indentOf(call));
    return cell;
  }

  /** The lanes of the threads at a call: its own block, and the context of another thread that goes on meanwhile. */
  strip(position, index, call) {
    const strip = made("div", "strip");
    strip.setAttribute("aria-hidden", "true");
    const around = this.trace.contextAround(index);
    const own = this.block(call.thread, call.context === null ? "call-only" : "block");
    strip.append(own);
    if (around && around.thread !== call.thread && this.laneOf.has(around.thread)) {
      strip.append(this.block(around.thread, "block"));
    }
    if (call.context !== null) {
      own.classList.toggle("first", this.contextAt(position - 1) !== call.context);
      own.classList.toggle("last", this.contextAt(position + 1) !== call.context);
    }
    return strip;
  }

  /** A box in the lane of a thread. */
  block(thread, name) {
    const box = made("span", name);
    box.style.setProperty("--at", this.laneOf.get(thread));
    box.style.setProperty("--hue", hueOf(thread));
    return box;
  }

  /** The number of the context that goes on at a row. */
  contextAt(position) {
    const index = this.shown[position];
    return index === undefined ? null : this.trace.contextAround(index)?.number ?? null;
  }

  // The source.

  sourceRow(at) {
    const marks = this.marks.get(at + 1) ?? [];
    const start = this.program.starts[at];
    const end = this.program.starts[at + 1] ?? this.program.bytes.length;
    const row = made("div", "source-line");
    row.classList.toggle("now", marks.some((mark) => mark.sign === "▶"));
    const text = made("span", "text");
    let from = start;
    for (const mark of marks) {
      if (mark.end <= from) continue;
      const begin = Math.max(from, mark.start);
      text.append(...this.coloured(from, begin), this.marked(mark, begin, Math.min(end, mark.end)));
      from = Math.min(end, mark.end);
    }
    text.append(...this.coloured(from, end));
    row.append(this.signs(marks), made("span", "line-number", String(at + 1)), text);
    return row;
  }

  /** A piece of the source in the colours of its tokens. */
  coloured(start, end) {
    return [...this.program.pieces(start, end)].map(({ piece, kind }) => (kind ? made("span", kind, piece) : piece));
  }

  marked(mark, start, end) {
    const element = made("mark", { "▶": "now", "‖": "waits" }[mark.sign] ?? "");
    element.append(...this.coloured(start, end));
    element.classList.toggle("failed", mark.isFailed);
    element.append(made("span", "heard", ` (${mark.words})`));
    return element;
  }

  /** The signs before a line: a sign and the threads that stand so, or how many there are. */
  signs(marks) {
    const of = (sign) => marks.filter((mark) => mark.sign === sign && mark.isFirst).map((mark) => mark.thread);
    const words = ["▶", "▷", "✓", "‖"].filter((sign) => of(sign).length).map((sign) => {
      const threads = [...new Set(of(sign))];
      return sign + (threads.length > MAX_MARKS ? `${threads.length}×` : threads.join(","));
    });
    const element = made("span", "marks", words.join(" "));
    element.setAttribute("aria-hidden", "true");
    element.title = marks.map((mark) => mark.words).join("; ");
    return element;
  }

  /** Finds where each thread stands at the chosen call, and draws it. */
  showMarks() {
    const before = [...this.marks.keys()];
    this.marks = new Map();
    const own = this.trace.calls[this.chosen];
    this.threadsShown().forEach((thread) => this.markThread(thread, own));
    this.marks.forEach((marks) => marks.sort((a, b) => a.start - b.start || (a.sign === "▶" ? -1 : 1)));
    [...before, ...this.marks.keys()].forEach((line) => this.source.forget(line - 1));
    const isPlaced = own && own.line !== null;
    if (isPlaced) this.source.reveal(own.line - 1);
    else this.source.redraw();
  }

  /** Marks where a thread stands. A thread that makes no call stands at the first statement of its entry. */
  markThread(thread, own) {
    const { next, last } = this.trace.neighbours(thread, this.chosen);
    const entry = this.program.procedures.get(this.trace.setup.threads[thread]);
    const wait = this.trace.waitAfter(this.chosen, thread);
    if (wait) this.mark(wait, "‖", `thread ${thread}: it waits here for ever`);
    if (own && own.thread === thread) this.mark(own, "▶", `thread ${thread}: the chosen call`);
    else if (wait) return;
    else if (next !== undefined) this.mark(this.trace.calls[next], "▷", `thread ${thread}: its next statement`);
    else if (last !== undefined) this.mark(this.trace.calls[last], "✓", `thread ${thread}: its last statement`);
    else this.mark({ ...entry, thread }, "▷", `thread ${thread}: its next statement`);
  }

  /** Marks the lines of a call's statement. */
  mark(call, sign, words) {
    if (call.line === null) return;
    const { start, end } = this.states.statementOf(call);
    const isFailed = sign === "▶" && call.reply === "failed";
    const starts = this.program.starts;
    for (let line = call.line; line <= starts.length && starts[line - 1] < end; line += 1) {
      const mark = { thread: call.thread, start, end, sign, words, isFailed, isFirst: line === call.line };
      this.marks.set(line, [...(this.marks.get(line) ?? []), mark]);
    }
  }

  // The variables.

  showVariables(index) {
    const before = this.states.after(Math.max(index - 1, -1));
    const after = index < 0 ? before : this.states.after(index);
    const title = index < 0 ? "Variables at the start" : `Variables before and after call ${index + 1}`;
    const head = made("thead");
    head.append(this.tableRow("", ["variable", "before", "after", "since"], "col"));
    const globals = this.rowsOf("", this.states.globals, before.globals, after.globals);
    const own = this.trace.calls[index]?.thread;
    const threads = byId("all-threads").checked || own === undefined ? this.threadsShown() : [own];
    const stacks = threads.flatMap((thread) => this.stackOf(thread, before.tops[thread], after.tops[thread]));
    const groups = [["globals", globals], ...stacks].map(([name, rows, thread]) => this.group(name, rows, thread));
    byId("variables").replaceChildren(made("caption", "heard", title), head, ...groups.filter((it) => it));
  }

  /** A row for each variable of an owner: its name, its values before and after, and since which call it has that. */
  rowsOf(owner, names, before, after) {
    return names.map((name, at) => {
      const old = before ? before.values[at] : null;
      return { owner, name, old, value: after.values[at], since: after.since[at] };
    });
  }

  /** The frames of a thread after the call, from the top, each with its values before it. */
  stackOf(thread, before, top) {
    if (!top) return [[`thread ${thread} has ended`, [], thread]];
    const groups = [];
    let earlier = before;
    for (let frame = top; frame && groups.length < MAX_FRAMES; frame = frame.below) {
      while (earlier && earlier.depth > frame.depth) earlier = earlier.below;
      const same = earlier && earlier.depth === frame.depth ? earlier.locals : null;
      const rows = this.rowsOf(`${frame.procedure}.`, this.program.variablesOf(frame.procedure), same, frame.locals);
      groups.push([frame === top ? frame.procedure : `called by ${frame.procedure}`, rows, thread]);
    }
    const left = top.depth - groups.length;
    return left ? [...groups, [`and ${left} more frames`, [], thread]] : groups;
  }

  /** The rows of an owner under its name; nothing where the filter leaves none of them. */
  group(title, rows, thread) {
    const part = byId("variable").value;
    const fitting = rows.filter(({ owner, name }) => `${owner}${name}`.includes(part));
    if (part && !fitting.length) return null;
    const body = made("tbody");
    const heading = made("th");
    heading.colSpan = 4;
    heading.scope = "rowgroup";
    if (thread !== undefined) heading.append(badge(thread), " ");
    heading.append(title);
    if (!rows.length) heading.append(made("span", "faint", ": none"));
    body.append(made("tr"));
    body.firstChild.append(heading);
    body.append(...fitting.map((row) => this.variableRow(row)));
    return body;
  }

  variableRow({ owner, name, old, value, since }) {
    const isChanged = old !== value;
    const texts = [name, old === null ? "–" : String(old), String(value), since ? "" : "start"];
    const row = this.tableRow(isChanged ? "changed" : "", texts, "row");
    row.dataset.name = `${owner}${name}`;
    if (isChanged) row.cells[2].append(" ◂", made("span", "heard", old === null ? " new" : " changed"));
    if (since) {
      const link = made("a", "", String(since));
      link.href = `#call=${since}`;
      link.title = `has this value since call ${since}`;
      row.cells[3].append(link);
    }
    return row;
  }

  tableRow(name, texts, scope) {
    const row = made("tr", name);
    row.append(...texts.map((text, at) => {
      const isHead = scope === "col" || at === 0;
      const cell = made(isHead ? "th" : "td", "", text);
      if (isHead) cell.scope = scope;
      return cell;
    }));
    return row;
  }

  // The chosen call.

  choosePosition(position) {
    if (!this.shown.length) return;
    const at = Math.min(Math.max(position, 0), this.shown.length - 1);
    this.calls.forget(this.positionOf(this.chosen));
    this.calls.forget(at);
    this.chosen = this.shown[at];
    const call = this.trace.calls[this.chosen];
    const text = this.callText(call);
    byId("said").textContent = text;
    byId("number").value = call.number;
    byId("slider").value = at + 1;
    byId("slider").setAttribute("aria-valuetext", `call ${call.number} of ${this.trace.calls.length}`);
    byId("link").href = `#call=${call.number}`;
    this.calls.reveal(at);
    byId("calls-box").setAttribute("aria-activedescendant", `call-${call.number}`);
    this.showMarks();
    this.showVariables(this.chosen);
    this.overview.chosen = this.chosen;
    this.overview.draw();
    clearTimeout(this.linkDue);
    this.linkDue = setTimeout(() => history.replaceState(null, "", byId("link").href), LINK_DELAY);
  }

  /** Chooses a call, or the next one that is shown. */
  choose(index) {
    this.choosePosition(this.positionOf(index));
  }

  step(count) {
    this.choosePosition(this.positionOf(this.chosen) + count);
  }

  callText(call) {
    const entry = this.trace.setup.threads[call.thread];
    const context = call.context === null ? "no step" : `context ${call.context}${call.switch ? ", a switch" : ""}`;
    const place = call.line === null ? "" : `${placeOf(call)} `;
    const result = resultOf(call);
    const what = `${place}${statementText(call)}${result ? `: ${result}` : ""}`;
    return `Call ${call.number}: thread ${call.thread} (${entry}), ${context}: ${what}`;
  }

  followLink() {
    const found = /^#call=(\d+)$/.exec(location.hash);
    if (found && this.trace.calls.length) this.choose(Math.min(Number(found[1]), this.trace.calls.length) - 1);
  }

  /** Chooses the next call, or the one before, whose statement has the words that are looked for. */
  find(way) {
    const words = byId("find").value.toLowerCase();
    const fits = (index) => (this.trace.calls[index].statement ?? "").toLowerCase().includes(words);
    const count = this.shown.length;
    const here = this.positionOf(this.chosen);
    let at = 1;
    while (at <= count && !fits(this.shown[(here + way * at + count * at) % count])) at += 1;
    if (words === "") byId("said").textContent = "Write a part of a statement to look for.";
    else if (at > count) byId("said").textContent = `No statement that is shown has "${words}".`;
    else this.choosePosition((here + way * at + count * at) % count);
  }

  // Keys and buttons.

  listen() {
    const buttons = { first: () => this.choosePosition(0), previous: () => this.step(-1), next: () => this.step(1) };
    buttons.last = () => this.choosePosition(this.shown.length - 1);
    buttons.outcome = () => this.choose(this.trace.outcome);
    buttons.found = () => this.find(1);
    Object.entries(buttons).forEach(([name, does]) => byId(`go-${name}`).addEventListener("click", does));
    byId("number").addEventListener("change", () => this.choose(Math.max(1, Number(byId("number").value)) - 1));
    byId("slider").addEventListener("input", () => this.choosePosition(Number(byId("slider").value) - 1));
    byId("variable").addEventListener("input", () => this.filter());
    byId("changing").addEventListener("change", () => this.filter());
    byId("all-threads").addEventListener("change", () => this.showVariables(this.shown.length ? this.chosen : -1));
    byId("wraps").addEventListener("change", () => this.source.flow(byId("wraps").checked));
    byId("theme").addEventListener("change", () => this.showTheme());
    matchMedia("(prefers-color-scheme: dark)").addEventListener("change", () => this.showTheme());
    window.addEventListener("beforeprint", () => this.drawWhole(true));
    window.addEventListener("afterprint", () => this.drawWhole(false));
    byId("calls").addEventListener("click", (event) => {
      const row = event.target.closest(".call");
      if (row) this.choosePosition(Number(row.dataset.position));
    });
    window.addEventListener("hashchange", () => this.followLink());
    document.addEventListener("keydown", (event) => this.pressed(event));
  }

  showTheme() {
    chooseTheme();
    this.overview.draw();
  }

  /** Draws what a print shows: the whole source, and all calls where they are not too many. */
  drawWhole(isWhole) {
    this.source.drawWhole(isWhole);
    this.calls.drawWhole(isWhole && this.shown.length <= MAX_CALLS_PRINTED);
  }

  /** What a key does, where it is not one of the place that has the focus. */
  pressed(event) {
    const at = document.activeElement;
    const isText = at.matches('input[type="text"], input[type="number"]');
    if (isText && event.key === "Escape") byId("calls-box").focus();
    if (at.id === "find" && event.key === "Enter") this.find(1);
    if (isText || at.matches("select") || event.ctrlKey || event.altKey || event.metaKey) return;
    const scrolls = at.matches('.box:not([role="grid"]), input[type="range"]');
    const does = this.lettersDo()[event.key] ?? (scrolls ? null : this.movesDo()[event.key]);
    if (!does) return;
    event.preventDefault();
    does();
  }

  lettersDo() {
    return {
      f: () => this.trace.outcome >= 0 && this.choose(this.trace.outcome),
      "?": () => {
        byId("help").open = !byId("help").open;
        byId("help").scrollIntoView({ block: "nearest" });
      },
      "/": () => {
        byId("filters").open = true;
        byId("find").focus();
      },
      n: () => this.find(1),
      p: () => this.find(-1),
    };
  }

  movesDo() {
    return {
      ArrowDown: () => this.step(1),
      ArrowUp: () => this.step(-1),
      ArrowRight: () => this.choose(this.trace.otherContext(this.chosen, 1)),
      ArrowLeft: () => this.choose(this.trace.otherContext(this.chosen, -1)),
      PageDown: () => this.step(CALLS_OF_A_PAGE),
      PageUp: () => this.step(-CALLS_OF_A_PAGE),
      Home: () => this.choosePosition(0),
      End: () => this.choosePosition(this.shown.length - 1),
    };
  }
}

/** Opens the page of the data that it has. */
function start() {
  chooseTheme();
  const lines = byId("calls-data").textContent.trim().replaceAll("\n", ",");
  const source = atob(byId("source-data").textContent.replace(/\s/g, ""));
  const trace = new Trace(JSON.parse(`[${lines}]`));
  if (trace.setup.version !== VERSION) throw new Error(`its lines are of version ${trace.setup.version}`);
  new Page(trace, new Program(source));
  document.querySelectorAll(".handle").forEach(makeResizable);
  byId("calls-box").focus({ preventScroll: true });
  document.documentElement.dataset.ready = Math.round(performance.now());
}

try {
  start();
} catch (error) {
  byId("said").textContent = `This page cannot be shown: ${error.message}`;
  throw error;
}
