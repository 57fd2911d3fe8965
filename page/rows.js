// Lists of rows, of which only those that are seen are drawn.

const SPARE_ROWS = 8;

/** Rows in a box that scrolls. If they have one height, only those that are seen are in the page. */
class Rows {
  constructor(box, body, draw) {
    Object.assign(this, { box, body, draw, count: 0, kept: -1, drawn: new Map() });
    box.addEventListener("scroll", () => this.redrawSoon());
    new ResizeObserver(() => this.redrawSoon()).observe(box);
  }

  redrawSoon() {
    if (this.isDue) return;
    this.isDue = true;
    requestAnimationFrame(() => this.redraw());
  }

  get height() {
    const row = getComputedStyle(this.body).getPropertyValue("--row");
    return parseFloat(row) * parseFloat(getComputedStyle(document.documentElement).fontSize);
  }

  /** Takes a row out of the page, so that it is drawn anew. */
  forget(position) {
    this.drawn.get(position)?.remove();
    this.drawn.delete(position);
  }

  forgetAll() {
    this.drawn.clear();
    this.body.replaceChildren();
  }

  redraw() {
    this.isDue = false;
    const height = this.height;
    if (height !== this.heightDrawn) this.forgetAll();
    this.heightDrawn = height;
    const first = Math.max(0, Math.floor(this.box.scrollTop / height) - SPARE_ROWS);
    const seen = Math.ceil(this.box.clientHeight / height) + 2 * SPARE_ROWS;
    const length = Math.max(0, Math.min(seen, this.count - first));
    const isWhole = this.isWhole || this.isFlowing;
    const positions = isWhole ? this.count : length;
    const wanted = new Set(Array.from({ length: positions }, (_, at) => (isWhole ? 0 : first) + at));
    if (this.kept >= 0 && this.kept < this.count) wanted.add(this.kept);
    this.body.style.height = this.isFlowing ? "auto" : `${this.count * height}px`;
    [...this.drawn.keys()].filter((position) => !wanted.has(position)).forEach((position) => this.forget(position));
    this.drawEach([...wanted].sort((a, b) => b - a), height);
  }

  /** Draws the rows that are not there, from the last to the first, so that each stands before the one after it. */
  drawEach(positions, height) {
    let next = null;
    for (const position of positions) {
      const row = this.drawn.get(position) ?? this.draw(position);
      if (!this.drawn.has(position)) {
        row.style.top = `${position * height}px`;
        this.drawn.set(position, row);
        this.body.insertBefore(row, next);
      }
      next = row;
    }
  }

  /** Draws all rows, for print, or only those that are seen. */
  drawWhole(isWhole) {
    this.isWhole = isWhole;
    this.redraw();
  }

  /** Gives each row the height of its text, or all rows one height. With heights of their own all are in the page. */
  flow(isFlowing) {
    this.isFlowing = isFlowing;
    this.box.classList.toggle("flowing", isFlowing);
    this.redraw();
    if (this.kept >= 0) this.reveal(this.kept);
  }

  /** How far from the top a row is. */
  topOf(position) {
    return this.isFlowing ? this.drawn.get(position).offsetTop : position * this.height;
  }

  /** Scrolls to a row, which stays in the page from now on, also where it is not seen. */
  reveal(position) {
    this.kept = position;
    this.redraw();
    const height = this.height;
    const seen = this.box.clientHeight - this.body.offsetTop - height;
    const top = this.topOf(position);
    const isSeen = top >= this.box.scrollTop + height && top <= this.box.scrollTop + seen - height;
    if (isSeen) return;
    this.box.scrollTop = top - seen / 2;
    this.redraw();
  }
}
