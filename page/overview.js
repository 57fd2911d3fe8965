// The contexts of the whole trace in a strip.

/** A strip above the calls: each context at its place in the trace, in the lane of its thread. */
class Overview {
  constructor(canvas, trace, choose) {
    Object.assign(this, { canvas, trace, contexts: trace.contexts(), chosen: 0 });
    canvas.addEventListener("click", (event) => {
      choose(Math.floor((event.offsetX / canvas.clientWidth) * trace.calls.length));
    });
    this.laneOf = new Map(trace.threadsWithCalls().map((thread, at) => [thread, at]));
    canvas.style.height = `max(1.25rem, ${2 * this.laneOf.size}px)`;
    new ResizeObserver(() => this.draw()).observe(canvas);
  }

  /** Where the call at an index begins, in pixels of the canvas. */
  left(index) {
    return (index / Math.max(1, this.trace.calls.length)) * this.canvas.width;
  }

  draw() {
    this.canvas.width = this.canvas.clientWidth * devicePixelRatio;
    this.canvas.height = this.canvas.clientHeight * devicePixelRatio;
    const pen = this.canvas.getContext("2d");
    const style = getComputedStyle(this.canvas);
    const height = this.canvas.height / Math.max(1, this.laneOf.size);
    for (const { thread, first, last } of this.contexts) {
      pen.fillStyle = `hsl(${hueOf(thread)} 45% ${style.getPropertyValue("--edge-light")})`;
      const width = Math.max(1, this.left(last + 1) - this.left(first));
      pen.fillRect(this.left(first), this.laneOf.get(thread) * height, width, Math.max(1, height - devicePixelRatio));
    }
    this.line(pen, this.trace.outcome, style.getPropertyValue("--failure"), [4, 2]);
    this.line(pen, this.chosen, style.getPropertyValue("--ink"), []);
  }

  /** A line across the strip in the middle of a call: whole, or broken for the failure or the deadlock. */
  line(pen, index, colour, dashes) {
    if (index < 0) return;
    const middle = (this.left(index) + this.left(index + 1)) / 2;
    pen.strokeStyle = colour;
    pen.lineWidth = 2 * devicePixelRatio;
    pen.setLineDash(dashes);
    pen.beginPath();
    pen.moveTo(middle, 0);
    pen.lineTo(middle, this.canvas.height);
    pen.stroke();
  }
}
