// What moves on the page: steps, one after another, at a speed that can be changed, paused, or taken to the end.

const SPEEDS = [1, 2, 4, 8, 15, 30, 60, Infinity];
// Timers that are due sooner than a picture is shown would be of no use.
const SHORTEST = 16;

export class Motion {
  constructor() {
    this.at = 3;
    this.paused = false;
    this.now = null;
    this.timer = 0;
  }

  get speed() {
    return SPEEDS[this.at];
  }

  /** Begins something: `step` shows its next step, and returns whether there is one; `end` shows how it ends. The first step is
   * shown at once. */
  begin(now) {
    this.finish();
    this.now = now;
    this.next();
  }

  next() {
    if (this.speed === Infinity) {
      this.finish();
    } else if (this.now.step()) {
      this.wait();
    } else {
      this.finish();
    }
  }

  /** Shows the next step now. */
  step() {
    if (this.now) {
      this.next();
    }
  }

  wait() {
    clearTimeout(this.timer);
    if (this.now && !this.paused) {
      this.timer = setTimeout(() => this.next(), Math.max(SHORTEST, 1000 / this.speed));
    }
  }

  /** Takes what moves to its end. */
  finish() {
    clearTimeout(this.timer);
    const { now } = this;
    this.now = null;
    now?.end();
  }

  pause(paused) {
    this.paused = paused;
    this.wait();
  }

  /** Makes it faster, or slower if `by` is negative. */
  change(by) {
    this.at = Math.min(Math.max(this.at + by, 0), SPEEDS.length - 1);
    if (this.speed === Infinity) {
      this.finish();
    }
    this.wait();
  }
}
