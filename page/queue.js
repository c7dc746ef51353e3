// One thing after the other: what the reader asks for while the program is at work waits for its turn.

// How many things may wait, so that a key that is held down does not run ahead.
const WAITING = 12;

export class Queue {
  // `parts` has the element that says that the page is at work, and what is done with a fault.
  constructor(parts) {
    Object.assign(this, parts, { tail: Promise.resolve(), waiting: 0, passed: 0 });
  }

  // Does the work once all before it is done, and reports its fault. Returns once it is done.
  do(work) {
    if (this.waiting >= WAITING) {
      this.passed += 1;
      return this.tail;
    }
    this.waiting += 1;
    this.busy.setAttribute("aria-busy", "true");
    const done = this.tail.then(work).then(() => this.ended(null), (fault) => this.ended(fault));
    this.tail = done.finally(() => this.end());
    return this.tail;
  }

  end() {
    this.waiting -= 1;
    if (this.waiting > 0) return;
    this.busy.setAttribute("aria-busy", "false");
    if (this.passed > 0) this.note(`${this.passed} presses came too fast, and were passed over`);
    this.passed = 0;
  }
}

// Plays steps, so many in a second.
export class Player {
  constructor({ button, step, rate }) {
    Object.assign(this, { button, step, rate, isPlaying: false, timer: null });
  }

  play() {
    if (this.isPlaying) {
      this.pause();
      return;
    }
    this.isPlaying = true;
    this.button.textContent = "Pause";
    this.playOn();
  }

  async playOn() {
    if (!this.isPlaying) return;
    const begun = performance.now();
    await this.step();
    const left = 1000 / this.rate() - (performance.now() - begun);
    if (this.isPlaying) this.timer = setTimeout(() => this.playOn(), Math.max(0, left));
  }

  pause() {
    this.isPlaying = false;
    clearTimeout(this.timer);
    if (this.button.textContent !== "Play") this.button.textContent = "Play";
  }
}
