// The proved rules, compiled to WebAssembly, in a thread of their own, so that a long list keeps no button waiting. The
// page sends the module first, and then questions. Each gets its answer in turn, a text in JSON.

// How many bytes an answer may have at first. One that is longer is asked for again.
const CAPACITY = 1 << 20;
// The bytes of a handle, which begins as zeros.
const HANDLE = 16;
// The answer of a call that is done. No other has two bytes.
const DONE = "{}";

class Rules {
  constructor(module) {
    this.module = module;
    this.begin();
  }

  // Begins with a memory of its own, in which no plan is open.
  begin() {
    this.exports = new WebAssembly.Instance(this.module).exports;
    this.reserve(CAPACITY);
    [this.handle] = this.copied(new Uint8Array(HANDLE));
    this.close();
  }

  room(bytes) {
    const at = this.exports.room(BigInt(bytes));
    if (at === 0n) throw new Error("out of memory");
    return at;
  }

  // Takes memory for answers of so many bytes.
  reserve(capacity) {
    Object.assign(this, { capacity, answer: this.room(capacity) });
  }

  // Copies numbers of 8 or 32 bits into the module's memory. Returns the two arguments for them.
  copied(numbers) {
    const at = this.room(numbers.byteLength);
    new numbers.constructor(this.exports.memory.buffer, Number(at), numbers.length).set(numbers);
    return [at, BigInt(numbers.length)];
  }

  // Asks an export, and returns the length of its answer.
  ask(name, ...given) {
    return Number(this.exports[name](...given, this.answer, BigInt(this.capacity)));
  }

  // Returns what an export answers to numbers and lists. It is asked again if its answer has too little memory.
  call(name, ...given) {
    const lists = given.map((it) => (ArrayBuffer.isView(it) ? this.copied(it) : [it]));
    const length = this.ask(name, ...lists.flat());
    for (const [at, isList] of lists) if (isList !== undefined) this.exports.leave(at);
    if (length <= this.capacity) return this.text(length);
    this.exports.leave(this.answer);
    this.reserve(2 * length);
    return this.call(name, ...given);
  }

  // Returns the answer that was written last.
  text(length) {
    return new TextDecoder().decode(new Uint8Array(this.exports.memory.buffer, Number(this.answer), length));
  }

  events({ plan, list }) {
    return this.call("dine_events", new TextEncoder().encode(plan), list);
  }

  // The states after so many choices of the list, for each of the rising places.
  states({ plan, list, places }) {
    const states = [];
    for (const place of places) {
      const answer = this.open(plan) ?? this.go(list, place) ?? this.call("dine_now", this.handle);
      if (answer.startsWith('{"refused"')) return answer;
      states.push(answer);
    }
    return `[${states.join()}]`;
  }

  // Has the plan open. Returns the answer if that is refused, and else null.
  open(plan) {
    if (this.plan === plan) return null;
    this.close();
    const answer = this.call("dine_open", new TextEncoder().encode(plan), this.handle);
    if (answer !== DONE) return answer;
    this.plan = plan;
    return null;
  }

  close() {
    this.ask("dine_close", this.handle);
    Object.assign(this, { plan: null, done: [] });
  }

  // Does the choices of the list up to this place: from where it is, or from the start if it has done others. Returns
  // the answer if that is refused, and else null.
  go(list, place) {
    if (this.done.length > place || this.done.some((choice, n) => choice !== list[n])) {
      const answer = this.call("dine_restart", this.handle);
      if (answer !== DONE) return answer;
      this.done = [];
    }
    while (this.done.length < Math.min(place, list.length)) {
      const choice = list[this.done.length];
      const length = this.ask("dine_choose", this.handle, choice);
      if (length !== DONE.length) return this.text(length);
      this.done.push(choice);
    }
    return null;
  }

  // Answers a question of the page. After a trap the module begins anew.
  answerTo({ name, ...question }) {
    try {
      return this[name](question);
    } catch (fault) {
      this.begin();
      throw new Error(`the rules came to no answer: ${fault.message}`);
    }
  }
}

let rules = null;

addEventListener("message", ({ data }) => {
  if (data.module) {
    rules = new Rules(new WebAssembly.Module(data.module));
    return;
  }
  try {
    postMessage({ text: rules.answerTo(data) });
  } catch (fault) {
    postMessage({ fault: fault.message });
  }
});
