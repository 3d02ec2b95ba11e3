// @ts-check
/**
 * Workers of a page. What a program does it does there, so that the page answers meanwhile, and whoever waits no more can
 * end it.
 */

/** @typedef {import("./calls.js").Answer} Answer */
/** @typedef {{id: number, task: string, args: unknown[], done: (told: any) => void, failed: (fault: Error) => void}} Task */
/**
 * A worker, with what it is at.
 * @typedef {{worker: Worker, task: Task | null, timer: number}} Hand
 */

/** Workers at a time, at most. */
export const MANY = 3;

/** A program, and the workers that call it. */
export class Hands {
  /**
   * @param {() => Worker} worker makes a worker (hand.js)
   * @param {unknown} told what each is told first
   * @param {{spare?: Worker[], seconds?: number}} options spare: workers that have nothing to do yet; seconds: after so many
   * a task is ended
   */
  constructor(worker, told, {spare, seconds}) {
    this.worker = worker;
    this.told = told;
    this.spare = spare || [];
    this.seconds = seconds || 0;
    /** @type {Hand[]} */
    this.hands = [];
    /** @type {Task[]} */
    this.waiting = [];
    this.count = 0;
  }

  /**
   * Calls the program as a shell does.
   * @param {string[]} words the words behind its name
   * @param {string} text what it reads
   * @param {{signal?: AbortSignal}} [options] signal: ends the call, which then fails with the signal's reason
   * @returns {Promise<Answer>}
   */
  run(words, text, options) { return this.ask("run", [words, text], options); }

  /**
   * Has a worker do one of its tasks (hand.js).
   * @param {string} task
   * @param {unknown[]} args
   * @param {{signal?: AbortSignal}} [options]
   * @returns {Promise<any>}
   */
  ask(task, args, options) {
    const {signal} = options || {};
    return new Promise((done, failed) => {
      if (signal && signal.aborted) { failed(signal.reason); return; }
      const it = {id: ++this.count, task, args, done, failed};
      if (signal) signal.addEventListener("abort", () => this.end(it, signal.reason), {once: true});
      this.waiting.push(it);
      this.next();
    });
  }

  /** Hands what waits to workers that are free. */
  next() {
    while (this.waiting.length) {
      const hand = this.hands.find(it => !it.task) || (this.hands.length < MANY ? this.begun() : null);
      if (!hand) return;
      const it = hand.task = /** @type {Task} */ (this.waiting.shift());
      if (this.seconds)
        hand.timer = setTimeout(() => this.end(it, new Error(`This takes longer than it may (${this.seconds} s), and was ended.`)),
          1000 * this.seconds);
      hand.worker.postMessage({id: it.id, task: it.task, args: it.args});
    }
  }

  /**
   * A worker more.
   * @returns {Hand}
   */
  begun() {
    /** @type {Hand} */
    const hand = {worker: this.spare.pop() || this.worker(), task: null, timer: 0};
    hand.worker.postMessage({begin: this.told});
    hand.worker.onmessage = ({data}) => {
      const {task} = hand;
      if (!task || task.id !== data.id) return;
      clearTimeout(hand.timer);
      hand.task = null;
      if ("fault" in data) task.failed(new Error(data.fault)); else task.done(data.told);
      this.next();
    };
    hand.worker.onerror = fault => {
      if (hand.task) this.end(hand.task, new Error(fault.message || "the worker can't be loaded"));
    };
    this.hands.push(hand);
    return hand;
  }

  /**
   * Ends a task, with the worker that is at it.
   * @param {Task} task
   * @param {Error} why
   */
  end(task, why) {
    const hand = this.hands.find(it => it.task === task);
    this.waiting = this.waiting.filter(it => it !== task);
    if (hand) {
      clearTimeout(hand.timer);
      hand.worker.terminate();
      this.hands = this.hands.filter(it => it !== hand);
    }
    task.failed(why);
    this.next();
  }
}
