// @ts-check
/**
 * What a worker of a page does: it calls the program, and makes what the page draws. It is told `{begin}` once, and then of
 * each task `{id, task, args}`; it answers `{id, told}` or `{id, fault}`.
 */
import {drawn} from "./drawn.js";
import {line, said} from "./said.js";
import {saved} from "./saved.js";
import {shown} from "./shown.js";

/** @typedef {import("./calls.js").Program} Program */

/**
 * What a task gives, by its name.
 * @type {Record<string, (program: Program, ...args: any[]) => unknown>}
 */
export const TASKS = {
  run: (program, words, text) => program.ask(words, text),
  line, said, drawn, saved,
  shown: (program, text, left, right) => shown(program, text, [left, right]),
};

/**
 * Makes this worker one that does so.
 * @param {(begin: any) => Program} programOf the program, from what the page tells first
 */
export function works(programOf) {
  /** @type {Program} */
  let program;
  self.onmessage = ({data}) => {
    if (data.begin) {
      program = programOf(data.begin);
      return;
    }
    const {id, task, args} = data;
    try {
      self.postMessage({id, told: TASKS[task](program, ...args)});
    } catch (fault) {
      self.postMessage({id, fault: fault instanceof Error ? fault.message : String(fault)});
    }
  };
}
