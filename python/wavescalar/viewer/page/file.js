// @ts-check
/**
 * What a page that stands in a file shows. It has texts: an assembly with its input and its trace, the job that it was made
 * of, and what the program answered when the page was made. All else is computed here.
 */
import {read} from "./image.js";
import {orderOf, runOf, titleOf} from "./orders.js";
import {compared} from "./shown.js";
import {stillOf} from "./still.js";

/** @typedef {import("./still.js").Found} Found */
/**
 * order: the name of an order, or nothing where no event is to happen. most: events at most. budget: firings of a grid at
 * most. found: what was found of the job's statements.
 * @typedef {{text: string, job: string, order: string, most: number, budget: number, found: Found}} Given
 */
/**
 * orders: the names of two. replayed: what `wsc replay` answered to each.
 * @typedef {{text: string, job: string, orders: string[], most: number, replayed: string[], found: Found}} Two
 */

/**
 * One run, step by step.
 * @param {Given} given
 */
export function pageOf({text, job, order, most, budget, found}) {
  const image = read(text);
  if (!order) image.trace = null;
  return {...stillOf(image, job, found), ...runOf(orderOf(order || "trace", image, most, budget))};
}

/**
 * Two orders of one run beside each other.
 * @param {Two} given
 */
export function twoOf({text, job, orders, most, replayed, found}) {
  const image = read(text), made = orders.map(it => orderOf(it, image, most));
  const runs = made.map((it, k) => ({order: orders[k], title: titleOf(orders[k]), replayed: replayed[k], ...runOf(it)}));
  return {runs, compared: compared(made[0], made[1]), still: stillOf(image, job, found)};
}
