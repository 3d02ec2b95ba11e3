// @ts-check
/**
 * What the program says of a text. A job is run statement by statement, and its image with one worker and with eight; an
 * assembly is run with one and with eight. A refusal has its place in the text, in the units that a page counts by.
 */
import {kindOf, linesOf, sections, units} from "./image.js";
import {assemblyOf, refusal} from "./calls.js";
import {ofEnd, ofRefusal} from "./refusals.js";

/** @typedef {import("./calls.js").Program} Program */
/** @typedef {{name: string, status: number, answer: string, words: string[], end: string, arrays: string[], numbers: string[], said: string[]}} Run */
/**
 * A place in a text: its line from 1, and the units between which it lies.
 * @typedef {{line: number, from: number, to: number}} Place
 */

const BUDGET = 500000, TURNS = 500000, WORKERS = [1, 8];
const REFUSED = 2, BUDGET_SPENT = 3, FAULT = 8;
/** So many words are told at most. */
const MOST_WORDS = 2000;

/**
 * The lines of wsc that are compared, each with what it is in words.
 * @param {string} kind
 * @returns {[string[], string][]}
 */
function waysOf(kind) {
  const run = kind === "job" ? "run" : "exec";
  /** @type {[string[], string][]} */
  const plain = [[["plain", "--turns", String(TURNS), "--memory", "--stats"], "wsc plain: statement by statement"]];
  const crews = WORKERS.map(n => /** @type {[string[], string]} */ (
    [[run, "--workers", String(n), "--budget", String(BUDGET), "--memory", "--stats"],
     `wsc ${run}: tokens, ${n} worker${n > 1 ? "s" : ""}`]));
  return kind === "job" ? [...plain, ...crews] : crews;
}

/**
 * The words of an answer, its end, its arrays, and its numbers.
 * @param {string} answer
 */
function parted(answer) {
  const lines = linesOf(answer.replace(/\n$/, "")), isWord = (/** @type {string} */ line) => /^\d+$/.test(line);
  const rest = lines.filter(line => !isWord(line)), numbers = rest.filter(line => /^(firings|turns) \d+$/.test(line));
  const arrays = rest.filter(line => line.includes(" = ["));
  const end = rest.filter(line => !numbers.includes(line) && !arrays.includes(line)).join(" ");
  return {words: lines.filter(isWord), end, arrays, numbers};
}

/**
 * Where the text is refused; nothing where no place is told.
 * @param {string} answer
 * @param {string} text
 * @returns {Place | null}
 */
function placeOf(answer, text) {
  const found = /^refused (\d+)(?::(\d+))?/.exec(answer);
  if (!found) return null;
  const number = Number(found[1]), column = Number(found[2] || 0), own = text.split("\n");
  const front = own.slice(0, number - 1).reduce((sum, line) => sum + line.length + 1, 0), line = linesOf(text)[number - 1] || "";
  if (!column) return {line: number, from: front, to: front + line.length};
  const begin = units(line, column - 1), word = /^(?:\w+|\S?)/.exec(line.slice(begin));
  return {line: number, from: front + begin, to: front + begin + (word ? word[0].length : 0)};
}

/**
 * @param {string} answer
 * @param {string} text
 * @param {string} command
 */
const refused = (answer, text, command) =>
  ({refused: answer.trim(), said: ofRefusal(answer, text, command), place: placeOf(answer, text)});

/**
 * What a line of wsc answers.
 * @param {Program} program
 * @param {string[]} words
 * @param {string} name
 * @param {string} text
 * @returns {Run}
 */
function runOf(program, words, name, text) {
  const made = program.ask(words, text);
  if (![0, REFUSED, BUDGET_SPENT, FAULT].includes(made.status)) throw refusal(words[0], made);
  return {name, status: made.status, answer: made.out, ...parted(made.out), said: ofEnd(made.status, made.out, words[0])};
}

/**
 * Whether two runs have the same words, end and arrays; the same words as far as both came, where one was ended by its bound.
 * @param {Run} run
 * @param {Run} first
 */
function alike(run, first) {
  if ([first.status, run.status].includes(BUDGET_SPENT)) {
    const most = Math.min(first.words.length, run.words.length);
    return run.words.slice(0, most).join() === first.words.slice(0, most).join();
  }
  return run.words.join() === first.words.join() && run.end === first.end && run.arrays.join() === first.arrays.join();
}

/**
 * All that is told of a text.
 * @param {Program} program
 * @param {string} text
 * @returns {Record<string, any>}
 */
export function said(program, text) {
  const kind = kindOf(text);
  if (kind === "trace") {
    const {status, out} = program.ask(["replay"], text), told = {kind, answer: out.trim()};
    return status === REFUSED ? {...told, ...refused(out, text, "replay")} : {...told, runs: []};
  }
  /** @type {Run[]} */
  const runs = [];
  for (const [words, name] of waysOf(kind)) {
    const run = runOf(program, words, name, text);
    if (run.status === REFUSED) return {kind, ...refused(run.answer, text, words[0])};
    runs.push(run);
  }
  const same = runs.every(run => alike(run, runs[0]));
  const told = runs.map(({answer, words, ...run}) => ({...run, many: words.length, words: words.slice(0, MOST_WORDS)}));
  const assembly = linesOf(sections(assemblyOf(program, text))[0].lines.join("\n"));
  return {kind, runs: told, same, assembly};
}

/** The commands that read an assembly; of a job they are given what it compiles to. */
const OF_ASSEMBLY = ["check", "list", "exec", "decouple", "grid", "trace", "replay"];

/**
 * What a line of the program answers over a text: of a refusal also what it says, and its place. `piped` tells the lines
 * before it, where the text is a job and the command reads an assembly or a trace. A program beside wsc is given the text as
 * it stands; the draft that wsl reads ends before `%input`.
 * @param {Program} program @param {string[]} words @param {string} text
 */
export function line(program, words, text) {
  if (program.name === "wsl") return drafted(program, text);
  if (program.name !== "wsc") {
    const made = program.ask(words, text);
    return {...made, piped: "", ...told(made.status, made.out, text, "")};
  }
  const [command] = words, isPiped = OF_ASSEMBLY.includes(command) && kindOf(text) === "job";
  let [own, piped] = [text, ""];
  if (isPiped) {
    const compiled = program.ask(["compile"], text);
    if (compiled.status) return {...compiled, piped: "wsc compile: ", ...told(compiled.status, compiled.out, text, "compile")};
    own = ["check", "list"].includes(command) ? compiled.out : assemblyOf(program, text);
    piped = `wsc compile | wsc ${command}: `;
    if (command === "replay") [own, piped] = [program.ask(["trace"], own).out, "wsc compile | wsc trace | wsc replay: "];
  }
  const made = program.ask(words, own);
  return {...made, piped, ...told(made.status, made.out, own, command), ...isPiped ? {place: null} : {}};
}

/**
 * What wsl answers to a draft, with the sections of the text behind its image.
 * @param {Program} program
 * @param {string} text
 */
function drafted(program, text) {
  const [draft, given] = sections(text), made = program.ask([], `${draft.lines.join("\n").replace(/\n+$/, "")}\n`);
  const out = made.status === 0 && given ? [`${made.out}%input`, ...given.lines].join("\n") : made.out;
  return {...made, out, piped: "", ...told(made.status, made.out, text, "")};
}

/**
 * @param {number} status
 * @param {string} answer
 * @param {string} text
 * @param {string} command
 */
function told(status, answer, text, command) {
  if (status !== REFUSED) return {said: ofEnd(status, answer, command), place: null};
  return {said: ofRefusal(answer, text, command), place: placeOf(answer, text)};
}
