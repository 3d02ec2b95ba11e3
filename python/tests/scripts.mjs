// Calls the modules of the pages in Node, for scripts.py: `node scripts.mjs BUNDLE PROGRAM`. BUNDLE is a script that gives CALLS,
// functions by their names; each takes the program, which is asked as in a worker of a page, and its own arguments. A line of
// standard input is a call as JSON, its name with its arguments; a line of standard output is `[what it gives]`, or the fault.
import {spawnSync} from "node:child_process";
import {readFileSync} from "node:fs";
import {createInterface} from "node:readline";

const [bundle, program] = process.argv.slice(2), text = new TextDecoder("utf-8", {ignoreBOM: true});
const calls = new Function(`${readFileSync(bundle, "utf8")}; return CALLS;`)();
const wsc = {
  name: "wsc",
  ask(words, given) {
    const ran = spawnSync(program, words, {input: given, maxBuffer: 2 ** 30});
    if (ran.error && ran.error.code !== "EPIPE") throw ran.error;
    return {status: ran.status, out: text.decode(ran.stdout), err: text.decode(ran.stderr)};
  },
};
for await (const line of createInterface({input: process.stdin})) {
  const [name, args] = JSON.parse(line);
  let told;
  try {
    told = JSON.stringify([calls[name](wsc, ...args)]);
  } catch (fault) {
    told = JSON.stringify(`${fault.constructor.name}: ${fault.message}`);
  }
  process.stdout.write(`${told}\n`);
}
