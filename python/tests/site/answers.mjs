// What a module answers in Node, for test_answers.py: `node answers.mjs FOLDER NAME` reads lines as JSON, each with its words and
// the bytes that it reads, and prints the answers of the program NAME.
import {readFileSync} from "node:fs";

const [folder, name] = process.argv.slice(2), bytes = text => new Uint8Array(Buffer.from(text, "base64"));
const {Host} = await import(`data:text/javascript;base64,${readFileSync(`${folder}/host.js`).toString("base64")}`);
const host = new Host(new WebAssembly.Module(readFileSync(`${folder}/${name}.wasm`)), name);
const told = JSON.parse(readFileSync(0, "utf8")).map(([words, input]) => {
  try {
    const {status, out, err} = host.call(words, bytes(input));
    return [status, Buffer.from(out).toString("base64"), Buffer.from(err).toString("base64")];
  } catch (fault) {
    return [String(fault), "", ""];
  }
});
process.stdout.write(JSON.stringify(told));
