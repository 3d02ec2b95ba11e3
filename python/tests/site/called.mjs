// Calls the function `f` of small modules, for test_lower.py: reads the modules as JSON, each in hexadecimal, and prints what they
// give, as numbers without sign, or the fault.
import {readFileSync} from "node:fs";

const told = JSON.parse(readFileSync(0, "utf8")).map(hex => {
  try {
    const {f} = new WebAssembly.Instance(new WebAssembly.Module(Buffer.from(hex, "hex"))).exports;
    return String(BigInt.asUintN(64, f()));
  } catch (fault) {
    return String(fault);
  }
});
process.stdout.write(JSON.stringify(told));
