// @ts-check
/** The worker of the page of wsc-serve, whose server calls the program. */
import {works} from "./hand.js";

/**
 * The program, each call of which is a request to an address.
 * @param {string} address
 * @returns {import("./calls.js").Program}
 */
const remote = address => ({
  name: "wsc",
  ask(words, text) {
    const asked = new XMLHttpRequest();
    asked.open("POST", `${address}?${new URLSearchParams(words.map(it => ["word", it]))}`, false);
    asked.setRequestHeader("Content-Type", "application/octet-stream");
    try {
      asked.send(new TextEncoder().encode(text));
    } catch {
      throw new Error("The server doesn't answer: was it ended?");
    }
    const told = JSON.parse(asked.responseText);
    if (told.fault) throw new Error(told.fault);
    return told;
  },
});

works(remote);
