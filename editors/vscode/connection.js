// A language server as a child process, and messages to it: JSON behind a header with the length in bytes.
"use strict";
const {spawn} = require("child_process");

/** @typedef {{id?: number, method?: string, params?: any, result?: any, error?: {code: number, message: string}}} Message */

class Connection {
  /**
   * Starts the server. told: gets what it says without being asked; ended: gets why it has ended, where nobody ended it.
   * @param {string} command
   * @param {string[]} words
   * @param {(method: string, params: any) => void} told
   * @param {(why: string) => void} ended
   */
  constructor(command, words, told, ended) {
    this.told = told;
    this.count = 0;
    /** @type {Map<number, {resolve: (result: any) => void, reject: (fault: Error) => void}>} */
    this.waiting = new Map();
    this.rest = Buffer.alloc(0);
    this.isEnding = false;
    this.child = spawn(command, words, {stdio: ["pipe", "pipe", "ignore"]});
    this.child.stdin.on("error", () => {});  // its end is told by `exit`
    this.child.stdout.on("data", data => this.read(data));
    const end = why => {
      for (const {reject} of this.waiting.values()) reject(new Error(why));
      this.waiting.clear();
      if (!this.isEnding) ended(why);
      this.isEnding = true;
    };
    this.child.on("error", fault => end(`${command} can't be run: ${fault.message}`));
    this.child.on("exit", (status, signal) => end(`${command} ended with ${signal || `status ${status}`}`));
  }

  /** @param {Message} message */
  send(message) {
    const body = Buffer.from(JSON.stringify({jsonrpc: "2.0", ...message}));
    this.child.stdin.write(`Content-Length: ${body.length}\r\n\r\n`);
    this.child.stdin.write(body);
  }

  /** @param {string} method @param {any} params */
  notify(method, params) { this.send({method, params}); }

  /**
   * The result of a request; an error of the server is one here.
   * @param {string} method
   * @param {any} params
   * @param {{onCancellationRequested: (act: () => void) => void}} [token]
   * @returns {Promise<any>}
   */
  ask(method, params, token) {
    const id = ++this.count;
    if (token) token.onCancellationRequested(() => this.notify("$/cancelRequest", {id}));
    return new Promise((resolve, reject) => {
      this.waiting.set(id, {resolve, reject});
      this.send({id, method, params});
    });
  }

  /** @param {Buffer} data */
  read(data) {
    this.rest = this.rest.length ? Buffer.concat([this.rest, data]) : data;
    for (;;) {
      const head = this.rest.indexOf("\r\n\r\n");
      if (head < 0) return;
      const found = /Content-Length: *(\d+)/i.exec(this.rest.toString("latin1", 0, head));
      const begin = head + 4, end = begin + Number(found ? found[1] : 0);
      if (this.rest.length < end) return;
      const body = this.rest.toString("utf8", begin, end);
      this.rest = this.rest.subarray(end);
      if (found) this.take(JSON.parse(body));
    }
  }

  /** @param {Message} message */
  take(message) {
    if (message.method !== undefined) return this.told(message.method, message.params);
    const asked = this.waiting.get(message.id);
    this.waiting.delete(message.id);
    if (!asked) return;
    if (message.error) asked.reject(new Error(message.error.message));
    else asked.resolve(message.result);
  }

  /** Ends the server, as the protocol has it. */
  async stop() {
    if (this.isEnding) return;
    this.isEnding = true;
    const ended = new Promise(done => this.child.on("exit", done));
    await this.ask("shutdown", null).catch(() => {});
    this.notify("exit", null);
    setTimeout(() => this.child.kill(), 2000).unref();
    await ended;
  }
}

module.exports = {Connection};
