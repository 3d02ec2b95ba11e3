// What the page of wsc-serve asks about a text: workers make it, which ask the server for what the program answers.
const SERVED = JSON.parse(document.getElementById("data").textContent);
const hands = import("./hands.js").then(({Hands}) =>
  new Hands(() => new Worker("remote.js"), new URL("call", document.baseURI).href, {seconds: SERVED.seconds}));
async function work(task, args, signal) { return (await hands).ask(task, args, {signal}); }
