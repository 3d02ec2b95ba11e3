"use strict";
const data = JSON.parse(document.getElementById("data").textContent);
const $ = (id) => document.getElementById(id);
const COLOURS = ["#9a6b00", "#8fb8d8", "#5a9bc9", "#0072b2", "#00507e", "#002f4d", "#00805c", "#b9d9c9", "#b0437f",
  "#c8500a", "#6fbf9f", "#33a37c", "#6a4fb3", "#a33030", "#e0a800"];
let cycle = 1, soFar = false, allWays = false, picked = -1, timer = 0;

// events by cycle, and for each element the cycles in which it fires
const byCycle = new Map(), fires = data.places.map(() => []);
for (const event of data.events) {
  if (!byCycle.has(event[0])) byCycle.set(event[0], []);
  byCycle.get(event[0]).push(event);
  if (event[1] < 2) fires[event[2]].push(event[0]);
}
const moments = [...byCycle.keys()].sort((a, b) => a - b);

// The first place of a sorted list whose value, by `of`, isn't below this one.
function from(list, value, of = (it) => it) {
  let low = 0, high = list.length;
  while (low < high) {
    const middle = (low + high) >> 1;
    if (of(list[middle]) < value) low = middle + 1; else high = middle;
  }
  return low;
}

function make(kind, parent, attributes, text) {
  const it = document.createElementNS("http://www.w3.org/2000/svg", kind);
  for (const [name, value] of Object.entries(attributes)) it.setAttribute(name, value);
  if (text !== undefined) it.textContent = text;
  parent.appendChild(it);
  return it;
}

// The middle of an element, or of the store buffer of a cluster.
function middle(place) {
  if (place >= 0) return [data.places[place][0] + 0.45, data.places[place][1] + 0.45];
  const [x, y] = data.corners[~place], [wide, high] = data.cluster;
  return [x + wide / 2 - 0.25, y + high - 0.1];
}

function still() {
  const svg = document.querySelector("#view svg"), [wide, high] = data.cluster;
  svg.setAttribute("viewBox", `-0.8 -1 ${data.size[0] + 0.8} ${data.size[1] + 1}`);
  data.corners.forEach(([x, y], at) => {
    make("rect", $("frames"), { class: "cluster", x: x - 0.3, y: y - 0.3, width: wide + 0.1, height: high + 0.55, rx: 0.15 });
    make("text", $("frames"), { class: "cluster-name", x: x - 0.25, y: y - 0.42 }, `cluster ${at}`);
    make("rect", $("frames"), { class: "buffer", x, y: y + high - 0.25, width: wide - 0.5, height: 0.3, rx: 0.08 });
  });
  data.places.forEach(([x, y], at) => {
    const it = make("rect", $("squares"), { class: "element", x, y, width: 0.9, height: 0.9, rx: 0.08 });
    make("title", it, {}, `element ${at}: busy in ${data.busy[at]} of ${data.all} cycles`);
    it.addEventListener("click", () => { picked = at; show(cycle); });
  });
  for (const [name, cycles, what] of data.parts) {
    if (!cycles) continue;
    const at = data.parts.findIndex((part) => part[0] === name), row = $("parts").insertRow();
    row.title = what;
    row.dataset.part = at;
    row.innerHTML = `<td><span class="swatch" style="background:${COLOURS[at]}"></span></td><td>${name}</td>` +
      `<td>${cycles}</td><td>${(100 * cycles / data.all).toFixed(1)}%</td>`;
    row.addEventListener("click", () => {
      const next = data.bounds.find((bound, k) => bound[1] === at && (k ? data.bounds[k - 1][0] : 0) + 1 > cycle) ||
        data.bounds.find((bound) => bound[1] === at);
      if (next) { const k = data.bounds.indexOf(next); show((k ? data.bounds[k - 1][0] : 0) + 1); }
    });
  }
  for (const line of data.facts) $("facts").appendChild(document.createElement("p")).textContent = line.replace(/ +/g, " ");
  $("said").textContent = data.said + (data.cycles < data.all ? `; the first ${data.cycles} of ${data.all} cycles` : "");
  $("slider").max = data.cycles;
}

function charts() {
  const wide = $("track").clientWidth || 600;
  for (const id of ["chart", "band"]) $(id).width = wide;
  const ink = $("chart").getContext("2d"), counts = new Array(wide).fill(0), seen = new Array(wide).fill(0);
  const column = (at) => Math.min(wide - 1, Math.floor((at - 1) * wide / data.cycles));
  for (const event of data.events) if (event[1] < 2) counts[column(event[0])] += 1;
  for (let at = 1; at <= data.cycles; at += 1) seen[column(at)] += 1;
  const means = counts.map((many, at) => many / Math.max(seen[at], 1)), top = Math.max(...means, 0.001);
  ink.fillStyle = "#8fb8d8";
  means.forEach((mean, at) => ink.fillRect(at, 34 - 33 * mean / top, 1, 33 * mean / top));
  const band = $("band").getContext("2d");
  let begun = 0;
  for (const [end, part] of data.bounds) {
    band.fillStyle = COLOURS[part];
    band.fillRect(begun * wide / data.cycles, 0, Math.max((end - begun) * wide / data.cycles, 0.5), 12);
    begun = end;
  }
}

function shade(part) {
  const mix = (low, high) => Math.round(low + (high - low) * part);
  return `rgb(${mix(240, 0)},${mix(244, 114)},${mix(247, 178)})`;
}

function heat() {
  const busy = soFar ? fires.map((those) => from(those, cycle + 1)) : data.busy, most = Math.max(...busy, 1);
  [...$("squares").children].forEach((it, at) => {
    it.setAttribute("fill", shade(Math.sqrt(busy[at] / most)));
    it.classList.toggle("picked", at === picked);
  });
}

function line(a, b, more) {
  const [x, y] = middle(a), [to, down] = middle(b), bend = 0.12 * Math.hypot(to - x, down - y);
  const lean = Math.atan2(down - y, to - x) - Math.PI / 2;
  const over = [(x + to) / 2 + bend * Math.cos(lean), (y + down) / 2 + bend * Math.sin(lean)];
  make("path", $("lines-of-ways"), { class: "flight", d: `M${x} ${y}Q${over} ${to} ${down}`, ...more });
  return [to, down];
}

function ways() {
  $("lines-of-ways").replaceChildren();
  if (allWays) {
    const most = Math.max(...data.traffic.map((way) => way[2]), 1);
    for (const [a, b, many] of data.traffic) {
      const part = many / most;
      line(a, b, { style: `stroke-width:${0.03 + 0.25 * part};opacity:${0.25 + 0.6 * part}` });
    }
    return data.traffic.length;
  }
  let count = 0;
  // no operand is on its way for longer than this
  for (let at = from(data.ways, cycle - longest, (way) => way[0]); at < data.ways.length; at += 1) {
    const [left, came, a, b] = data.ways[at];
    if (left >= cycle) break;
    if (came < cycle) continue;
    count += 1;
    if (a === b || count > 400) continue;
    const age = (cycle - left) / Math.max(came - left, 1);
    const [x, y] = line(a, b, { style: `opacity:${1 - 0.6 * age}` });
    make("circle", $("lines-of-ways"), { class: "flight-end", cx: x, cy: y, r: 0.1 });
  }
  return count;
}
const longest = data.ways.reduce((most, way) => Math.max(most, way[1] - way[0]), 0);

function marks(here) {
  $("marks").replaceChildren();
  for (const [, kind, place, name] of here) {
    const [x, y] = middle(place), wide = kind < 2 ? 0.9 : data.cluster[0] - 0.5, high = kind < 2 ? 0.9 : 0.3;
    const left = kind < 2 ? x - 0.45 : data.corners[~place][0], top = kind < 2 ? y - 0.45 : y - 0.15;
    make("rect", $("marks"), { class: "fired", x: left, y: top, width: wide, height: high, rx: 0.08 });
    make("text", $("marks"), { class: "fired-name", x, y: y + 0.1 }, name.replace(/^thread \d+ /, "").split(/[ ,]/)[1]);
  }
}

const WORDS = ["fires", "sends its address", "is issued", "is done in its queue"];

function show(to) {
  cycle = Math.min(Math.max(to, 1), data.cycles);
  const here = byCycle.get(cycle) || [], bound = data.bounds[from(data.bounds, cycle, (piece) => piece[0])];
  heat();
  const count = ways();
  marks(here);
  $("now").textContent = here.map(([, kind, place, name]) =>
    `${place >= 0 ? "element " + place : "buffer " + ~place}: ${name} ${WORDS[kind]}`).join("\n") || "nothing fires";
  $("now").style.whiteSpace = "pre-wrap";
  $("on-way").textContent = allWays ? "the lines are those of the whole run" : `${count} operands, requests and answers`;
  $("bound").innerHTML = bound ? `<span class="swatch" style="background:${COLOURS[bound[1]]}"></span> ` +
    `<b>${data.parts[bound[1]][0]}</b>: ${data.parts[bound[1]][2]}` : "";
  if (bound) $("bound").append(`, before ${bound[2]} in cycle ${bound[0]}`);
  for (const row of $("parts").rows) row.classList.toggle("at", bound !== undefined && +row.dataset.part === bound[1]);
  $("printed").textContent = data.printed.filter((word) => word[0] <= cycle).map((word) => word[2]).slice(-40).join(" ");
  $("element").textContent = picked < 0 ? "click one" : `${picked}: busy in ${data.busy[picked]} of ${data.all} cycles\n` +
    data.lying[picked].join("\n");
  $("element").style.whiteSpace = "pre-wrap";
  $("told").textContent = here.length ? `${here.length} in this cycle: ` + here.slice(0, 3).map((it) => it[3]).join("; ") +
    (here.length > 3 ? " .." : "") : "nothing fires, nothing is issued";
  $("slider").value = cycle;
  $("count").textContent = `cycle ${cycle} of ${data.cycles}`;
  history.replaceState(null, "", `#cycle=${cycle}`);
}

function next(list, forward, of = (it) => it) {
  const at = forward ? from(list, cycle + 1, of) : from(list, cycle, of) - 1;
  if (at >= 0 && at < list.length) show(of(list[at]));
}

function play() {
  if (timer) { clearInterval(timer); timer = 0; } else timer = setInterval(() => show(cycle + 1), 120);
  $("play").textContent = timer ? "stop" : "play";
}

function toggle(button, value) {
  $(button).classList.toggle("on", value);
  show(cycle);
}
const keys = {
  ArrowRight: (event) => show(cycle + (event.shiftKey ? 10 : 1)), ArrowLeft: (event) => show(cycle - (event.shiftKey ? 10 : 1)),
  ArrowDown: () => next(moments, true), ArrowUp: () => next(moments, false),
  PageDown: () => next(data.bounds, true, (piece) => piece[0]), PageUp: () => next(data.bounds, false, (piece) => piece[0]),
  Home: () => show(1), End: () => show(data.cycles), " ": play,
  h: () => { soFar = !soFar; toggle("so-far", soFar); }, w: () => { allWays = !allWays; toggle("all-ways", allWays); },
  "?": () => $("help").classList.toggle("on"),
};
document.addEventListener("keydown", (event) => {
  if (keys[event.key] && !event.ctrlKey && !event.metaKey) { event.preventDefault(); keys[event.key](event); }
});
$("slider").addEventListener("input", () => show(+$("slider").value));
$("so-far").onclick = keys.h;
$("all-ways").onclick = keys.w;
$("ask").onclick = keys["?"];
$("back").onclick = () => show(cycle - 1);
$("on").onclick = () => show(cycle + 1);
$("play").onclick = play;
addEventListener("resize", charts);
still();
charts();
const asked = new URLSearchParams(location.hash.slice(1));
if (asked.get("ways")) { allWays = true; $("all-ways").classList.add("on"); }
show(+asked.get("cycle") || 1);
