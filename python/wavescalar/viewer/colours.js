// Colours of wave numbers. Two that are seen at once have different ones; where there are more waves at once than
// colours, those that share one are numbered on their pills.
const MANY_COLOURS = 10;

// For each wave number the first and the last event between which it is seen: a token of it is on its way or waits,
// or the chain is at it.
function seenIn(start, steps) {
  const seen = new Map(), open = new Map(), begun = new Set();
  const see = (wave, at) => {
    const it = seen.get(wave);
    if (it) it[1] = Math.max(it[1], at); else seen.set(wave, [at, at]);
  };
  const count = (wave, by) => open.set(wave, (open.get(wave) || 0) + by);
  const send = (tokens, at) => { for (const it of tokens) { see(it[4], at); count(it[4], 1); } };
  let chain = 1;
  see(chain, 0);
  send(start, 0);
  steps.forEach((s, k) => {
    const at = k + 1, key = `${s.w} ${s.i}`;
    see(s.w, at);
    if (s.k === "match") {
      count(s.w, -1);
      if (!s.full && !begun.has(key)) { begun.add(key); count(s.w, 1); }
      if (s.full) {
        if (begun.delete(key)) count(s.w, -1);
        if (!s.new) count(s.w, 1);
      }
    } else {
      count(s.w, -1);
      if (s.chain[0] !== chain) see(chain, at);
      chain = s.chain[0];
      see(chain, at);
    }
    send(s.new || [], at);
  });
  for (const [wave, many] of open) if (many > 0) see(wave, steps.length);
  see(chain, steps.length);
  return seen;
}

// The colour of each wave number of some runs that are looked at together, and the numbers of those that share one
// with another that is seen meanwhile. Wave number 0 has the colour 0.
function colouring(runs) {
  const whole = new Map();
  for (const seen of runs)
    for (const [wave, [from, to]] of seen) {
      const it = whole.get(wave);
      if (it) { it[0] = Math.min(it[0], from); it[1] = Math.max(it[1], to); } else whole.set(wave, [from, to]);
    }
  const colour = new Map([[0, 0]]), numbered = new Set();
  let busy = [];
  for (const [wave, [from, to]] of [...whole].sort((a, b) => a[1][0] - b[1][0] || a[0] - b[0])) {
    if (wave === 0) continue;
    busy = busy.filter(it => it.to >= from);
    const wanted = 1 + (wave - 1) % MANY_COLOURS, used = new Map(busy.map(it => [it.colour, it.wave]));
    let found = wanted;
    for (let k = 0; k < MANY_COLOURS && used.has(found); k++) found = 1 + (found % MANY_COLOURS);
    if (used.has(found))
      for (const it of busy) if (it.colour === found) { numbered.add(it.wave); numbered.add(wave); }
    colour.set(wave, found);
    busy.push({wave, colour: found, to});
  }
  return {colour, numbered};
}
