// hostile.js PROGRAM COUNT SEED: random hostile fragments are cleaned by the program (or, where PROGRAM is "model", by the
// model alone). Each text has to be the model's, and parse5 has to read it as itself: as a page, and in a div, body, td and li,
// with scripts on and off. NODE_PATH has to name a folder with parse5 7.1.2 as ../mend_trees.py mends it, and /usr/share/nodejs
// for what it uses: without the mending, parse5 reads a `noframes` in a body as markup.
"use strict";
const { spawnSync } = require("child_process");
const { maker } = require("./fragments.js");
const { clean, policyOf, readIn, PLACES, activeParts } = require("./model.js");
const [program, count, seed] = [process.argv[2], Number(process.argv[3]), Number(process.argv[4] || 1)];

const { fragment, policyLines } = maker(seed);
function byProgram(lines, sources) {
  if (program === "model") { const policy = policyOf(lines); return sources.map((source) => clean(policy, source)); }
  const ran = spawnSync(program, ["clean", "each", ...lines], { input: sources.join("\x1e"), maxBuffer: 1 << 30 });
  if (ran.status !== 0) throw new Error(`status ${ran.status} for ${lines}: ${ran.stdout}`);
  return ran.stdout.toString().split("\x1e").slice(0, -1);
}
const fails = { model: 0, again: 0, read: 0, active: 0 };
const shown = [];
function note(kind, data) { fails[kind]++; if (shown.length < 12) { shown.push(1); console.log(kind, JSON.stringify(data)); } }
let done = 0, kept = 0, bytes = 0;
while (done < count) {
  const lines = policyLines();
  const policy = policyOf(lines);
  const sources = Array.from({ length: Math.min(500, count - done) }, fragment);
  const texts = byProgram(lines, sources);
  const again = byProgram(lines, texts);
  sources.forEach((source, i) => {
    const text = texts[i];
    if (program !== "model" && text !== clean(policy, source)) note("model", { lines, source, text, model: clean(policy, source) });
    if (again[i] !== text) note("again", { lines, source, text, again: again[i] });
    for (const place of PLACES) for (const scripting of [true, false]) {
      const read = readIn(place, text, scripting);
      if (read !== text) note("read", { lines, source, text, place, scripting, read });
    }
    const active = activeParts(text);
    if (active.length) note("active", { lines, source, text, active });
    bytes += text.length; if (text) kept++;
  });
  done += sources.length;
  if (done % 10000 === 0) console.log(`${done} of ${count}: ${JSON.stringify(fails)}`);
}
console.log(`${done} fragments, ${kept} with a text, ${bytes} characters; ${JSON.stringify(fails)}`);
process.exit(Object.values(fails).some((n) => n) ? 1 : 0);
