// hosts.js PROGRAM COUNT SEED [FILE]: cleaned texts at random places of random pages. The program (test_calls; or the model, where PROGRAM is
// "model") cleans random hostile fragments by random policies and presets. A page is read by parse5 with the text, and with a comment at its
// place: the first must be the second with the text's trees in place of the comment. CONDITIONS says of a place, a policy and the rest
// of the page what has to hold for that. Where all hold, no page may differ; where exactly one is broken, the pages that differ are
// counted. Each of EXAMPLES breaks one condition, and has to differ. The status is 1 if a page is not as it has to be. FILE gets pages in
// which all hold, for hosts.py. NODE_PATH as for hostile.js.
"use strict";
const fs = require("fs");
const { spawnSync } = require("child_process");
const parse5 = require("parse5");
const { maker } = require("./fragments.js");
const { clean, policyOf, written } = require("./model.js");
const [program, count, seed, file] = [process.argv[2], Number(process.argv[3]), Number(process.argv[4] || 1), process.argv[5]];
const { fragment, policyLines, random, pick } = maker(seed);
const MARK = "here", COMMENT = `<!--${MARK}-->`;

// ---- pages
const words = (text) => text.split(" ");
const FORMATTING = words("a b i u code em font small strong nobr s big tt strike");
const BLOCKS = words("div div section article aside main header footer nav address blockquote center details summary dialog fieldset figure figcaption hgroup search menu dir");
const NAMES = [...FORMATTING, ...BLOCKS, ...BLOCKS, ...words("p p p h1 h2 h6 ul ol li li dl dd dt span span label q button form ruby rt rp legend object marquee applet video x-y pre listing table tbody tr td td th caption svg foreignObject desc math mtext mi annotation-xml template noscript title textarea select option iframe")];
const RARE = words("style script xmp noframes plaintext body html head frameset col input br img hr");
const DOCTYPES = ["<!DOCTYPE html>", "<!DOCTYPE html>", "<!DOCTYPE html>", "", "<!DOCTYPE html PUBLIC '-//W3C//DTD HTML 4.01 Transitional//EN' 'x'>"];
const STARTS = ["<html><head><meta charset=utf-8><title>t</title></head><body>", "<title>t</title><body class=c>", "<body>", ""];
const TEXTS = ["x", " ", "\n", "y z", "&amp;", "<!--c-->", "&am", "<", "</", "\r", "<b", "<!--", "<b title='", "</p>", "<br>", "<hr>", "<img src=x>"];
const AROUND = words("table>tr>td table>tr>th table>caption ul>li ol>li dl>dd dl>dt ruby>rt svg>foreignObject svg>desc math>mtext math>mi details>summary figure>figcaption fieldset>legend select>option").map((path) => path.split(">"));
const ATTRS = ["", "", "", " class=c", " encoding=text/html"];
const MISNESTED = ["<p><i></p>", "<div><b></div>", "<p><a></p>", "<b><b><b>", "<table><b><tr><td>", "<a><div></a>"];
const PLACES = words("p h1 h3 span em b i a label button form q pre li dd dt td th caption div section article aside main header footer nav address blockquote figure figcaption details summary dialog fieldset legend ul ol dl ruby rt table tr tbody template noscript object x-y foreignObject mtext svg math");
function tag() {
  const name = random(25) ? pick(NAMES) : pick(RARE);
  return random(4) ? `<${name}${pick(ATTRS)}>` : `</${name}>`;
}
const part = () => {
  const kind = random(8);
  if (kind === 0) return pick(random(6) ? TEXTS.slice(0, 6) : TEXTS);
  if (kind === 1 && random(4) === 0) return pick(MISNESTED);
  return kind < 3 ? pick(AROUND).map((name) => `<${name}>`).join("") : tag();
};
const soup = (limit) => Array.from({ length: random(limit) }, part);
// what is left of the page: end tags for all that is open, or tags at random
function rest(parser) {
  if (random(2)) return { parts: soup(9), tidy: false };
  const parts = [];
  const { items, stackTop } = parser.openElements;
  for (let i = stackTop; i > 0; i--) parts.push(pick(["", "x", "<i>y</i>", " "]), `</${items[i].tagName}>`);
  return { parts, tidy: true };
}

// ---- places
function stateAfter(before, scriptingEnabled) {
  const parser = new parse5.Parser({ scriptingEnabled });
  parser.tokenizer.write(before, false);
  parser.tokenizer._emitCurrentCharacterToken(null);
  return parser;
}
const HEADINGS = words("h1 h2 h3 h4 h5 h6");
const ENDS_P = [...HEADINGS, ...words("address article aside blockquote center details dialog dir div dl fieldset figcaption figure footer form header hgroup hr main menu nav ol p pre search section summary table ul")];
const MODES = [6, 10, 14]; // "in body", "in caption", "in cell"
const HTML = "http://www.w3.org/1999/xhtml";
const { TAG_ID } = parse5.html;
function formattingHere(parser) {
  const { entries } = parser.activeFormattingElements;
  const end = entries.findIndex((entry) => !entry.element);
  return entries.slice(0, end < 0 ? undefined : end).map((entry) => entry.element);
}
const CONDITIONS = {
  // by the place alone
  "data state": (it) => it.parser.tokenizer.state === 0 && !it.before.endsWith("\r"),
  "in body, in cell or in caption": (it) => MODES.includes(it.parser.insertionMode),
  "no foreign element around": (it) => !it.parser.tokenizer.inForeignNode,
  "nothing to reconstruct": (it) => it.formatting.length === 0 || it.parser.openElements.contains(it.formatting[0]),
  "not directly after <pre>": (it) => !it.parser.skipNextNewLine,
  // by the place and what the policy allows
  "no open p": (it) => !ENDS_P.some((name) => it.allowed.has(name)) || !it.parser.openElements.hasInButtonScope(TAG_ID.P),
  "no open a": (it) => !it.allowed.has("a") || !it.formatting.some((element) => element.tagName === "a"),
  "no open button": (it) => !it.allowed.has("button") || !it.parser.openElements.hasInScope(TAG_ID.BUTTON),
  "no open form": (it) => !it.allowed.has("form") || !it.parser.formElement,
  "not directly in a heading": (it) => !HEADINGS.some((name) => it.allowed.has(name)) || !HEADINGS.includes(it.parser.openElements.current.tagName) || it.parser.currentNotInHTML,
  // by the rest of the page, too
  "formatting elements end in order": (it) => it.tidy || !it.formatting.some((element) => it.allowed.has(element.tagName)),
  "no frameset behind, or a <body> before": (it) => !it.parser.framesetOk || !it.after.includes("<frameset"),
};
// no condition can be left out: a page before the place, a text, and the page behind it, that break this condition alone and differ
const EXAMPLES = {
  "data state": [["<body><p title='", "x", "'>"], ["<body>a&lt", ";b", ""], ["<body>a <", "b&gt;c", ""], ["<body>a\r", "\nb", ""]],
  "in body, in cell or in caption": [["<title>t</title>", " x", ""], ["<body><table>", "x", "</table>"], ["<body><table><tr>", "<b>x</b>", "<td>y</table>"], ["<body><template>", "<b>x</b>", "<tr></tr></template>"], ["<body></body></html>", "x", ""]],
  "no foreign element around": [["<body><svg><g>", "<b>x</b>", "</g></svg>"], ["<body><math>", "<i>x</i>", "</math>"]],
  "nothing to reconstruct": [["<body><p><b>1</p>", "x", ""]],
  "not directly after <pre>": [["<body><pre>", "\nx", "</pre>"]],
  "no open p": [["<body><p>", "<div>x</div>", "y</p>"], ["<body><p><span>", "<p>x</p>", "y</span></p>"]],
  "no open a": [["<body><a href=1>", "<a>x</a>", "y</a>"]],
  "no open button": [["<body><button>", "<button>x</button>", "y</button>"]],
  "no open form": [["<body><form><div>", "<form>x</form>", "</div><input></form>"]],
  "not directly in a heading": [["<body><h1>", "<h2>x</h2>", "y</h1>"]],
  "formatting elements end in order": [["<body><div><b><b><b>", "<b>x</b>", "</div>y"]],
  "no frameset behind, or a <body> before": [["<div>", "x", "</div><frameset>"]],
};
const broken = (it) => Object.keys(CONDITIONS).filter((name) => !CONDITIONS[name](it));
const make = (it) => { it.parser = stateAfter(it.before, it.scripting); it.formatting = formattingHere(it.parser); return it; };

// ---- trees
const read = (page, scriptingEnabled) => {
  const tree = parse5.parse(page, { scriptingEnabled });
  return tree.mode + written(tree.childNodes);
};
const isSame = (it) => read(it.before + it.text + it.after, it.scripting) === read(it.before + COMMENT + it.after, it.scripting).split(COMMENT).join(it.text);
// a shorter page that differs though all conditions hold
function shrunk(it) {
  for (let again = true; again; ) {
    again = false;
    for (const side of ["beforeParts", "afterParts"]) for (let i = 0; i < it[side].length; i++) {
      const parts = it[side].filter((_, j) => j !== i);
      const less = { ...it, [side]: parts };
      less.before = less.beforeParts.join(""), less.after = less.afterParts.join("");
      if (!isSame(make(less)) && !broken(less).length) { it = less; again = true; break; }
    }
  }
  return it;
}

// ---- policies
function lines() {
  const chosen = random(3) ? policyLines() : [pick(words(program === "model" ? "text inline inline comment common" : "text inline inline comment article email common"))];
  const without = (names) => chosen.push(...names.map((name) => "disallow-element " + name));
  if (random(2) === 0) without(["a"]);
  if (random(2) === 0) without(random(2) ? HEADINGS : ENDS_P);
  return chosen;
}
function cleaned(policy, sources) {
  if (program === "model") { const rules = policyOf(policy); return sources.map((source) => clean(rules, source)); }
  const ran = spawnSync(program, ["clean", "each", ...policy], { input: sources.join("\x1e"), maxBuffer: 1 << 30 });
  if (ran.status !== 0) throw new Error(`status ${ran.status} for ${policy}: ${ran.stdout}`);
  return ran.stdout.toString().split("\x1e").slice(0, -1);
}
const ASKED = ["a", "button", ...FORMATTING, ...ENDS_P];
function allowedBy(policy) {
  const texts = cleaned(policy, ASKED.map((name) => (name === "table" ? "<table><tr><td>x</table>" : `<${name}>x</${name}>`)));
  return new Set(ASKED.filter((name, i) => texts[i].startsWith(`<${name}`)));
}

// ---- all
const places = {}, alone = {}, presets = {}, out = file && fs.openSync(file, "w");
let done = 0, held = 0, failed = 0;
function note(it) {
  const faults = broken(it);
  if (faults.length > 1) return;
  const same = isSame(it);
  if (faults.length === 1) {
    const seen = (alone[faults[0]] = alone[faults[0]] || { pages: 0, differ: 0 });
    seen.pages++;
    if (!same) seen.differ++;
    return;
  }
  held++;
  const node = it.parser.openElements.current;
  const key = `${node.namespaceURI === HTML ? "" : "foreign "}${node.tagName}`;
  const kind = ENDS_P.some((name) => it.allowed.has(name)) ? 0 : 1;
  (places[key] = places[key] || [0, 0])[kind]++;
  presets[it.policy[0]] = (presets[it.policy[0]] || 0) + 1;
  if (out && !/<(select|option|optgroup|search)\b/.test(it.before + it.after)) fs.writeSync(out, JSON.stringify([it.before, it.text, it.after, it.scripting]) + "\n");
  if (same) return;
  failed++;
  if (failed < 9) { const { before, text, after, policy, scripting } = shrunk(it); console.log("DIFFERS", JSON.stringify({ before, text, after, policy, scripting })); }
}
for (const [name, examples] of Object.entries(EXAMPLES)) for (const [before, text, after] of examples) {
  const allowed = new Set(ASKED.filter((element) => text.includes(`<${element}>`)));
  const it = make({ before: "<!DOCTYPE html>" + before, text, after, allowed, scripting: true, tidy: name !== "formatting elements end in order" });
  if (broken(it).join() === name && !isSame(it)) continue;
  failed++;
  console.log("EXAMPLE", name, JSON.stringify([before, text, after]), broken(it), isSame(it));
}
while (held < count) {
  const policy = lines(), allowed = allowedBy(policy);
  const sources = Array.from({ length: 500 }, fragment);
  for (const text of cleaned(policy, sources)) {
    const beforeParts = [pick(DOCTYPES), pick(STARTS), ...soup(12)], scripting = random(2) === 0;
    if (random(2)) beforeParts.push(`<${pick(PLACES)}${pick(ATTRS)}>`);
    const it = make({ beforeParts, before: beforeParts.join(""), text, policy, allowed, scripting });
    const { parts, tidy } = rest(it.parser);
    Object.assign(it, { afterParts: parts, after: parts.join(""), tidy });
    if (held < count) { note(it); done++; }
  }
}
console.log(`${done} pages; all conditions hold in ${held}, ${failed} of them differ`);
console.log("policies that begin with: " + JSON.stringify(presets));
const sorted = Object.entries(places).sort((a, b) => b[1][0] + b[1][1] - a[1][0] - a[1][1]);
console.log("directly in (policies with blocks, without): " + sorted.map(([name, [flow, phrases]]) => `${name} ${flow} ${phrases}`).join(", "));
for (const [name, { pages, differ }] of Object.entries(alone)) console.log(`without "${name}" alone: ${differ} of ${pages} differ`);
process.exit(failed ? 1 : 0);
