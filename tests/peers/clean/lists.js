// lists.js PROGRAM AMMONIA BLUEMONDAY [all]: the tests of two other cleaners through `clean`, by policies near theirs. AMMONIA is the folder of
// ammonia 4.0.0 with src/lib.rs (Debian's librust-ammonia-dev), BLUEMONDAY that of bluemonday 1.0.26 with sanitize_test.go
// (golang-github-microcosm-cc-bluemonday-dev). PROGRAM and NODE_PATH as for hostile.js. A test is a source and the text that they expect.
// parse5 reads this text and ours: the trees are the same, or become the same by changes of CLASSES, the least number of which is searched
// for and counted. `all` prints each difference. The status is 1 if a difference belongs to no class, or a text of ours has an active part.
"use strict";
const fs = require("fs");
const path = require("path");
const { spawnSync } = require("child_process");
const parse5 = require("parse5");
const { clean, policyOf, activeParts } = require("./model.js");
const [program, ammonia, bluemonday, all] = process.argv.slice(2);

// ---- their tests, read from their sources
const LITERAL = '(?:b?r"[^"]*"|b?r#"[^]*?"#|b?r##"[^]*?"##|b?"(?:[^"\\\\]|\\\\[^])*"|`[^`]*`)';
const ESCAPES = { n: "\n", t: "\t", r: "\r", v: "\v", f: "\f", a: "\x07", b: "\b", 0: "\0" };
function valueOf(literal) {
  if (literal[0] === "`") return literal.slice(1, -1).replace(/\r/g, "");
  if (/^b?r/.test(literal)) return literal.replace(/^b?r(#*)"([^]*)"\1$/, "$2");
  return literal.replace(/^b?"|"$/g, "").replace(/\\\n\s*/g, "").replace(/\\(x[0-9a-fA-F]{2}|u\{[0-9a-fA-F]+\}|u[0-9a-fA-F]{4}|[^])/g, (_, it) =>
    it.length > 1 ? String.fromCodePoint(parseInt(it.replace(/[xu{}]/g, ""), 16)) : ESCAPES[it] || it);
}
const joined = (literals) => literals.match(new RegExp(LITERAL, "g")).map(valueOf).join("");
function testsOfAmmonia(folder) {
  const text = fs.readFileSync(path.join(folder, "src/lib.rs"), "utf8");
  const part = new RegExp(`(?:let fragment =|let expected =|\\bclean\\()\\s*&?(${LITERAL})|assert_eq!\\(([^]*?),?\\s*\\);(?:\\n|$)`, "g");
  return [...text.slice(text.lastIndexOf("#[cfg(test)]\nmod test")).matchAll(/fn (\w+)\(\) \{\n([^]*?)\n    \}\n/g)].flatMap(([, name, body]) => {
    const found = [];
    let source = null, expected = null;
    for (const [whole, literal, asserted] of body.matchAll(part)) {
      if (whole.startsWith("let expected")) expected = valueOf(literal);
      else if (literal) source = valueOf(literal);
      else {
        const literals = asserted.match(new RegExp(LITERAL, "g"));
        if (/, (elem|value)$/.test(asserted)) continue;
        found.push({ list: "ammonia", name, source, theirs: literals ? valueOf(literals.pop()) : expected });
      }
    }
    return found.length ? found : [{ list: "ammonia", name, source, theirs: null }];
  });
}
function testsOfBluemonday(folder) {
  const many = `${LITERAL}(?:\\s*\\+\\s*${LITERAL})*`;
  return ["policies_test.go", "policy_test.go", "sanitize_test.go", "sanitize_go1.8_test.go"].flatMap((file) => {
    const text = fs.readFileSync(path.join(folder, file), "utf8");
    return [...text.matchAll(/^func (Test\w+)\(t \*testing\.T\) \{\n([^]*?)^\}/gm)].flatMap(([, name, body]) => {
      const found = [...body.matchAll(new RegExp(`\\bin:\\s*(${many}),(?:\\s*//.*)*\\s*expected:\\s*(${many})`, "g"))];
      return found.length ? found.map(([, source, theirs]) => ({ list: "bluemonday", name, source: joined(source), theirs: joined(theirs) }))
        : [{ list: "bluemonday", name, source: null, theirs: null }];
    });
  });
}

// ---- policies near theirs, by the name of the test
const lines = (text) => text.split("; ");
const of = (names) => names.split(" ");
const OF_BLUEMONDAY = [
  ...of("article aside figure section summary h1 h2 h3 h4 h5 h6 hgroup blockquote br div hr p span wbr a area map abbr acronym cite code dfn em figcaption mark s samp strong sub sup var q time b i pre small strike tt u bdi bdo rp rt ruby del ins details ol ul li dl dt dd table caption col colgroup thead tbody tfoot tr td th meter progress img").map((name) => "element " + name),
  ...of("dir lang id title").map((name) => "attribute " + name),
  ...["details open", "blockquote cite", "a href", "map name", "area alt", "area coords", "area href", "area shape", "q cite", "time datetime", "del cite", "del datetime", "ins cite", "ins datetime", "ol type", "ul type", "li type", "li value"].map((own) => "attribute-of " + own),
  ...of("alt height src usemap width align").map((name) => "attribute-of img " + name),
  ...of("height summary width").map((name) => "attribute-of table " + name),
  ...of("td th").flatMap((cell) => of("abbr align colspan rowspan headers height valign width scope").map((name) => `attribute-of ${cell} ${name}`)),
  ...of("http https mailto").map((name) => "scheme " + name), "keep-relative", "rel nofollow",
].join("; ");
const OWN = { ammonia: "common", bluemonday: OF_BLUEMONDAY };
const ANTISAMY = "element a; element b; element br; element div; element font; element i; element img; element input; element li; element ol; element p; element span; element ul; attribute-of input checked; attribute-of input type; attribute-of font color; attribute-of a href; attribute-of img src; attribute class; attribute id; attribute title; scheme http; scheme https; scheme mailto";
const POLICIES = {
  rewrite_url_relative: "common; resolve-relative http://example.com/",
  rewrite_url_relative_with_invalid_url: "common; resolve-relative http://example.com/",
  rewrite_url_relative_no_rel: "common; resolve-relative http://example.com/; no-rel",
  deny_url_relative: "common; drop-relative",
  consider_rel_still_banned: "common; no-rel",
  object_data: "element span; attribute data; scheme http",
  remove_non_allowed_classes: "common; no-rel; attribute class; class foo; class bar; class baz",
  remove_non_allowed_classes_with_tag_class: "common; no-rel; attribute class; class foo; class bar; class baz",
  allowed_classes_ascii_whitespace: "common; attribute class; class a; class b; class c; class d; class e; class f; class g",
  remove_non_allowed_attributes_with_tag_attribute_values: "common; value p data-label bar; attribute-of p name",
  keep_allowed_attributes_with_tag_attribute_values: "common; value p data-label bar; attribute-of p name",
  tag_attribute_values_case_insensitive: "element input; value input type checkbox; attribute-of input name",
  set_tag_attribute_values: "common; no-rel; attribute-of a target",
  update_existing_set_tag_attribute_values: "common; no-rel; attribute-of a target",
  display_impl: "common; no-rel",
  string_from_document: "common; no-rel",
  id_prefixed: "common; attribute-of a id; id-prefix prefix-",
  id_already_prefixed: "common; attribute-of a id; id-prefix prefix-",
  clean_removed_default_tag: "common; disallow-element a",
  generic_attribute_prefixes_clean: ["common; attribute-of a data-1", "common; data-attributes", "common; data-attributes; attribute-of a code-1; attribute-of a code-2"],
  TestStrictPolicy: "text",
  TestAntiSamy: ANTISAMY,
};
const MORE = {
  TestStyling: "attribute class", TestIssue3: "attribute class", TestAdditivePolicies: "attribute class", TestDataAttributes: "data-attributes",
  TestIssue143: "attribute-of p title", TestIssue18: "element font; attribute-of font color",
  TestIssue9: "attribute-of div class; attribute-of span class; attribute-of a class; attribute-of a name; attribute-of a aria-hidden",
  TestTargetBlankNoOpener: "attribute-of a target", TestIssue85: "attribute-of a target",
};
const seen = {};
function policyFor({ list, name }) {
  const i = (seen[name] = (seen[name] ?? -1) + 1);
  const own = POLICIES[name];
  const base = Array.isArray(own) ? own[i] : own || OWN[list];
  return lines(MORE[name] ? `${base}; ${MORE[name]}` : base);
}
// tests of other calls than that which cleans a text
const OTHER = of("TestSanitizedURL clean_text_test clean_text_spaces_test generic_attribute_prefixes debug_impl reader_non_utf8");

// ---- trees
const HTML = "http://www.w3.org/1999/xhtml";
const VOID = new Set(of("area base br col embed hr img input link meta source track wbr"));
const DIV = { nodeName: "div", tagName: "div", attrs: [], namespaceURI: HTML, childNodes: [] };
function treesOf(text) {
  const tree = (it) => it.nodeName === "#text" ? it.value : it.nodeName === "#comment" ? { comment: it.data }
    : { name: (it.namespaceURI === HTML ? "" : "foreign ") + it.tagName, attrs: it.attrs.map((attr) => [attr.name, attr.value]), below: (it.content || it).childNodes.map(tree) };
  return parse5.parseFragment(DIV, text).childNodes.map(tree);
}
const spelled = (trees) => trees.map((it) => typeof it === "string" ? it.replace(/&/g, "&amp;").replace(/</g, "&lt;")
  : "comment" in it ? `<!--${it.comment}-->`
  : `<${it.name}${[...it.attrs].sort().map(([name, value]) => ` ${name}=${JSON.stringify(value)}`).join("")}>${VOID.has(it.name) ? "" : spelled(it.below) + `</${it.name}>`}`).join("");
// the trees with each of them changed by a function, which returns a list of trees
const changed = (change) => (trees) => trees.flatMap((it) => change(it.below ? { ...it, below: changed(change)(it.below) } : it));
const attributes = (change) => changed((it) => (it.attrs ? [{ ...it, attrs: it.attrs.flatMap(change) }] : [it]));
const without = (names) => attributes((attr) => (of(names).includes(attr[0]) ? [] : [attr]));
const unwrapped = (is) => changed((it) => (it.name && is(it) ? it.below : [it]));
// Why a text isn't theirs: if both trees are changed so, they are the same.
const CLASSES = {
  "`style` is never kept": without("style"),
  "comments are never kept": changed((it) => ("comment" in Object(it) ? [] : [it])),
  "elements that can't be allowed: `iframe`, `object`, `select`, `textarea`, `svg`, `math`, names of one's own": unwrapped((it) => /^(iframe|object|select|option|textarea)$|^foreign |-/.test(it.name)),
  "they add `target` or `crossorigin`, or words of `rel`, by the address": without("rel target crossorigin"),
  "they spell the address anew": attributes(([name, value]) => [[name, ["href", "src"].includes(name) ? "" : value]]),
  "`data` and `data:` addresses are never kept": attributes((attr) => (attr[0] === "data" || attr[1].startsWith("data:") ? [] : [attr])),
  "they ask more of an address: a pattern, a host": without("href src"),
  "they unwrap `a`, `img` and `font` that have no attribute left": unwrapped((it) => of("a img font").includes(it.name) && it.attrs.every(([name]) => name === "rel")),
  "they match values against patterns, or in any case": without("width class type data-xml-prefix"),
  "they put a space in place of a tag": changed((it) => [typeof it === "string" ? it.replace(/\s/g, "") : it]),
  "a function of the caller, or an attribute that is set": without("href src alt target"),
  "the text of a script is never kept": changed((it) => (/^var a = 10/.test(it) ? [] : [it])),
};
// their own rules, by the name of the test; for all others the first classes are tried
const RULES = { "a function of the caller, or an attribute that is set": of("attribute_filter_drop url_filter_absolute url_filter_relative set_tag_attribute_values update_existing_set_tag_attribute_values remove_relative_url_evaluate remove_relative_url_evaluate_b") };
function classesOf({ name, theirs, ours }) {
  const all = Object.keys(CLASSES).filter((one) => (RULES[one] || [name]).includes(name));
  const own = all.filter((one) => RULES[one]);
  const apply = (some) => [theirs, ours].map((text) => spelled(some.reduce((trees, one) => CLASSES[one](trees), treesOf(text))));
  const isEnough = (some) => { const [a, b] = apply(some); return a === b; };
  for (let size = 0; size < 4; size++) {
    const some = sets(own.length ? own : all, size).find(isEnough);
    if (some) return some;
  }
  return null;
}
function sets(names, size) {
  if (size === 0) return [[]];
  return names.flatMap((name, i) => sets(names.slice(i + 1), size - 1).map((more) => [name, ...more]));
}

// ---- all
function textOf(policy, source) {
  if (program === "model") return clean(policyOf(policy), source);
  const ran = spawnSync(program, ["clean", ...policy], { input: source, maxBuffer: 1 << 30 });
  if (ran.status !== 0) throw new Error(`status ${ran.status} for ${policy}: ${ran.stdout}`);
  return ran.stdout.toString();
}
let faults = 0;
for (const [list, tests] of [["ammonia", testsOfAmmonia(ammonia)], ["bluemonday", testsOfBluemonday(bluemonday)]]) {
  const counts = {}, asked = tests.filter((it) => it.theirs !== null && it.source !== null && !OTHER.includes(it.name));
  let same = 0;
  for (const it of asked) {
    it.ours = textOf(policyFor(it), it.source);
    const found = classesOf(it);
    if (found && !found.length) same++;
    for (const one of found || ["NO CLASS"]) counts[one] = (counts[one] || 0) + 1;
    const active = activeParts(it.ours);
    if (!found || active.length) faults++;
    if (!found || active.length || (all && found.length)) console.log(JSON.stringify({ ...it, found, active }));
  }
  console.log(`${list}: ${tests.length} tests, ${asked.length} of them a source with a text, ${same} the same tree`);
  for (const [one, number] of Object.entries(counts).sort((a, b) => b[1] - a[1])) console.log(`   ${number} ${one}`);
}
process.exit(faults ? 1 : 0);
