// What a policy leaves of a fragment, written from the rules alone over the tree of another parser (parse5). It shares no
// code and no list with the crate.
"use strict";
const parse5 = require("parse5");
const HTML = "http://www.w3.org/1999/xhtml";
const words = (text) => new Set(text.split(" "));
const VOID = words("area base basefont bgsound br col embed frame hr img input keygen link meta param source track wbr");
const ADDRESSES = words("action background cite classid codebase data dynsrc formaction href icon longdesc lowsrc manifest poster profile src usemap");
const UNSEEN = words("head base link meta script style title");

// ---- where an element may stand
const KINDS = {
  phrase: words("abbr acronym area audio b bdi bdo big br canvas cite code data datalist del dfn em embed font i img input ins kbd label legend map mark meter output picture progress q s samp slot small source span strike strong sub sup time track tt u var video wbr"),
  a: words("a"), button: words("button"), p: words("p"),
  block: words("address article aside blockquote center details dialog div fieldset figcaption figure footer header hgroup hr main nav search section summary"),
  heading: words("h1 h2 h3 h4 h5 h6"), form: words("form"), pre: words("pre"), list: words("dir menu ol ul"), item: words("li"),
  dl: words("dl"), description: words("dd dt"), table: words("table"), caption: words("caption"), colgroup: words("colgroup"),
  column: words("col"), rows: words("tbody tfoot thead"), row: words("tr"), cell: words("td th"), ruby: words("ruby"), rubytext: words("rp rt"),
};
const kindOf = (name) => Object.keys(KINDS).find((kind) => KINDS[kind].has(name)) || "other";
const FLOW = words("phrase a button p block heading form pre list dl ruby");
const HOLDERS = words("body item description caption cell rubytext");
const PARTS = { table: words("caption colgroup rows"), colgroup: words("column"), rows: words("row"), row: words("cell"), list: words("item"), dl: words("description"), ruby: words("rubytext") };
const holdsFlow = (kind) => FLOW.has(kind) || HOLDERS.has(kind);
const isFlow = (kind) => FLOW.has(kind) || kind === "table";
function mayHold(parent, kind) {
  if (parent === "heading" && kind === "heading") return false;
  if (PARTS[parent] && PARTS[parent].has(kind)) return true;
  return holdsFlow(parent) && isFlow(kind);
}
const ENDS_P = words("p block heading pre list dl table form");
function admits(scope, kind) {
  if (!mayHold(scope.parent, kind)) return false;
  if (kind === "a" && scope.a) return false;
  if (kind === "button" && scope.button) return false;
  if (kind === "form" && scope.form) return false;
  return !(scope.p && ENDS_P.has(kind));
}
function inside(scope, kind) {
  const next = { ...scope, parent: kind };
  if (["a", "button", "form", "p"].includes(kind)) next[kind] = true;
  return next;
}
const isWhite = (text) => /^[\t\n\f\r ]*$/.test(text);
const mayHoldText = (parent, text) => (["table", "colgroup", "rows", "row"].includes(parent) ? isWhite(text) : holdsFlow(parent));

// ---- values
const spelled = (text) => text.replace(/[\0\r]/g, "");
const escapeText = (text) => text.replace(/&/g, "&amp;").replace(/</g, "&lt;").replace(/>/g, "&gt;").replace(/\u00a0/g, "&nbsp;");
const escapeValue = (text) => escapeText(text).replace(/"/g, "&quot;");
function schemeOf(address) {
  const found = /^([A-Za-z][A-Za-z0-9+.-]*):/.exec(address.replace(/^[\0-\x20]+/, "").replace(/[\t\n\r]/g, ""));
  return found && found[1].toLowerCase();
}
function cleanedAddress(policy, address) {
  const scheme = schemeOf(address);
  if (scheme !== null) return policy.schemes.has(scheme) ? address : null;
  if (policy.relative === "keep") return address;
  if (policy.relative === "drop") return null;
  let url;
  try { url = spelled(new URL(address, policy.relative).href); } catch (refused) { return null; }
  return policy.schemes.has(schemeOf(url)) ? url : null;
}
function cleanedValue(policy, name, value) {
  if (ADDRESSES.has(name)) return cleanedAddress(policy, value);
  if (name === "class" && policy.classes) {
    const kept = value.split(/[\t\n\f\r ]+/).filter((word) => word && policy.classes.has(word));
    return kept.length ? kept.join(" ") : null;
  }
  if (name === "id" && !value.startsWith(policy.idPrefix)) return policy.idPrefix + value;
  return value;
}
function has(policy, element, name, value) {
  if (policy.attributes.has(name)) return true;
  if (policy.data && /^data-[a-z0-9_-]*$/.test(name)) return true;
  return policy.own.some(([e, a, values]) => e === element && a === name && (!values.length || values.includes(value)));
}
function startTag(policy, node) {
  const seen = new Set();
  let text = "<" + node.tagName;
  for (const attr of node.attrs) {
    if (attr.namespace || seen.has(attr.name)) continue;
    seen.add(attr.name);
    const value = cleanedValue(policy, attr.name, spelled(attr.value));
    if (value !== null && has(policy, node.tagName, attr.name, value)) text += ` ${attr.name}="${escapeValue(value)}"`;
  }
  if ((node.tagName === "a" || node.tagName === "area") && policy.rel !== null) text += ` rel="${policy.rel}"`;
  return text + ">";
}

// ---- nodes
function cleanedNodes(policy, nodes, scope, left) {
  return nodes.map((node) => cleanedNode(policy, node, scope, left)).join("");
}
function cleanedNode(policy, node, scope, left) {
  if (node.nodeName === "#text") {
    const text = spelled(node.value);
    return mayHoldText(scope.parent, text) ? escapeText(text) : "";
  }
  if (!node.tagName) return "";
  if (node.tagName === "template" && node.namespaceURI === HTML) return "";
  if (UNSEEN.has(node.tagName) || policy.dropped.has(node.tagName)) return "";
  const kind = kindOf(node.tagName);
  const stays = node.namespaceURI === HTML && policy.elements.has(node.tagName) && left > 0 && admits(scope, kind);
  if (!stays) return cleanedNodes(policy, node.childNodes, scope, left);
  const tag = startTag(policy, node);
  if (VOID.has(node.tagName)) return tag;
  let below = cleanedNodes(policy, node.childNodes, inside(scope, kind), left - 1);
  if (kind === "pre") below = below.replace(/^\n+/, "");
  return `${tag}${below}</${node.tagName}>`;
}
const DIV = { nodeName: "div", tagName: "div", attrs: [], namespaceURI: HTML, childNodes: [] };
function clean(policy, source) {
  const fragment = parse5.parseFragment(DIV, source.replace(/^\ufeff/, "\ufeff"), { scriptingEnabled: false });
  return cleanedNodes(policy, fragment.childNodes, { parent: "body", a: false, button: false, form: false, p: false }, policy.depth);
}

// ---- policies, by the lines that the program reads
const COMMON = {
  elements: "a abbr acronym area article aside b bdi bdo blockquote br caption center cite code col colgroup data dd del details dfn div dl dt em figcaption figure footer h1 h2 h3 h4 h5 h6 header hgroup hr i img ins kbd li map mark nav ol p pre q rp rt ruby s samp small span strike strong sub summary sup table tbody td tfoot th thead time tr tt u ul var wbr",
  schemes: "bitcoin ftp ftps geo http https im irc ircs magnet mailto mms mx news nntp openpgp4fpr sip sms smsto ssh tel url webcal wtai xmpp",
  own: "a:href hreflang|bdo:dir|blockquote:cite|col:align char charoff span|colgroup:align char charoff span|del:cite datetime|hr:align size width|img:align alt height src width|ins:cite datetime|ol:start|q:cite|table:align char charoff summary|tbody:align char charoff|td:align char charoff colspan headers rowspan|tfoot:align char charoff|th:align char charoff colspan headers rowspan scope|thead:align char charoff|tr:align char charoff",
};
function none() {
  return { elements: new Set(), dropped: new Set(), attributes: new Set(), own: [], data: false, schemes: new Set(), relative: "drop", rel: null, idPrefix: "", classes: null, depth: 128 };
}
function common() {
  const own = COMMON.own.split("|").flatMap((part) => part.split(":")[1].split(" ").map((name) => [part.split(":")[0], name, []]));
  return { ...none(), elements: words(COMMON.elements), dropped: words("script style"), attributes: words("lang title"), own, schemes: words(COMMON.schemes), relative: "keep", rel: "noopener noreferrer", depth: 256 };
}
const PRESETS = {
  text: () => none(),
  inline: () => ({ ...none(), elements: words("a abbr b bdi bdo br cite code data del dfn em i ins kbd mark q s samp small span strong sub sup time u var wbr"), attributes: words("lang title"), own: [["a", "href", []], ["bdo", "dir", []], ["time", "datetime", []]], schemes: words("http https mailto"), relative: "keep", rel: "noopener noreferrer" }),
  comment: () => ({ ...none(), elements: words("a abbr b blockquote br code del em i li ol p pre q s strong sub sup ul"), own: [["a", "href", []], ["ol", "start", []]], schemes: words("http https mailto"), rel: "nofollow noopener noreferrer", depth: 64 }),
  common,
};
function policyOf(lines) {
  let policy = none();
  for (const line of lines) {
    const [call, ...rest] = line.split(" ");
    const value = rest.join(" ");
    if (PRESETS[call]) policy = PRESETS[call]();
    else if (call === "element") policy.elements.add(value);
    else if (call === "drop") policy.dropped.add(value);
    else if (call === "attribute") policy.attributes.add(value);
    else if (call === "attribute-of") policy.own.push([rest[0], rest[1], []]);
    else if (call === "value") policy.own.push([rest[0], rest[1], [rest.slice(2).join(" ")]]);
    else if (call === "data-attributes") policy.data = true;
    else if (call === "scheme") policy.schemes.add(value);
    else if (call === "keep-relative") policy.relative = "keep";
    else if (call === "drop-relative") policy.relative = "drop";
    else if (call === "resolve-relative") policy.relative = value;
    else if (call === "rel") policy.rel = value;
    else if (call === "no-rel") policy.rel = null;
    else if (call === "id-prefix") policy.idPrefix = value;
    else if (call === "class") (policy.classes = policy.classes || new Set()).add(value);
    else if (call === "depth") policy.depth = Number(value);
    else if (call === "disallow-element") policy.elements.delete(value);
    else if (call === "undrop-element") policy.dropped.delete(value);
    else if (call === "disallow-attribute") policy.attributes.delete(value);
    else if (call === "disallow-attribute-of") policy.own = policy.own.filter(([element, name]) => element !== rest[0] || name !== rest[1]);
    else if (call === "disallow-scheme") policy.schemes.delete(value);
    else if (call === "disallow-class") policy.classes?.delete(value);
    else throw new Error("no such rule: " + line);
  }
  return policy;
}

// ---- what a parser makes of a text, written as explicit markup
function written(nodes) {
  return nodes.map(writtenNode).join("");
}
function writtenNode(node) {
  if (node.nodeName === "#text") return escapeText(node.value);
  if (node.nodeName === "#comment") return "<!--" + node.data + "-->";
  if (!node.tagName) return "<?>";
  const prefix = node.namespaceURI === HTML ? "" : "foreign:";
  const attrs = node.attrs.map((attr) => ` ${attr.namespace ? "foreign:" : ""}${attr.name}="${escapeValue(attr.value)}"`).join("");
  const start = `<${prefix}${node.tagName}${attrs}>`;
  if (VOID.has(node.tagName)) return start;
  return `${start}${written((node.content || node).childNodes)}</${prefix}${node.tagName}>`;
}
const context = (name) => ({ ...DIV, nodeName: name, tagName: name });
// the text read in some place, as explicit markup again
function readIn(place, text, scriptingEnabled) {
  if (place !== "page") return written(parse5.parseFragment(context(place), text, { scriptingEnabled }).childNodes);
  const page = parse5.parse(`<!DOCTYPE html><html><head><meta charset="utf-8"></head><body>${text}</body></html>`, { scriptingEnabled });
  const html = page.childNodes[1];
  if (page.childNodes.length !== 2 || html.childNodes.length !== 2) return "another page";
  return written(html.childNodes[1].childNodes);
}
const PLACES = ["page", "div", "body", "td", "li"];
const ACTIVE = words("script style iframe svg math object embed template noscript base meta link");
// what could run or bring in a script, in the tree that parse5 reads
function activeParts(text) {
  const found = [];
  const open = [parse5.parseFragment(text)];
  while (open.length) {
    const node = open.pop();
    open.push(...(node.childNodes || []));
    if (ACTIVE.has(node.tagName)) found.push(node.tagName);
    for (const { name, value } of node.attrs || []) {
      if (name.startsWith("on") || ["style", "srcdoc", "srcset"].includes(name)) found.push(name);
      if (!ADDRESSES.has(name)) continue;
      try { const { protocol } = new URL(value, "http://base.example/"); if (["javascript:", "data:", "vbscript:"].includes(protocol)) found.push(`${name} ${protocol}`); } catch (fault) { /* leads nowhere */ }
    }
  }
  return found;
}
module.exports = { clean, policyOf, readIn, PLACES, written, activeParts };
