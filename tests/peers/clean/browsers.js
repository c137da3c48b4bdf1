// browsers.js PROGRAM COUNT SEED BROWSER ..: random hostile fragments (fragments.js) and the attacks of attacks.json are cleaned by
// PROGRAM, the test program's part `clean`, and each BROWSER (chromium, firefox-esr) reads what is left. It reads each cleaned text in the body
// of a page, 25 of them in one page with a `wbr` between them; as `innerHTML` of a div, body, td, li and blockquote; and in a template,
// where scripts are off. It also reads the page that `test_calls clean page` writes of every 25th fragment. What has to be found:
//
// - the browser's tree, written as explicit markup, is the text;
// - no script runs: each `alert` of a fragment calls `hit` of the outermost window;
// - no request is made but for the addresses of `src`, `background` and `poster` that the policy leaves; half of the policies leave none;
// - each address that is left leads to an allowed scheme by the browser's own URL parser, and no `on..` attribute is there.
//
// Afterwards every 25th fragment is read as it was, without cleaning: there scripts run and requests are made, so the harness can
// see both. The browsers send all requests through a proxy, which this program is, so each is seen, for any host. With CASES=FILE
// the cases are kept in that file, and taken from it if it is there. Needs Debian's chromium, firefox-esr and node-parse5
// (NODE_PATH=/usr/share/nodejs); runs without a window, in new profiles below /tmp.
"use strict";
const fs = require("fs");
const path = require("path");
const http = require("http");
const { spawnSync } = require("child_process");
const { read } = require("../browser.js");
const { maker } = require("./fragments.js");
const { policyOf } = require("./model.js");
const [program, count, seed, ...browsers] = [process.argv[2], Number(process.argv[3]), Number(process.argv[4]), ...process.argv.slice(5)];
const HOST = "harness.example";
// so many cleaned texts are read in one page
const BATCH = 25;
const HOSTS = [HOST, "h", "base.example"];

// ---- cases: cleaned texts, pages, and sources
const made = maker(seed);
const LOADED = /^(element (img|input|video|audio|source)|attribute (src|background|poster))/;
const OPEN = ["common", "element form", "element input", "element button", "element label", "element font", "element fieldset", "element menu", "element center", "attribute class", "attribute id", "attribute name", "attribute href", "attribute action", "attribute formaction", "data-attributes"];
const payload = (source) => source.replace(/alert\(/g, "top.hit(");
const byProgram = (words, input) => {
  const ran = spawnSync(program, ["clean", ...words], { input, maxBuffer: 1 << 30 });
  if (ran.status !== 0) throw new Error(`status ${ran.status} for ${words}: ${ran.stdout}`);
  return ran.stdout.toString();
};
function cleaned(lines, sources, quiet) {
  const schemes = [...policyOf(lines).schemes, "http"];
  const texts = byProgram(["each", ...lines], sources.join("\x1e")).split("\x1e").slice(0, -1);
  return sources.map((source, i) => ({ lines, source, text: texts[i], page: byProgram(["page", ...lines], source), schemes, quiet }));
}
function allCases() {
  const cases = [];
  const attacks = JSON.parse(fs.readFileSync(path.join(__dirname, "attacks.json"))).map(([, markup]) => payload(markup));
  for (const lines of [["common", "drop img"], OPEN.concat("drop img"), OPEN.concat("attribute src", "element video", "attribute poster")]) cases.push(...cleaned(lines, attacks, lines.includes("drop img")));
  while (cases.length < count + 3 * attacks.length) {
    const quiet = made.random(2) === 0;
    let lines = made.policyLines();
    if (quiet) lines = lines.filter((line) => !LOADED.test(line)).concat("drop img");
    const sources = Array.from({ length: 25 }, () => payload(made.fragment()));
    cases.push(...cleaned(lines, sources, quiet));
  }
  return cases;
}

// ---- what runs in the browser; `hit` and `walk` stand for themselves
const HARNESS = `<!DOCTYPE html><meta charset=utf-8><title>harness</title><body><script>
"use strict";
const HTML = "http://www.w3.org/1999/xhtml";
const VOID = new Set("area base basefont bgsound br col embed frame hr img input keygen link meta param source track wbr".split(" "));
const ADDRESSES = "action background cite classid codebase data dynsrc formaction href icon longdesc lowsrc manifest poster profile src usemap".split(" ");
let now = "start", hits = [];
window.hit = () => { hits.push(now); };
window.alert = window.confirm = window.prompt = window.hit;
// what an element is by its class: a control whose name is "attributes" hides that property of its form
const part = (type, name) => { const get = Object.getOwnPropertyDescriptor(type.prototype, name).get; return (node) => get.call(node); };
const typeOf = part(Node, "nodeType"), childrenOf = part(Node, "childNodes"), nameOf = part(Element, "localName"), spaceOf = part(Element, "namespaceURI"), attrsOf = part(Element, "attributes");
const rootOf = part(Document, "documentElement"), headOf = part(Document, "head"), bodyOf = part(Document, "body"), doctypeOf = part(Document, "doctype");
const insideOf = (node) => childrenOf(typeOf(node) === 1 && nameOf(node) === "template" && node.content ? node.content : node);
const esc = (text) => text.replace(/&/g, "&amp;").replace(/</g, "&lt;").replace(/>/g, "&gt;").replace(/\\u00a0/g, "&nbsp;");
function written(nodes) {
  let text = "";
  for (const node of nodes) {
    if (typeOf(node) === 3) text += esc(node.data);
    else if (typeOf(node) === 8) text += "<!--" + node.data + "-->";
    else if (typeOf(node) === 10) text += "<!DOCTYPE " + node.name + (node.publicId || node.systemId ? " ids" : "") + ">";
    else if (typeOf(node) !== 1) text += "<?>";
    else {
      const name = (spaceOf(node) === HTML ? "" : "foreign:") + nameOf(node);
      text += "<" + name;
      for (const attr of attrsOf(node)) text += " " + (attr.namespaceURI ? "foreign:" : "") + attr.name + '="' + esc(attr.value).replace(/"/g, "&quot;") + '"';
      text += ">";
      if (!VOID.has(nameOf(node))) text += written(insideOf(node)) + "</" + name + ">";
    }
  }
  return text;
}
// the one element in the head of a cleaned page
const META = '<meta charset="utf-8">';
function active(root, schemes) {
  const found = [];
  for (const node of (root.nodeType === 9 ? Document : root.nodeType === 11 ? DocumentFragment : Element).prototype.querySelectorAll.call(root, "*")) {
    if (node.parentNode && nameOf(node) === "meta" && node.parentNode.localName === "head" && node.outerHTML === META) continue;
    if (/^(script|style|iframe|object|embed|svg|math|template|noscript|base|meta|link)$/i.test(nameOf(node))) found.push("element " + nameOf(node));
    for (const attr of attrsOf(node)) {
      if (/^on/i.test(attr.name) || attr.name === "style" || attr.name === "srcdoc") found.push("attribute " + attr.name);
      if (!ADDRESSES.includes(attr.name)) continue;
      let url = null;
      try { url = new URL(attr.value, location.href); } catch (fault) { continue; }
      if (!schemes.includes(url.protocol.slice(0, -1))) found.push(attr.name + " " + url.protocol);
    }
    if ((nameOf(node) === "a" || nameOf(node) === "area") && node.hasAttribute("href") && node.protocol !== ":" && !schemes.includes(node.protocol.slice(0, -1))) found.push("protocol " + node.protocol);
  }
  return found;
}
const later = (time) => new Promise((done) => setTimeout(done, time));
function frameOf(address, most = 60000) {
  const frame = document.createElement("iframe");
  const loaded = new Promise((done) => { frame.onload = done; setTimeout(done, most); });
  frame.src = address;
  document.body.append(frame);
  return loaded.then(() => frame);
}
// a frame in which the page was read to its end; a frame that stays blank on a busy machine is asked for again
async function wholeFrame(address) {
  for (let tries = 1; ; tries++) {
    const frame = await frameOf(address);
    const page = frame.contentDocument;
    if (tries === 4 || (page && page.readyState === "complete" && new URL(page.URL).pathname === address)) return frame;
    frame.remove();
  }
}
// the cases from number n on: all texts in one page, each as innerHTML, and one of their pages
async function several(n, cases) {
  const results = cases.map((it, i) => ({ n: n + i, bad: [], found: [] }));
  const seen = (result, place, text, wanted, root, schemes) => {
    if (text !== wanted) result.bad.push({ place, text, wanted });
    for (const what of root ? active(root, schemes) : []) result.found.push({ place, what });
  };
  now = "batch " + n;
  let frame = await wholeFrame("/batch/" + n);
  let page = frame.contentDocument;
  const whole = doctypeOf(page) && rootOf(page).childNodes.length === 2 && rootOf(page).attributes.length === 0 && bodyOf(page) && bodyOf(page).attributes.length === 0 && headOf(page).innerHTML === META && childrenOf(page).length === 2;
  const shown = whole ? written(childrenOf(bodyOf(page))).split('<wbr data-next="">') : [];
  cases.forEach((it, i) => seen(results[i], "page", shown.length === cases.length ? shown[i] : "another page", it.text, i ? null : page, it.schemes));
  frame.remove();
  now = "clean_page " + n;
  frame = await wholeFrame("/page/" + n);
  seen(results[0], "clean_page", written(childrenOf(frame.contentDocument)), cases[0].page, frame.contentDocument, cases[0].schemes);
  frame.remove();
  frame = await wholeFrame("/host/" + n);
  page = frame.contentDocument;
  for (let i = 0; i < cases.length; i++) for (const place of ["div", "td", "li", "blockquote", "template", "body"]) {
    now = place + " " + (n + i);
    const holder = place === "body" ? bodyOf(page) : page.createElement(place);
    if (place !== "body") bodyOf(page).append(holder);
    holder.innerHTML = cases[i].text;
    seen(results[i], place, written(insideOf(holder)), cases[i].text, holder.content || holder, cases[i].schemes);
  }
  await later(20);
  frame.remove();
  return results;
}
async function uncleaned(n, it) {
  now = "uncleaned page " + n;
  let frame = await frameOf("/raw/" + n, 4000);
  await later(30);
  frame.remove();
  now = "uncleaned div " + n;
  frame = await frameOf("/rawhost/" + n, 4000);
  const holder = frame.contentDocument.createElement("div");
  frame.contentDocument.body.append(holder);
  holder.innerHTML = it.source;
  await later(60);
  frame.remove();
}
const post = (address, value) => fetch(address, { method: "POST", body: JSON.stringify(value) });
(async () => {
  const total = (await (await fetch("/total")).json()).total;
  for (let from = 0; from < total; from += ${BATCH}) {
    const cases = await (await fetch("/cases/" + from)).json();
    let results = [];
    // (a browser that has little time may lose a frame; a fault of a page comes again)
    for (let tries = 1; tries <= 2 && results.length === 0; tries++) {
      try { results = await several(from, cases); }
      catch (fault) { if (tries === 2) results = [{ n: from, bad: [{ place: now, text: String(fault) }], found: [] }]; }
    }
    await post("/result", { results, hits: hits.splice(0) });
  }
  await later(3000);
  await post("/result", { results: [], hits: hits.splice(0) });
  await post("/control", {});
  for (let from = 0; from < total; from += ${BATCH}) {
    const cases = (await (await fetch("/cases/" + from)).json());
    for (let i = 0; i < cases.length; i += ${BATCH}) try { await uncleaned(from + i, cases[i]); } catch (fault) { hits.push(String(fault)); }
    await post("/control", { hits: hits.splice(0) });
  }
  await later(2000);
  await post("/done", { hits: hits.splice(0), agent: navigator.userAgent });
})();
</script>`;

// ---- the server, which is also the proxy
const batch = (cases, number) => cases.slice(Number(number), Number(number) + BATCH);
const SHELL = '<!DOCTYPE html><html><head><meta charset="utf-8"></head><body>';
function serve(cases, report) {
  const own = {};
  const seen = { results: [], hits: [], requests: [], others: {}, control: null };
  const answer = (response, text, type = "text/html; charset=utf-8") => {
    response.writeHead(200, { "Content-Type": type, "Referrer-Policy": "unsafe-url", "Cache-Control": "no-store" });
    response.end(text);
  };
  const json = (response, value) => answer(response, JSON.stringify(value), "application/json");
  const unseen = (url, request, response) => {
    if (!HOSTS.includes(url.hostname)) own[url.hostname] = (own[url.hostname] || 0) + 1;
    else if (url.pathname !== "/favicon.ico") {
      const noted = { url: url.href, from: request.headers.referer || "" };
      (seen.control ? seen.control.requests : seen.requests).push(noted);
    }
    response.writeHead(404, { "Content-Type": "text/plain" });
    response.end("none");
  };
  const posted = (name, value, response) => {
    if (name === "result") { seen.results.push(...value.results); seen.hits.push(...value.hits); process.stderr.write(`\r${seen.results.length} of ${cases.length} `); }
    if (name === "control" && !seen.control) told(cases, seen);
    if (name === "control") { seen.control = seen.control || { hits: [], requests: [] }; seen.control.hits.push(...(value.hits || [])); }
    if (name === "done") { seen.control.hits.push(...value.hits); seen.agent = value.agent; seen.own = own; report(seen); }
    json(response, {});
  };
  return http.createServer((request, response) => {
    const url = new URL(request.url, `http://${request.headers.host}`);
    const [, name, number] = /^\/([a-z]*)\/?(\d*)$/.exec(url.pathname) || [];
    if (url.hostname !== HOST || name === undefined) return unseen(url, request, response);
    const it = number === "" ? null : cases[Number(number)];
    if (request.method === "POST" && ["result", "control", "done"].includes(name)) {
      let body = "";
      request.setEncoding("utf8");
      request.on("data", (part) => { body += part; });
      request.on("end", () => posted(name, JSON.parse(body), response));
      return;
    }
    if (name === "" && number === "") return answer(response, HARNESS);
    if (name === "total") return json(response, { total: cases.length });
    if (name === "cases") return json(response, cases.slice(Number(number), Number(number) + BATCH));
    if (name === "batch" && it) return answer(response, `${SHELL}${batch(cases, number).map((one) => one.text).join("<wbr data-next>")}</body></html>`);
    if (name === "page" && it) return answer(response, it.page);
    if (name === "raw" && it) return answer(response, `${SHELL}${it.source}</body></html>`);
    if ((name === "host" || name === "rawhost") && it) return answer(response, `${SHELL}</body></html>`);
    return unseen(url, request, response);
  }).on("connect", (request, socket) => {
    const host = request.url.split(":")[0];
    if (HOSTS.includes(host)) (seen.control ? seen.control.requests : seen.requests).push({ url: `CONNECT ${request.url}`, from: "" });
    else own[host] = (own[host] || 0) + 1;
    socket.on("error", () => {});
    socket.end("HTTP/1.1 404 None\r\n\r\n");
  });
}

// ---- what was found
const number = (address) => (/\/(?:batch|page|host)\/(\d+)$/.exec(address) || [])[1];
const plain = (value) => value.replace(/&lt;/g, "<").replace(/&gt;/g, ">").replace(/&quot;/g, '"').replace(/&nbsp;/g, "\u00a0").replace(/&amp;/g, "&");
function explained(cases, noted) {
  // (where the frame is gone, the page around it is named)
  const from = number(noted.from);
  const values = (from === undefined ? cases : batch(cases, from)).filter((it) => !it.quiet).flatMap((it) => [...(it.text + it.page).matchAll(/ (?:src|background|poster)="([^"]*)"/g)].map((found) => plain(found[1])));
  return values.some((value) => { try { const url = new URL(value, noted.from); url.hash = ""; return url.href === noted.url; } catch (fault) { return false; } });
}
// what was found of the cleaned texts, before the others are read
function told(cases, seen) {
  const bad = seen.results.flatMap((it) => it.bad.map((one) => ({ n: it.n, ...one })));
  const found = seen.results.flatMap((it) => it.found.map((one) => ({ n: it.n, ...one })));
  const strange = seen.requests.filter((noted) => !explained(cases, noted));
  console.log(`  ${seen.results.length} fragments in 7 places, ${cases.filter((it) => it.text).length} of ${cases.length} with a text, ${cases.filter((it) => it.quiet).length} by policies without loaded addresses`);
  console.log(`  trees that differ: ${bad.length}; scripts run: ${seen.hits.length}; active parts: ${found.length}; requests: ${seen.requests.length}, not for an allowed address: ${strange.length}`);
  for (const [name, list] of Object.entries({ bad, found, hits: seen.hits, strange })) for (const one of list.slice(0, 8)) console.log("  ", name, JSON.stringify({ ...one, ...(one.n === undefined ? {} : { lines: cases[one.n].lines, source: cases[one.n].source }) }));
  return bad.length + found.length + seen.hits.length + strange.length === 0;
}
function tell(browser, cases, seen) {
  const good = told(cases, seen);
  console.log(`  control, ${Math.ceil(cases.length / BATCH)} of the fragments not cleaned: scripts run: ${seen.control.hits.length}; requests: ${seen.control.requests.length}`);
  console.log(`  requests of the browser's own, ${browser}, ${seen.agent}: ${JSON.stringify(seen.own)}`);
  return good && seen.control.hits.length > 0 && seen.control.requests.length > 0;
}
async function main() {
  const kept = process.env.CASES;
  const cases = kept && fs.existsSync(kept) ? JSON.parse(fs.readFileSync(kept)) : allCases();
  if (kept) fs.writeFileSync(kept, JSON.stringify(cases));
  cases.sort((a, b) => a.quiet - b.quiet);
  console.log(`${cases.length} cases, ${cases.reduce((sum, it) => sum + it.text.length, 0)} characters`);
  let good = true;
  for (const browser of browsers) {
    const seen = await read(browser, HOST, (done) => serve(cases, done));
    good = tell(browser, cases, seen) && good;
  }
  process.exit(good ? 0 : 1);
}
main();
