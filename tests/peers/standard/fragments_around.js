// Fragments whose context element has attributes, or is in a form, or in a document in quirks mode: node fragments_around.js. Adds to
// tests/standard/trees/fragments.jsonl the trees that Chromium has (`innerHTML`), in the form of html5lib's tests, and whether Firefox has the
// same: Firefox 153 doesn't look at the attributes of a context element `annotation-xml`.
"use strict";
const fs = require("fs");
const http = require("http");
const path = require("path");
const { read } = require("../browser.js");
const FILE = path.join(__dirname, "../../standard/trees/fragments.jsonl");

const PAGE = `<!doctype html><meta charset=utf-8><script>
const HTML = "http://www.w3.org/1999/xhtml", URIS = {"": HTML, svg: "http://www.w3.org/2000/svg", math: "http://www.w3.org/1998/Math/MathML"};
function write(node, depth, out) {
  for (const it of node.childNodes) {
    const indent = "| " + "  ".repeat(depth), space = Object.keys(URIS).find(name => URIS[name] === it.namespaceURI);
    if (it.nodeType === 3) out.push(indent + '"' + it.data + '"');
    else {
      out.push(indent + "<" + (space ? space + " " : "") + it.localName + ">");
      write(it, depth + 1, out);
    }
  }
}
function tree(row) {
  const page = new DOMParser().parseFromString(row.quirks === "quirks" ? "" : "<!doctype html>", "text/html");
  const [space, name] = row.context.includes(" ") ? row.context.split(" ") : ["", row.context];
  const element = page.createElementNS(URIS[space], name), out = [];
  for (const [key, value] of row.attrs) element.setAttribute(key, value);
  const above = page.body.appendChild(page.createElement(row.in_form ? "form" : "div"));
  above.appendChild(element);
  element.innerHTML = row.text;
  write(element, 0, out);
  return out.map(line => line + "\\n").join("");
}
fetch("rows.json").then(it => it.json()).then(rows => fetch("trees", {method: "POST", body: JSON.stringify(rows.map(tree))}));
</script>`;

const serve = (rows) => (done) =>
  http.createServer((request, answer) => {
    const words = [];
    request.on("data", (piece) => words.push(piece));
    request.on("end", () => {
      const json = request.url.endsWith("rows.json");
      answer.writeHead(200, { "Content-Type": json ? "application/json" : "text/html" });
      answer.end(json ? JSON.stringify(rows) : request.method === "GET" ? PAGE : "");
      if (request.method === "POST" && request.url.endsWith("trees")) done(JSON.parse(Buffer.concat(words).toString()));
    });
  });

(async () => {
  const rows = fs.readFileSync(FILE, "utf8").trim().split("\n").map((line) => JSON.parse(line));
  const trees = { chromium: await read("chromium", "page.example", serve(rows)), firefox: await read("firefox-esr", "page.example", serve(rows)) };
  rows.forEach((row, i) => {
    row.by = Object.keys(trees).filter((browser) => trees[browser][i] === trees.chromium[i]);
    row.tree = trees.chromium[i];
  });
  fs.writeFileSync(FILE, rows.map((row) => JSON.stringify(row) + "\n").join(""));
})();
