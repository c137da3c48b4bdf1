// browsers.js HQ BROWSER ..: the pages of examples/encodings as each BROWSER (chromium, firefox-esr) reads them, from a server that
// names no encoding, beside `hq --text html`. Prints the encoding that the browser found, and whether the texts are equal.
"use strict";
const fs = require("fs");
const http = require("http");
const path = require("path");
const { spawnSync } = require("child_process");
const { read } = require("../browser.js");
const [hq, ...browsers] = process.argv.slice(2);
const HOST = "harness.example";
const FOLDER = path.join(__dirname, "..", "..", "..", "examples", "encodings");
const names = fs.readdirSync(FOLDER).filter((name) => name.endsWith(".html")).sort();

// Each page is opened in a window of its own: a frame without an encoding would take that of the page around it.
const HARNESS = `<!DOCTYPE html><meta charset=utf-8><title>harness</title><script>
"use strict";
const later = (time) => new Promise((done) => setTimeout(done, time));
(async () => {
  const names = ${JSON.stringify(names)};
  const found = [];
  for (const name of names) {
    const page = window.open("/pages/" + name);
    for (let i = 0; i < 400; i++) {
      await later(50);
      if (page.location.pathname.startsWith("/pages/") && page.document.readyState === "complete") break;
    }
    found.push({ name, text: page.document.documentElement.textContent, encoding: page.document.characterSet });
    page.close();
  }
  await fetch("/done", { method: "POST", body: JSON.stringify({ found, agent: navigator.userAgent }) });
})();
</script>`;
function serve(done) {
  return http.createServer((request, response) => {
    const url = new URL(request.url, `http://${request.headers.host}`);
    const answer = (status, body) => { response.writeHead(status, { "Content-Type": "text/html" }); response.end(body); };
    if (url.hostname !== HOST) return answer(404, "");
    if (url.pathname === "/") return answer(200, HARNESS);
    if (url.pathname === "/done") {
      let body = "";
      request.setEncoding("utf8");
      request.on("data", (part) => { body += part; });
      request.on("end", () => { answer(200, ""); done(JSON.parse(body)); });
      return undefined;
    }
    const name = names.find((it) => url.pathname === "/pages/" + it);
    return name ? answer(200, fs.readFileSync(path.join(FOLDER, name))) : answer(404, "");
  }).on("connect", (request, socket) => { socket.on("error", () => {}); socket.end("HTTP/1.1 404 None\r\n\r\n"); });
}
async function main() {
  let differ = 0;
  for (const browser of browsers) {
    const { found, agent } = await read(browser, HOST, serve);
    console.log(`${browser}: ${agent}`);
    for (const { name, text, encoding } of found) {
      const ran = spawnSync(hq, ["--verbose", "--text", "html", path.join(FOLDER, name)]);
      const ours = ran.stdout.toString().replace(/\n$/, "");
      if (ours !== text) differ++;
      console.log(`  ${name}: ${encoding}; hq: ${ran.stderr.toString().trim().replace(/^.*?html: /, "")}; ${ours === text ? "the same text" : "ANOTHER TEXT"}: ${JSON.stringify(text.trim().slice(0, 60))}${ours === text ? "" : " hq: " + JSON.stringify(ours)}`);
    }
  }
  process.exit(differ ? 1 : 0);
}
main();
