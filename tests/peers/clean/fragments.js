// Random hostile fragments, and random policies as lines that the test program's part `clean` reads: maker(SEED) has the functions `fragment` and
// `policyLines`. The same seed gives the same ones. They have no `select`, whose rules parse5 7.1 has as they were before 2025
// (../browsers/compare.py is for those).
"use strict";
const NAMES = ("a abbr b blockquote br button caption center code col colgroup dd details div dl dt em fieldset form font h1 h2 hr i img input kbd label li mark menu nav nobr ol p pre q s samp small span strong sub summary sup table tbody td tfoot th thead tr tt u ul var wbr " +
  "svg math mtext mi mo mglyph malignmark annotation-xml foreignObject desc title style script noscript template option optgroup textarea iframe noembed xmp plaintext object embed applet marquee frameset frame noframes head body html base link meta listing dialog ruby rt rp rb rtc x-y image keygen param source").split(" ");
const ATTRS = "href src title class id style onclick onerror srcdoc srcset xlink:href action formaction name lang data-x is nonce background colspan rel target encoding".split(" ");
const VALUES = ["x", "a b", "javascript:alert(1)", " java\tscript:alert(1)", "http://h/?a=1&b=2", "/y", "//h/x", "data:text/html,<b>", "\"><img src=x onerror=alert(1)>", "</style><b>", "--><b>", "]]><b>", "&lt;img&gt;", "&#0;&#13;", "\u00a0", "text/html", "vbscript:x", "#f", "&colon;", "`"];
const TEXTS = ["t", "\n", " ", "\n\nx", "<", "</", "<!", "<?x?>", "<!--c-->", "<!--", "-->", "<![CDATA[x]]>", "]]>", "&amp;", "&lt;b&gt;", "&", "&nbsp;", "\u00a0", "\0", "\r", "\r\n", "<!doctype html>", "é", "\ufffd", "\u{1f600}", "</p>", "</br>", "<!-->", "<!--->", "--!>", "&#x0;", "&notit;", "&ampx"];
const EXTRA = ["element button", "element form", "element input", "element label", "element fieldset", "element menu", "element font", "element tfoot", "attribute class", "attribute id", "attribute name", "attribute src", "attribute href", "attribute action", "attribute formaction", "attribute background", "data-attributes", "id-prefix u-", "class x", "class a"];
function maker(seed) {
  let state = seed >>> 0;
  function random(limit) {
    state = (Math.imul(state, 1664525) + 1013904223) >>> 0;
    return Math.floor((state / 4294967296) * limit);
  }
  const pick = (list) => list[random(list.length)];
  function attribute() {
    const quote = pick(["\"", "'", "", "`"]);
    const value = pick(VALUES);
    const name = random(30) ? pick(ATTRS) : pick(["ON\u017FCLICK", "<b", "=x", "a\"b", "HREF"]);
    return ` ${name}${pick(["=", " = ", "", "="])}${quote}${value}${quote}`;
  }
  function tag() {
    const name = random(12) ? pick(NAMES) : pick(NAMES).toUpperCase();
    if (random(3) === 0) return `</${name}${random(9) ? "" : attribute()}${random(20) ? ">" : ""}`;
    let text = "<" + name;
    while (random(3) === 0) text += attribute();
    return text + pick(["", "", "", "/", " "]) + (random(25) ? ">" : "");
  }
  function fragment() {
    let text = "";
    const parts = 1 + random(pick([4, 8, 16, 40]));
    for (let i = 0; i < parts; i++) text += random(3) ? tag() : pick(TEXTS);
    if (random(300) === 0) text = `<${pick(NAMES)}>`.repeat(300 + random(400)) + text;
    return text.replace(/\x1e/g, "");
  }
  function policyLines() {
    const lines = ["common"];
    while (random(2)) lines.push(pick(EXTRA));
    if (random(4) === 0) lines.push(pick(["drop-relative", "resolve-relative http://base.example/d/e?f", "depth 3", "depth 1", "drop svg", "drop math", "rel nofollow"]));
    if (random(9) === 0) lines.push("no-rel");
    return lines;
  }
  return { fragment, policyLines, random, pick };
}
module.exports = { maker };
