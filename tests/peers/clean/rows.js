// rows.js FOLDER writes the rows of tests/rows/test_calls/clean: the text is the model's, and `read` is what parse5 makes of that text in
// a div. Five rows are not the model's: the three with `noframes`, since parse5 7.1 reads what is in a `noframes` of a body as
// markup, where the standard reads a text; and the two of "select and style", since parse5 7.1 has the rules of `select` of
// before 2025, and today a `style` in a `select` is a text, as Chromium and Firefox read it.
"use strict";
const fs = require("fs");
const path = require("path");
const { clean, policyOf, readIn } = require("./model.js");
const folder = process.argv[2];
function row(args, markup, more) {
  const output = clean(policyOf(args), markup);
  const read = readIn("div", output, true);
  return { ...more, args, markup, output, ...(more || read !== output ? { read } : {}) };
}
const refused = (args, fault) => ({ args, markup: "x", output: fault + "\n" });
const inTurn = (lines, steps) => steps.map(([more, fault]) => {
  lines = [...lines, ...more];
  return fault ? refused(lines, fault) : row(lines, "x");
});
function write(name, rows) {
  fs.writeFileSync(path.join(folder, name + ".jsonl"), rows.map((one) => JSON.stringify(one) + "\n").join(""));
  console.log(name, rows.length);
}
const attacks = JSON.parse(fs.readFileSync(path.join(__dirname, "attacks.json")));
const OPEN = ["common", "element form", "element input", "element button", "element label", "element video", "element audio", "element source", "element font", "element fieldset", "element menu", "element center", "attribute class", "attribute id", "attribute name", "attribute href", "attribute src", "attribute action", "attribute formaction", "attribute poster", "attribute background", "data-attributes"];
write("attacks", attacks.flatMap(([name, markup]) => [row(["common"], markup, { name }), row(OPEN, markup, { name })]));

// each element that may be kept, alone, where it stands, and what it is left with when it isn't allowed
const KEEPABLE = "a abbr acronym address area article aside audio b bdi bdo big blockquote br button canvas caption center cite code col colgroup data datalist dd del details dfn dialog dir div dl dt em fieldset figcaption figure font footer form h1 h2 h3 h4 h5 h6 header hgroup hr i img input ins kbd label legend li main map mark menu meter nav ol output p picture pre progress q rp rt ruby s samp search section slot small source span strike strong sub summary sup table tbody td tfoot th thead time tr track tt u ul var video wbr".split(" ");
const AROUND = { li: "<ul>|</ul>", dd: "<dl>|</dl>", dt: "<dl>|</dl>", rp: "<ruby>|</ruby>", rt: "<ruby>|</ruby>", caption: "<table>|</table>", colgroup: "<table>|</table>", col: "<table><colgroup>|</colgroup></table>", tbody: "<table>|</table>", thead: "<table>|</table>", tfoot: "<table>|</table>", tr: "<table><tbody>|</tbody></table>", td: "<table><tbody><tr>|</tr></tbody></table>", th: "<table><tbody><tr>|</tr></tbody></table>" };
const NEEDS = { rp: ["element ruby"], rt: ["element ruby"] };
// A table, and the parts that its texts need.
const PARTS = "table tbody tr td th thead tfoot caption".split(" ");
const TABLE = ["table", "tbody", "tr", "td", "colgroup", "th", "thead", "tfoot", "caption"].map((name) => "element " + name);
write("elements", KEEPABLE.flatMap((name) => {
  const [before, after] = (AROUND[name] || "|").split("|");
  const markup = `${before}<${name}>x</${name}>${after}`;
  const around = NEEDS[name] || (AROUND[name] ? [...TABLE, "element ul", "element dl"] : []);
  const args = [...new Set([...around, "element " + name, ...(name === "table" ? TABLE : [])])];
  const without = around.filter((line) => line !== "element " + name && (name !== "td" && name !== "tr" && name !== "tbody"));
  return [row(args, markup), PARTS.indexOf(name) > 3 ? refused(without, `\`table\` is allowed without \`${name}\``) : row(without, markup)];
}));
const common = policyOf(["common"]);
write("common", [
  ...[...common.elements].map((name) => { const [before, after] = (AROUND[name] || "|").split("|"); return row(["common"], `${before}<${name}>x</${name}>${after}`); }),
  ...[...common.attributes].map((name) => row(["common"], `<b ${name}="v" no${name}="v">x</b>`)),
  ...common.own.map(([element, name]) => { const [before, after] = (AROUND[element] || "|").split("|"); return row(["common", "element tfoot"], `${before}<${element} ${name}="v">x</${element}>${after}<b ${name}="v">y</b>`); }),
  ...[...common.schemes].map((scheme) => row(["common"], `<a href="${scheme}:x">x</a><a href="${scheme.toUpperCase()}://x/">x</a><a href="x${scheme}:x">y</a>`)),
  ...["script", "style"].map((name) => row(["common"], `a<${name}>b</${name}>c`)),
  ...["title", "base", "link", "meta", "head", "template", "svg", "math", "iframe", "noscript", "textarea", "select", "object", "embed", "xmp", "noembed", "noframes", "plaintext", "ruby", "rb", "rtc", "x-y"].map((name) => row(["common"], `a<${name}>b<i>c</i></${name}>d`)),
]);
const ADDRESSES = "action background cite classid codebase data dynsrc formaction href icon longdesc lowsrc manifest poster profile src usemap".split(" ");
const VALUES = ["http://h/", "HTTPS:/h", "javascript:alert(1)", " \t\njava\tscript:x", "data:text/html,x", "/y?a=1&b", "?q", "#f", "//h/x", "\\\\h\\x", "mailto:x", "http:y", "x y:z", "1a:b", "a+b-c.d:e", ":x", "", "http://[x", "é:x", "h\nttp://h/"];
write("addresses", [
  ...ADDRESSES.map((name) => row(["common", "attribute " + name], `<b ${name}="javascript:x">1</b><b ${name}="http://h/">2</b><b ${name}="/y">3</b>`)),
  ...VALUES.flatMap((value) => ["keep-relative", "drop-relative", "resolve-relative https://b.example/d/e?f#g"].map((rule) => row(["common", rule], `<a href="${value.replace(/&/g, "&amp;")}">x</a>`))),
  row(["element a", "attribute href", "scheme http", "resolve-relative http://b.example/"], "<a href='y'>x</a><a href='https://h/'>y</a>"),
]);
write("rules", [
  row(["element b"], "<b onclick=x>a</b><!--c--><i>d</i>"),
  row([], "<b>a</b>&lt;i&gt;"),
  row(["element b", "attribute title"], "<b title='&lt;&gt;&amp;&quot;&apos;&nbsp;é' title=2>x</b>"),
  row(["element b", "value b class x", "value b class y"], "<b class=x>1</b><b class=y>2</b><b class=z>3</b>"),
  row(["element b", "element i", "attribute-of b class"], "<b class=x>1</b><i class=x>2</i>"),
  row(["element b", "attribute class", "class x", "class y"], "<b class='z x  q y x'>1</b><b class='q'>2</b><b class=''>3</b>"),
  row(["element b", "attribute id", "id-prefix u-"], "<b id=x>1</b><b id=u-x>2</b><b id=''>3</b>"),
  row(["element b", "data-attributes"], "<b data-x=1 data-=2 data-Y=3 data-é=4 datax=5 data-a.b=6>1</b>"),
  row(["element a", "element area", "rel nofollow noopener"], "<a rel=x>1</a><area rel=x>"),
  row(["element a", "attribute rel"], "<a rel=x>1</a>"),
  row(["common", "no-rel"], "<a href=/x>1</a>"),
  ...[0, 1, 2, 3].map((depth) => row(["element div", "depth " + depth], "<div>a<div>b<div>c<div>d</div></div></div></div>")),
  row(["element div", "drop i"], "<div>a<i>b<b>c</b></i>d</div>"),
  row(["element div", "element i", "drop i"], "<div>a<i>b</i>d</div>"),
  row(["element p", "element b"], "<p>a<b>b<p>c</p></b></p>"),
  row(["common"], "<p>a<table><tr><td>b</td></tr></table></p>"),
  row(["common"], "<table>a<tr>b<td>c</td></tr></table>"),
  row(["common"], "<a href=/1>a<table><tr><td><a href=/2>b</a></td></tr></table></a>"),
  row(["common"], "<ul><li>a<ul><li>b</ul><li>c</ul>d"),
  row(["common"], "<dl><dt>a<dd>b<div><dt>c</div></dl>"),
  row(["common"], "<h1>a<div><h2>b</h2></div></h1>"),
  row(["common"], "<ruby>漢<rp>(</rp><rt>kan</rt><rp>)</rp>字<rp>(</rp><rt>ji</rt><rp>)</rp></ruby>", {}),
  row(["common"], "<ruby>漢<rp>(<rt>kan<rp>)</ruby>字"),
  row(["common"], "<rt>a</rt>b<p>c<rp>d</rp></p>"),
  row(["common"], "<ruby>a<b>b<rt>c</rt></b></ruby>"),
  row(["common"], "<ruby>a<rt>b<ruby>c<rt>d</rt></ruby></rt></ruby>", {}),
  row(["common"], "<ruby><rb>a</rb><rt>b</rt><rtc><rt>c</rt></rtc></ruby>"),
  row(["common"], "<ruby><rt><p>a<p>b</rt><div>c<rt>d</rt></div></ruby>"),
  row(["common"], "<p><ruby>a<rt><div>b</div></rt></ruby>c</p>"),
  row(["common"], "<ruby>a<rt><span>b<rt>c</ruby>d"),
  row(["element rt", "element rp"], "<ruby>a<rt>b</rt></ruby>"),
  row(["element ruby", "drop rt"], "<ruby>a<rp>(</rp><rt>b</rt></ruby>"),
  row(["common"], "a\0b\rc\r\nd"),
  row(["common"], "<pre>\n\n\na</pre><pre><b>\nc</b>\nd</pre><pre><i></i>\ne</pre><pre>\n</pre><pre><x>\n</x>\nf</pre>"),
  row(["element pre"], "<pre><x>\n</x>\n\ng\nh</pre>"),
  row(["common", "disallow-element img"], "a<img src=x>b<b>c</b>"),
  row(["element b", "element i", "element b", "disallow-element b", "disallow-element u"], "<b>1</b><i>2</i>"),
  row(["element b", "disallow-element b", "element b"], "<b>1</b>"),
  row(["element b", "drop i", "drop u", "undrop-element i"], "<b>a<i>b</i><u>c</u></b>"),
  row(["common", "undrop-element style"], "a<style>b</style>c"),
  row(["common", "disallow-attribute title"], "<b title=x lang=y>1</b>"),
  row(["element b", "attribute title", "attribute-of b title", "disallow-attribute title"], "<b title=x>1</b>"),
  row(["element b", "attribute title", "attribute-of b title", "disallow-attribute-of b title"], "<b title=x>1</b>"),
  row(["common", "disallow-attribute-of a href"], "<a href=/x hreflang=y>1</a><q cite=/z>2</q>"),
  row(["element b", "value b class x", "attribute-of b class", "disallow-attribute-of b class", "value b class y"], "<b class=x>1</b><b class=y>2</b>"),
  row(["element b", "element i", "attribute-of b class", "attribute-of i class", "disallow-attribute-of b class"], "<b class=x>1</b><i class=x>2</i>"),
  row(["common", "disallow-scheme ftp"], "<a href=ftp://h/>1</a><a href=https://h/>2</a>"),
  row(["element b", "attribute class", "class x", "class y", "disallow-class x"], "<b class='x y z'>1</b>"),
  row(["element b", "attribute class", "class x", "disallow-class x"], "<b class='x y'>1</b>"),
  row(["element b", "attribute class", "disallow-class x"], "<b class='x y'>1</b>"),
  row(["element svg", "element b", "disallow-element svg"], "<p><b>1</b></p>"),
]);
write("refusals", [
  ...["script", "style", "title", "textarea", "template", "noscript", "svg", "math", "select", "option", "optgroup", "iframe", "object", "embed", "applet", "frame", "frameset", "base", "link", "meta", "head", "body", "html", "plaintext", "xmp", "noembed", "noframes", "listing", "marquee", "nobr", "image", "keygen", "param", "x-y", "DIV", "", "foreignobject", "bgsound"].map((name) => refused(["element " + name], `element \`${name}\` can't be kept safely`)),
  ...["onclick", "on", "onx", "style", "srcset", "srcdoc", "imagesrcset", "ping", "is", "nonce", "http-equiv", "archive", "attributionsrc", "xmlns", "xlink:href", "xml:lang", "HREF", "a b", "a=b", "\"", "", "é"].map((name) => refused(["attribute " + name], `attribute \`${name}\` can't be kept safely`)),
  refused(["element b", "attribute-of b onclick"], "attribute `onclick` can't be kept safely"),
  refused(["element b", "value b style x"], "attribute `style` can't be kept safely"),
  ...["javascript", "vbscript", "data"].map((name) => refused(["scheme " + name], `scheme \`${name}\` can't be kept safely`)),
  ...PARTS.slice(1).map((part) => refused(PARTS.filter((name) => name !== part).map((name) => "element " + name), `\`table\` is allowed without \`${part}\``)),
  refused(["resolve-relative http://h/"], "the scheme of the base isn't allowed"),
  refused(["scheme https", "resolve-relative http://h/"], "the scheme of the base isn't allowed"),
  refused(["rel no<follow"], "the `rel` of links can't be written"),
  refused(["rel nofollow", "attribute rel"], "links get a `rel`, but attribute `rel` is allowed, too"),
  refused(["rel nofollow", "attribute-of a rel"], "links get a `rel`, but attribute `rel` is allowed, too"),
  refused(["rel no<follow", "attribute rel"], "the `rel` of links can't be written"),
  refused(["class a b"], "class `a b` can't be written"),
  refused(["class "], "class `` can't be written"),
  refused(["class é"], "class `é` can't be written"),
  refused(["id-prefix A"], "the prefix of ids can't be written"),
  refused(["id-prefix a b"], "the prefix of ids can't be written"),
  refused(["depth 257"], "the depth is above 256"),
  row(["depth 256"], "x"),
  // the order of the faults: each row mends that of the row before it
  ...inTurn(["element table", "element svg", "element math", "attribute-of b onx", "attribute ony", "attribute srcset", "attribute-of a rel", "scheme http", "scheme data", "scheme javascript", "resolve-relative gopher://h/", "rel <", "class a", "class é", "class b c", "id-prefix A", "depth 257"], [
    [[], "element `svg` can't be kept safely"],
    [["disallow-element svg"], "element `math` can't be kept safely"],
    [["disallow-element math"], "`table` is allowed without `tbody`"],
    [["element td", "element tbody"], "`table` is allowed without `tr`"],
    [["disallow-element table"], "attribute `ony` can't be kept safely"],
    [["disallow-attribute ony"], "attribute `srcset` can't be kept safely"],
    [["disallow-attribute srcset"], "attribute `onx` can't be kept safely"],
    [["disallow-attribute-of b onx"], "scheme `data` can't be kept safely"],
    [["disallow-scheme data"], "scheme `javascript` can't be kept safely"],
    [["disallow-scheme javascript"], "the scheme of the base isn't allowed"],
    [["scheme gopher"], "the `rel` of links can't be written"],
    [["rel nofollow"], "links get a `rel`, but attribute `rel` is allowed, too"],
    [["disallow-attribute-of a rel"], "class `é` can't be written"],
    [["disallow-class é"], "class `b c` can't be written"],
    [["disallow-class b c"], "the prefix of ids can't be written"],
    [["id-prefix a"], "the depth is above 256"],
    [["depth 256"], null],
  ]),
]);
