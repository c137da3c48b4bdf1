// The tokens of texts by parse5. Standard input is a JSON list of the texts of tests/standard/random_texts.py; prints a JSON list of their
// tokens, as tests/standard/machine.py gives them.
const path = require('path');
const fs = require('fs');
const root = path.dirname(require.resolve('parse5'));
const { Tokenizer } = require(path.join(root, 'tokenizer', 'index.js'));
const MODE = { Data: 0, RCDATA: 1, RAWTEXT: 2, ScriptData: 3, PLAINTEXT: 4, CDATASection: 68 };
const SWITCHES = { title: 1, textarea: 1, style: 2, xmp: 2, iframe: 2, noembed: 2, noframes: 2, script: 3, plaintext: 4 };

function tokens(c) {
    const out = [];
    const chars = (t) => {
        const last = out[out.length - 1];
        if (last && last[0] === 'chars') last[1] += t.chars; else out.push(['chars', t.chars]);
    };
    let tokenizer;
    const handler = {
        onComment: (t) => out.push(['comment', t.data]),
        onDoctype: (t) => out.push(['doctype', t.name, t.publicId, t.systemId, t.forceQuirks]),
        onStartTag: (t) => {
            out.push(['start', t.tagName, t.attrs.map((a) => [a.name, a.value]), t.selfClosing]);
            if (c.switches && Object.hasOwn(SWITCHES, t.tagName)) tokenizer.state = SWITCHES[t.tagName];
        },
        onEndTag: (t) => out.push(['end', t.tagName]),
        onEof: () => out.push(['eof']),
        onCharacter: chars, onNullCharacter: chars, onWhitespaceCharacter: chars, onParseError: () => {},
    };
    tokenizer = new Tokenizer({ sourceCodeLocationInfo: false }, handler);
    tokenizer.state = MODE[c.state];
    if (c.last !== null) tokenizer.lastStartTagName = c.last;
    tokenizer.inForeignNode = c.foreign;
    tokenizer.write(c.text, true);
    return out;
}
console.log(JSON.stringify(JSON.parse(fs.readFileSync(0, 'utf8')).map(tokens)));
