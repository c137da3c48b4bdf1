// Trees of pages by parse5, in the form of html5lib's tests of tree construction, as `hq --tree` prints them. Standard input is a JSON
// list of [text, context or null, scripting]; a context is the name of an HTML element, or one behind `svg` or `math`. A fourth part may say
// what is around a fragment: `attrs` of the context, `quirks`, the mode of its document, and `in_form`. Prints a JSON list of
// [tree, quirks mode, HTML].
const fs = require('fs');
const parse5 = require('parse5');

const SPACES = {
    'http://www.w3.org/1999/xhtml': '',
    'http://www.w3.org/2000/svg': 'svg ',
    'http://www.w3.org/1998/Math/MathML': 'math ',
    'http://www.w3.org/1999/xlink': 'xlink ',
    'http://www.w3.org/XML/1998/namespace': 'xml ',
    'http://www.w3.org/2000/xmlns/': 'xmlns ',
};
const HTML = 'http://www.w3.org/1999/xhtml';
const URIS = { svg: 'http://www.w3.org/2000/svg', math: 'http://www.w3.org/1998/Math/MathML' };

const doctype = (node) => {
    const ids = node.publicId || node.systemId ? ` "${node.publicId || ''}" "${node.systemId || ''}"` : '';
    return `<!DOCTYPE ${node.name || ''}${ids}>`;
};

const attr_name = (attr) => {
    if (!attr.namespace || attr.name === 'xmlns') return attr.name;
    return SPACES[attr.namespace] + attr.name;
};

const by_bytes = (a, b) => Buffer.compare(Buffer.from(a[0]), Buffer.from(b[0]));

const lines_of = (node, depth, lines) => {
    const put = (text, more) => lines.push('| ' + '  '.repeat(depth + (more || 0)) + text);
    if (node.nodeName === '#text') put(`"${node.value}"`);
    else if (node.nodeName === '#comment') put(`<!-- ${node.data} -->`);
    else if (node.nodeName === '#documentType') put(doctype(node));
    else {
        put(`<${SPACES[node.namespaceURI]}${node.tagName}>`);
        const attrs = node.attrs.map((attr) => [attr_name(attr), attr.value]).sort(by_bytes);
        for (const [name, value] of attrs) put(`${name}="${value}"`, 1);
        if (node.tagName === 'template' && node.content) {
            put('content', 1);
            for (const child of node.content.childNodes) lines_of(child, depth + 2, lines);
        }
        for (const child of node.childNodes) lines_of(child, depth + 1, lines);
    }
};

const read = ([text, context, scripting, around]) => {
    const options = { scriptingEnabled: scripting };
    const lines = [];
    let top;
    if (context === null) top = parse5.parse(text, options);
    else {
        const [space, name] = context.includes(' ') ? context.split(' ') : ['', context];
        const uri = URIS[space] || HTML;
        const { attrs, quirks, in_form } = around || { attrs: [] };
        const made = parse5.defaultTreeAdapter;
        const element = made.createElement(name, uri, attrs.map(([name, value]) => ({ name, value })));
        if (in_form) made.appendChild(made.createElement('form', HTML, []), element);
        if (quirks) options.treeAdapter = { ...made, getDocumentMode: () => quirks };
        top = parse5.parseFragment(element, text, options);
    }
    for (const child of top.childNodes) lines_of(child, 0, lines);
    return [lines.map((line) => line + '\n').join(''), top.mode || '', parse5.serialize(top)];
};

console.log(JSON.stringify(JSON.parse(fs.readFileSync(0, 'utf8')).map(read)));
