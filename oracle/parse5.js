// Debian's node-parse5 as a witness: reads frames of sources and writes frames of answers, as rust/witness/src/main.rs tells.
'use strict';

const fs = require('fs');
const { escapeAttribute, escapeText } = require('entities/lib/escape.js');
const { Tokenizer } = require('/usr/share/nodejs/parse5/dist/cjs/tokenizer/index.js');

// Document 01's codes for the standard's; any other is 255.
const CODES = {
    'absence-of-digits-in-numeric-character-reference': 1,
    'missing-semicolon-after-character-reference': 2,
    'null-character-reference': 3,
    'surrogate-character-reference': 3,
    'character-reference-outside-unicode-range': 3,
    'noncharacter-character-reference': 3,
    'control-character-reference': 3,
    'unknown-named-character-reference': 4,
    'control-character-in-input-stream': 5,
    'noncharacter-in-input-stream': 5,
};

// What the tokenizer says of a page: its text, its codes, its tags. It looks at the character after a reference before it reports an error of
// that reference, both at the same offset: there the character's own error, 5, is put last.
function tokenize(page) {
    const heard = { text: '', codes: [], tags: [] };
    const errors = [];
    const more = (token) => {
        heard.text += token.chars;
    };
    const nothing = () => {};
    const handler = {
        onCharacter: more,
        onWhitespaceCharacter: more,
        onNullCharacter: more,
        onStartTag: (tag) => heard.tags.push(tag),
        onEndTag: nothing,
        onComment: nothing,
        onDoctype: nothing,
        onEof: nothing,
        onParseError: (error) => errors.push({ code: CODES[error.code] || 255, offset: error.startOffset }),
    };
    const tokenizer = new Tokenizer({ sourceCodeLocationInfo: false }, handler);
    tokenizer.write(page, true);
    errors.sort((one, other) => one.offset - other.offset || (one.code === 5) - (other.code === 5));
    heard.codes = errors.map((error) => error.code);
    return heard;
}

// Text ends before `<`, where a tag follows.
function decodeText(source) {
    const end = source.indexOf('<');
    return tokenize(end < 0 ? source : source.slice(0, end) + '<x>');
}

// An attribute's value in double quotes ends before `"`.
function decodeAttribute(source) {
    const end = source.indexOf('"');
    const heard = tokenize('<x a="' + (end < 0 ? source : source.slice(0, end)) + '">');
    heard.text = heard.tags[0].attrs[0].value;
    return heard;
}

// What its serializer calls. In attribute mode it leaves `<` and `>` as they are, by an older state of the standard: they are replaced here.
function escapeIn(kind, source) {
    const text = kind === 't' ? escapeText(source) : escapeAttribute(source).replaceAll('<', '&lt;').replaceAll('>', '&gt;');
    return { text, codes: [] };
}

const CALLS = { T: decodeText, A: decodeAttribute, t: (source) => escapeIn('t', source), a: (source) => escapeIn('a', source) };

function answer(kind, source) {
    let heard;
    try {
        heard = CALLS[kind](source);
    } catch (error) {
        heard = { text: `failed: ${error}`, codes: [] };
    }
    const text = Buffer.from(heard.text, 'utf8');
    const out = Buffer.alloc(8 + text.length + heard.codes.length);
    out.writeUInt32LE(text.length, 0);
    text.copy(out, 4);
    out.writeUInt32LE(heard.codes.length, 4 + text.length);
    Buffer.from(heard.codes).copy(out, 8 + text.length);
    return out;
}

function readExactly(length) {
    const bytes = Buffer.alloc(length);
    for (let at = 0; at < length; ) {
        const count = fs.readSync(0, bytes, at, length - at);
        if (count === 0) {
            return null;
        }
        at += count;
    }
    return bytes;
}

function writeAll(bytes) {
    for (let at = 0; at < bytes.length; ) {
        at += fs.writeSync(1, bytes, at);
    }
}

for (let head = readExactly(4); head !== null; head = readExactly(4)) {
    const frame = readExactly(head.readUInt32LE(0));
    const answers = [];
    for (let at = 0; at < frame.length; ) {
        const end = at + 5 + frame.readUInt32LE(at + 1);
        answers.push(answer(String.fromCharCode(frame[at]), frame.toString('utf8', at + 5, end)));
        at = end;
    }
    const all = Buffer.concat(answers);
    const length = Buffer.alloc(4);
    length.writeUInt32LE(all.length, 0);
    writeAll(length);
    writeAll(all);
}
