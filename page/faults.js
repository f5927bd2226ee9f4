// What a fault of a source text or of an image is, and where it is, by the line that names it: as crates/sfi/src/explaining.rt says.
"use strict";

const LABELS = /^(?:[ \t\r]*[\w.]+[ \t\r]*:)*/;
const TAKEN = /[\w.]+(?=[ \t]*:)|(?<=^[ \t]*\.\w+[ \t]+)[\w.]+/;  // a label, or a gate's name
const C_TEXT = /#include|int main\(/;

// Where a fault is in a line, and what it is about: a name that is unknown or taken, or else the statement.
function aboutOf(name, line) {
    const plain = line.replace(/#.*/, "").trimEnd(), isName = name === "LabelTwice" || name.startsWith("Unknown");
    const from = isName ? 0 : LABELS.exec(plain)[0].length;
    const found = (name === "LabelTwice" ? TAKEN : isName ? /[\w.]+$/ : name === "Word" ? /\S+/ : /\S.*/).exec(plain.slice(from)) || [""];
    return [from + (found.index || 0), `${isName || name === "Word" ? "" : ":"} '${found[0]}'`];
}

// The sentence on the fault that a line of sfi's names.
function explained(fault, text) {
    const [, kind, name, place] = /^(\w+) fault (?:\d+ )?(hex odd|hex digit|too large|\w+)(?: line (\d+))?/.exec(fault) || [];
    const said = SENTENCES[`${kind} ${name}`];
    if (!said) return fault;
    if (kind === "source" && C_TEXT.test(text)) return "source:1:1: this is no assembly: tools/sfi-cc makes an image of C";
    if (!place) return `${kind === "layout" || kind === "input" ? "image" : "source"}: ${said} (${fault})`;
    const [column, about] = aboutOf(name, text.split("\n")[place - 1]);
    return `source:${place}:${column + 1}: ${said}${about} (${fault})`;
}
