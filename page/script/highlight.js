// Colours a line of source: words, texts and comments of Java, directives and comments of Jasmin.

import {el} from "./elements.js";

const JAVA_WORDS = new Set(("abstract assert boolean break byte case catch char class const continue default do double else " +
  "extends final finally float for goto if implements import instanceof int interface long native new package private " +
  "protected public return short static super switch synchronized this throw throws transient try void volatile while " +
  "true false null").split(" "));

const span = (text, style) => style ? el("span", {class: style}, text) : text;

function jasminLine(line) {
  const comment = /^(\s*)(;.*)$/.exec(line);
  if (comment) return [comment[1], span(comment[2], "com")];
  const directive = /^(\s*)(\.[a-z]+(?: [a-z]+)?)(.*)$/.exec(line);
  return directive ? [directive[1], span(directive[2], "k"), directive[3]] : [line];
}

// Returns the next token of Java at i, and its style. `within` says whether i is in a comment of several lines.
function javaToken(line, i, within) {
  const rest = line.slice(i);
  if (within.comment || rest.startsWith("/*")) {
    const end = line.indexOf("*/", within.comment ? i : i + 2);
    within.comment = end < 0;
    return [end < 0 ? rest : line.slice(i, end + 2), "com"];
  }
  if (rest.startsWith("//")) return [rest, "com"];
  const quoted = /^"(?:[^"\\]|\\.)*"?|^'(?:[^'\\]|\\.)*'?/.exec(rest);
  if (quoted) return [quoted[0], "q"];
  const word = /^[A-Za-z_$][\w$]*/.exec(rest);
  if (word) return [word[0], JAVA_WORDS.has(word[0]) ? "k" : ""];
  return [/^[^A-Za-z_$"'/]+|^./su.exec(rest)[0], ""];
}

// Returns the parts of a line. `within` is kept from line to line.
export function coloured(line, language, within) {
  if (language !== "java") return jasminLine(line);
  const parts = [];
  for (let i = 0; i < line.length;) {
    const [text, style] = javaToken(line, i, within);
    parts.push(span(text, style));
    i += text.length;
  }
  return parts;
}
