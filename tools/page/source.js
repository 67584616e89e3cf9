"use strict";
// The source, in which the statement of an event is lit.

const TOKEN = /\/\/.*|\/\*[^]*?(?:\*\/|$)|"(?:\\.|[^"\\])*"?|[A-Za-z_]\w*|\d+|\s+|[^]/g;
const KEYWORDS = new Set(
  ("class extends void new this null int boolean true false region in pure reads writes final if else while return print cobegin foreach " +
    "foreach_parts atomic cobegin_nd foreach_nd").split(" "));
const OPENING = new Set(["(", "[", "{"]), CLOSING = new Set([")", "]", "}"]);

class Source {
  constructor(text, place) {
    this.place = place;
    this.lines = tokensByLine(text);
    this.rows = this.lines.map((tokens, number) => {
      const row = document.createElement("li");
      row.innerHTML = htmlOf(tokens, null);
      row.id = `line-${number + 1}`;
      row.style.setProperty("--indent", /^ */.exec(tokens[0]?.text ?? "")[0].length);
      return row;
    });
    place.querySelector("ol").replaceChildren(...this.rows);
    place.style.setProperty("--digits", String(this.rows.length).length);
    this.lit = null;
    new ResizeObserver(() => this.lit !== null && this.reveal(this.rows[this.lit])).observe(place);
  }

  // Lights what begins at a place; nothing where there is none.
  light(line, column, kind) {
    if (this.lit !== null) {
      this.rows[this.lit].innerHTML = htmlOf(this.lines[this.lit], null);
      this.rows[this.lit].classList.remove("lit");
    }
    this.lit = line && line <= this.rows.length ? line - 1 : null;
    if (this.lit === null) return;
    const tokens = this.lines[this.lit];
    this.rows[this.lit].innerHTML = htmlOf(tokens, extentOf(tokens, column, kind));
    this.rows[this.lit].classList.add("lit");
    this.reveal(this.rows[this.lit]);
  }

  reveal(row) {
    const { place } = this, top = row.offsetTop, margin = row.offsetHeight * 2;
    if (top < place.scrollTop + margin || top + row.offsetHeight > place.scrollTop + place.clientHeight - margin)
      place.scrollTop = top - place.clientHeight / 3;
  }
}

// The tokens of each line, with the columns of their first bytes and what they are.
function tokensByLine(text) {
  const lines = [[]], encoder = new TextEncoder();
  let column = 1;
  for (const [token] of text.matchAll(TOKEN)) {
    const kind = token.startsWith("//") || token.startsWith("/*") ? "comment" : token[0] === '"' ? "text" : KEYWORDS.has(token) ? "keyword" : "";
    token.split("\n").forEach((piece, number) => {
      if (number) {
        lines.push([]);
        column = 1;
      }
      if (piece) lines.at(-1).push({ text: piece.replace(/\r$/, ""), kind, column });
      column += encoder.encode(piece).length;
    });
  }
  if (lines.length > 1 && !lines.at(-1).length) lines.pop();
  return lines;
}

// The tokens that an event of some kind at a column lights, as far as they stand on this line: from the first one up to one behind the last. An
// access stands at the name of its field or method or at the bracket of its index, behind what is accessed; a write lights its whole assignment.
function extentOf(tokens, column, kind) {
  const at = tokens.findLastIndex((token) => token.column <= column);
  if (at < 0) return null;
  if (kind === "print") return [at, endOf(tokens, at, true)];
  if (!["read", "write", "look"].includes(kind)) return [at, endOf(tokens, at, false)];
  const first = accessedFrom(tokens, at);
  if (kind === "write") return [first, endOf(tokens, at, true)];
  const next = following(tokens, at);
  const last = tokens[at].text === "[" ? at : kind === "look" && tokens[next]?.text === "(" ? next : null;
  return [first, last === null ? at + 1 : closeOf(tokens, last) + 1];
}

// One behind the last token of what begins at one: up to its `;`, or before what it stands in goes on.
function endOf(tokens, first, isStatement) {
  let depth = 0, last = first;
  for (; last < tokens.length; last += 1) {
    const { text, kind } = tokens[last];
    if (kind === "comment" || (depth === 0 && last > first && (text === "{" || text === "}" || text === "," || CLOSING.has(text)))) break;
    if (depth === 0 && !isStatement && text === "." && tokens[last - 1].text === ")") break;
    if (depth === 0 && text === ";") {
      last += isStatement ? 1 : 0;
      break;
    }
    depth += OPENING.has(text) ? 1 : CLOSING.has(text) ? -1 : 0;
  }
  while (last > first + 1 && !tokens[last - 1].text.trim()) last -= 1;
  return last;
}

// The first token of what is accessed at one: names, calls and brackets that stand before it, with dots between them.
function accessedFrom(tokens, at) {
  let first = at, wants = tokens[at].text === "[";
  for (;;) {
    const before = preceding(tokens, first);
    const text = tokens[before]?.text;
    if (!wants && text !== ".") return first;
    if (!wants) [first, wants] = [before, true];
    else if (CLOSING.has(text) && text !== "}") {
      first = openOf(tokens, before);
      const called = preceding(tokens, first);
      wants = /^\w+$|^[)\]]$/.test(tokens[called]?.text ?? "") && !(KEYWORDS.has(tokens[called].text) && tokens[called].text !== "this");
    } else if (/^\w+$/.test(text ?? "")) [first, wants] = [before, false];
    else return first;
  }
}

const preceding = (tokens, at) => tokens.findLastIndex((token, index) => index < at && token.text.trim());
const following = (tokens, at) => tokens.findIndex((token, index) => index > at && token.text.trim());

// The bracket that closes one, and the one that opens one; the end or the beginning of the line where it isn't there.
function closeOf(tokens, open) {
  for (let at = open, depth = 0; at < tokens.length; at += 1) {
    depth += OPENING.has(tokens[at].text) ? 1 : CLOSING.has(tokens[at].text) ? -1 : 0;
    if (!depth) return at;
  }
  return tokens.length - 1;
}

function openOf(tokens, close) {
  for (let at = close, depth = 0; at >= 0; at -= 1) {
    depth += CLOSING.has(tokens[at].text) ? 1 : OPENING.has(tokens[at].text) ? -1 : 0;
    if (!depth) return at;
  }
  return 0;
}

function htmlOf(tokens, extent) {
  const parts = tokens.map(({ text, kind }) => (kind ? `<span class="${kind}">${escaped(text)}</span>` : escaped(text)));
  if (!extent) return parts.join("") || " ";
  return parts.slice(0, extent[0]).join("") + "<mark>" + parts.slice(...extent).join("") + "</mark>" + parts.slice(extent[1]).join("");
}
