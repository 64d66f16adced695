// JSON with line ends and indents. Its tokens stay as they were sent: numbers, escapes, repeated
// names.

export const TOKENS = /"[^"\\]*(?:\\.[^"\\]*)*"|[[\]{},:]|[^\s"[\]{},:]+/gs;

const OPENS = "{[", CLOSES = "}]";
// What is deeper is not indented further.
const DEEPEST = 40;

// The content of a message, with line ends and indents if it is JSON, and otherwise as it is.
export function indentedJson(content) {
  return markedJson(content, []).map(([text]) => text).join("");
}

// The same in pieces: [text, whether it belongs to a member at one of these JSON pointers].
export function markedJson(content, pointers) {
  try {
    JSON.parse(content);
  } catch {
    return [[content, false]];
  }
  const joined = [];
  for (const [text, isMarked] of indentedTokens(content.match(TOKENS) ?? [], pointers)) {
    if (joined.length && joined.at(-1)[1] === isMarked) {
      joined.at(-1)[0] += text;
    } else {
      joined.push([text, isMarked]);
    }
  }
  return joined;
}

// The names and numbers in a pointer: RFC 6901.
export function partsOfPointer(pointer) {
  return pointer.split("/").slice(1).map((it) => it.replace(/~1/g, "/").replace(/~0/g, "~"));
}

// The place of a token in a JSON text. An entry of the stack is an array or object that is open:
// its paths are those of which it has the first parts, and it is in one if it has all parts.
class Place {
  constructor(paths) {
    this.stack = [];
    this.whole = { isIn: paths.some((it) => it.length === 0), paths };
  }

  get top() {
    return this.stack.at(-1);
  }

  // Whether the value that is next, or whose name is, is in one of the paths, and which lead on.
  get next() {
    const top = this.top, depth = this.stack.length;
    if (top && !top.child) {
      const paths = top.paths.filter((it) => it[depth - 1] === String(top.name));
      top.child = { isIn: top.isIn || paths.some((it) => it.length === depth), paths };
    }
    return top ? top.child : this.whole;
  }

  open(isArray) {
    const name = isArray ? 0 : "";
    this.stack.push({ ...this.next, isArray, name, isNamed: isArray, child: null });
  }

  // Takes a text, a number or a word, which may be the name of a member.
  take(token) {
    const top = this.top;
    if (top && !top.isNamed) {
      Object.assign(top, { name: JSON.parse(token), isNamed: true, child: null });
    }
  }

  comma() {
    const { isArray, name } = this.top;
    Object.assign(this.top, { name: isArray ? name + 1 : "", isNamed: isArray, child: null });
  }
}

// The tokens with the space between them: each as [text, whether it belongs to a pointer].
function indentedTokens(tokens, pointers) {
  const place = new Place(pointers.map(partsOfPointer)), pieces = [];
  const end = (isIn) => {
    pieces.push([`\n${"  ".repeat(Math.min(place.stack.length, DEEPEST))}`, isIn]);
  };
  tokens.forEach((token, at) => {
    if (OPENS.includes(token)) {
      pieces.push([token, place.next.isIn]);
      place.open(token === "[");
      if (!CLOSES.includes(tokens[at + 1])) {
        end(place.top.isIn);
      }
    } else if (CLOSES.includes(token)) {
      const { isIn } = place.stack.pop();
      if (!OPENS.includes(tokens[at - 1])) {
        end(isIn);
      }
      pieces.push([token, isIn]);
    } else if (token === ",") {
      pieces.push([token, place.top.isIn]);
      place.comma();
      end(place.top.isIn);
    } else {
      place.take(token);
      pieces.push([token === ":" ? ": " : token, place.next.isIn]);
    }
  });
  return pieces;
}
