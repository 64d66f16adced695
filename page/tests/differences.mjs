// Checks that the runs in which two lists differ lead from one to the other, and are the shortest.

import assert from "node:assert";
import { load, write } from "./scripts.mjs";

const modules = ["visible.mjs", "texts.mjs", "difference.mjs", "json.mjs"];
const page = Object.assign({}, ...await Promise.all(modules.map((name) => load(name))));

// Numbers from a seed, so that each run tests the same.
function chances(seed) {
  let state = seed;
  return (below) => {
    state = (state * 1103515245 + 12345) % 2147483648;
    return Math.floor((state / 2147483648) * below);
  };
}

// The length of the longest common part, by the table that everyone knows.
function longest(a, b) {
  let last = new Array(b.length + 1).fill(0);
  for (const item of a) {
    const next = [0];
    b.forEach((other, at) => next.push(item === other ? last[at] + 1 : Math.max(last[at + 1], next[at])));
    last = next;
  }
  return last[b.length];
}

function check(a, b) {
  const runs = page.differences(a, b);
  let made = [], at = 0, removed = 0;
  for (const [startA, endA, startB, endB] of runs) {
    made = made.concat(a.slice(at, startA), b.slice(startB, endB));
    removed += endA - startA;
    at = endA;
  }
  assert.deepStrictEqual(made.concat(a.slice(at)), b);
  assert.strictEqual(a.length - removed, longest(a, b));
}

function checkAll() {
  const next = chances(7);
  for (let round = 0; round < 400; round += 1) {
    const list = () => Array.from({ length: next(12) }, () => next(4));
    check(list(), list());
  }

  const same = assert.deepStrictEqual;

  same(page.markedPair("bxé😀", "bé😀x"), [
    [["b", false], ["x", true], ["é😀", false]],
    [["bé😀", false], ["x", true]],
  ]);
  same(page.comparedTexts(page.linesOf("a\nb"), page.linesOf("a\nb\n")).map((it) => it.pair),
    [["a\n", "a\n"], ["b", "b\n"]]);
  same(page.comparedTexts(page.linesOf("x\r\n"), page.linesOf("x\n")).map((it) => it.pair), [["x\r\n", "x\n"], ["", ""]]);
  const many = Array.from({ length: 50 }, (_, at) => `${at}\n`);
  same(page.comparedTexts(many, [...many.slice(0, 25), "new\n", ...many.slice(25)]).map((it) => it.skipped ?? it.pair[1]),
    [22, "22\n", "23\n", "24\n", "new\n", "25\n", "26\n", "27\n", 22]);
  same(page.piecesOf("a\r\n\u00a0e\u0301\u202e\udcff", true).map(([, shown]) => shown),
    [null, "CR", "LF", "NBSP", null, "◌\u0301", "RLO", "\\xff"]);
  same(page.indentedJson('{"a":[1.0,{}],"a":"\\u00e9,\\"{"}'), '{\n  "a": [\n    1.0,\n    {}\n  ],\n  "a": "\\u00e9,\\"{"\n}');
  same(page.indentedJson("{not json"), "{not json");
  // Marks on one character: three as they are, and what is more in one box.
  const crowd = "e\u0301\u0302\u0303\u0304\u0305x";
  same(page.piecesOf(crowd), [["e\u0301\u0302\u0303", null], ["\u0304\u0305", "◌×2"], ["x", null]]);
  same(page.piecesOf("\u0301".repeat(100000)).map((it) => it[1]), [null, "◌×99997"]);
  checkMarks();
  // Neither quadratic time nor the stack: one long line, and many lines that all differ.
  same(page.linesOf("z".repeat(600000)).length, 1);
  same(page.comparedTexts(page.linesOf("a\n".repeat(200000)), page.linesOf("a\r\n".repeat(200000))).length, 200001);
  write("good");
}

// The members of a message that are at a pointer, and nothing else of it.
function checkMarks() {
  const message = '{"a/b":[1.0,{"x":{}}],"a":{"b":2},"a":null}';
  const marked = (...pointers) => page.markedJson(message, pointers)
    .filter(([, isMarked]) => isMarked).map(([text]) => text.replace(/\s+/g, ""));
  assert.deepStrictEqual(marked(), []);
  assert.deepStrictEqual(marked("/a~1b/0"), ["1.0"]);
  assert.deepStrictEqual(marked("/a~1b/1/x"), ['"x":{}']);
  assert.deepStrictEqual(marked("/a/b"), ['"b":2']);
  assert.deepStrictEqual(marked("/a"), ['"a":{"b":2}', '"a":null']);
  assert.deepStrictEqual(marked("/b", "/a~1b/2", "/a/b/c"), []);
  assert.strictEqual(marked("").join(""), message);
  // Neither deep messages nor long names make it slow.
  const deep = `{"${"n".repeat(100000)}":${"[".repeat(5000)}1${",2".repeat(100000)}${"]".repeat(5000)}}`;
  assert.deepStrictEqual(page.markedJson(deep, ["/n/0"]).length, 1);
}

checkAll();
