// The words of each fault are those of a document, at its row of the table: what is wrong, and what
// to do.

import assert from "node:assert/strict";
import fs from "node:fs";
import test from "node:test";

import { WORDS, wordsOf } from "../../web/rules.js";

// What to do is in a column of its own, or after a colon.
const ROW = /^\| `([a-z_]+)` \| \d+ \| ([^|]*?)(?: \| ([^|]*?))? \|$/gm;
const documented = new Map();
for (const name of ["deployment", "bidders"]) {
  const text = fs.readFileSync(new URL(`../../docs/${name}.md`, import.meta.url), "utf8");
  for (const [, code, wrong, mend] of text.matchAll(ROW)) {
    documented.set(code, [wrong, mend].filter(Boolean).join(": ").replace(" at `place`", ""));
  }
}

for (const [code, words] of Object.entries(WORDS)) {
  test(`the words of a fault are those of the documents: ${code}`, () => {
    assert.equal(words, documented.get(code));
  });
}

test("a code that nobody knows is shown as it is", () => {
  assert.equal(wordsOf("toString"), "refused: toString");
  assert.equal(wordsOf("over_cap"), WORDS.over_cap);
});
