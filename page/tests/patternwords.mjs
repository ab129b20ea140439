/** Tests of what is said of patterns that are no I-Regexps (RFC 9485), or that mean something else elsewhere. */
import assert from "node:assert/strict";
import { answered, click, countOf, editor, listed, open, textOf, textsOf } from "./shown.mjs";

const TEXTS = JSON.stringify(["2024-01", "x", "^x$", "a b", "12"]);

async function saysWhatIsNoPattern() {
  await open({ q: String.raw`$[?match(@, "\\d+")]`, d: TEXTS });
  assert.match(await textOf("#query-outcome"), /^Accepted\./);
  assert.equal(await listed(), "");
  const words = String.raw`The pattern \d+ is no I-Regexp (RFC 9485), so it matches nothing. In an I-Regexp \d is written [0-9].`;
  assert.deepEqual(await textsOf("#query-patterns .warned"), [words]);
  assert.equal(await textOf("#query-patterns button"), `$[?match(@, "[0-9]+")]`);
  await click("#query-patterns button");
  await answered();
  assert.equal(await listed(), '$[4]\t"12"\n');
  assert.equal(await textOf("#query-patterns"), "");
}

async function saysWhatIsACharacter() {
  await open({ q: "$[?search(@, '^x$')]", d: TEXTS });
  assert.equal(await listed(), '$[2]\t"^x$"\n');
  const words = "In the pattern ^x$, ^ and $ are characters: search() looks everywhere in the text, and match() takes the whole.";
  assert.deepEqual(await textsOf("#query-patterns .warned"), [words]);
  assert.equal(await textOf("#query-patterns button"), "$[?match(@, 'x')]");
  await click("#query-patterns button");
  await answered();
  assert.equal(await listed(), '$[1]\t"x"\n');
  assert.equal(await editor("query", "getValue()"), "$[?match(@, 'x')]");
}

/** Where I-Regexp has nothing for it, nothing is suggested; each pattern is told. */
async function suggestsNothingWhereThereIsNothing() {
  await open({ q: String.raw`$[?search(@, '\\bx') || match(@, '(?i)X')]`, d: TEXTS });
  assert.deepEqual(await textsOf("#query-patterns .warned"), [
    String.raw`The pattern \bx is no I-Regexp (RFC 9485), so it matches nothing. An I-Regexp has no \b.`,
    "The pattern (?i)X is no I-Regexp (RFC 9485), so it matches nothing. An I-Regexp has no (?.",
  ]);
  assert.equal(await countOf("#query-patterns button"), 0);
}

async function isSilentOfIRegexps() {
  for (const query of [
    "$[?search(@, '[^a-z]')]",
    String.raw`$[?match(@, '\\^\\p{L}+')]`,
    "$[?match(@, @.pattern)]",
    "$[?@ == '^\\\\d$']",
    "$['match(@, \\'^x\\')']",
    "$[?match('^x', @)]",
  ]) {
    await open({ q: query, d: TEXTS });
    assert.equal(await countOf("#query-outcome .wrong"), 0, query);
    assert.equal(await textOf("#query-patterns"), "", query);
  }
}

export const tests = [
  saysWhatIsNoPattern,
  saysWhatIsACharacter,
  suggestsNothingWhereThereIsNothing,
  isSilentOfIRegexps,
];
