// Which tokens a page sends: those of its own kind of auction.

import assert from "node:assert/strict";
import test from "node:test";

import { isMockToken, strangeToken } from "../../web/mock.js";

const REAL = "a1b2c3d4e5f6a7b8", MOCK = "MOCKa1b2c3d4e5f6", LOWER = "mocka1b2c3d4e5f6";

for (const [token, isMock] of [[REAL, false], [MOCK, true], [LOWER, true], ["aMOCK" + REAL, false]])
  test(`${token} is ${isMock ? "" : "not "}a token of a mock auction`, () =>
    assert.equal(isMockToken(token), isMock));

for (const [isMockPage, token, words] of [
  [false, REAL, ""],
  [true, MOCK, ""],
  [true, LOWER, ""],
  [true, REAL, "This is the mock auction. Enter its token, which begins with MOCK."],
  [false, MOCK, "This token is of the mock auction. Enter the token of the real auction."],
  [false, LOWER, "This token is of the mock auction. Enter the token of the real auction."],
])
  test(`a ${isMockPage ? "mock" : "real"} page and ${token}: ${words || "sent"}`, () =>
    assert.equal(strangeToken(isMockPage, token), words));
