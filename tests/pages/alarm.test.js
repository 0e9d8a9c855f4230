// When the alarm comes before a window's end, and which columns a choice shows.

import assert from "node:assert/strict";
import test from "node:test";

import { alarmWords, MARKS, passed } from "../../web/alarm.js";
import { classesOf } from "../../web/choice.js";

const at = (seconds, phase = "open") => ({ phase, seconds });

for (const [name, before, now, mark] of [
  ["above a mark", at(400), at(301), 0],
  ["at a mark", at(301), at(300), 300],
  ["below a mark, already", at(300), at(299), 0],
  ["a minute", at(61), at(60), 60],
  ["after a sleep over two marks, the last one", at(400), at(30), 60],
  ["after a sleep over all", at(400), at(1), 20],
  ["the window ends", at(21), at(0, "shut"), 0],
  ["a window that opens with little time", at(10, "before"), at(19), 0],
  ["an extended window, again", at(20), at(400), 0],
  ["paused meanwhile", at(61), at(null, "paused"), 0],
  ["without an end", at(null), at(null), 0],
  ["an end that is announced", at(null), at(50), 0],
]) {
  test(`the alarm: ${name}`, () => assert.equal(passed(before, now), mark));
}

test("each mark comes once in a window that is counted down", () => {
  const rung = [];
  for (let seconds = 400; seconds > 0; seconds--) {
    for (let quarter = 0; quarter < 4; quarter++) {
      const mark = passed(at(quarter ? seconds : seconds + 1), at(seconds));
      if (mark) rung.push(mark);
    }
  }
  assert.deepEqual(rung, MARKS);
});

test("the alarm says how much time is left", () => {
  assert.deepEqual([300, 73, 60, 59, 20, 1].map((seconds) => alarmWords(seconds, 3)), [
    "5 minutes left in round 3", "1 minute left in round 3", "1 minute left in round 3",
    "59 seconds left in round 3", "20 seconds left in round 3", "1 second left in round 3",
  ]);
});

test("a column that is chosen is on or off, and others are as the width says", () => {
  assert.deepEqual(classesOf({}), []);
  assert.deepEqual(classesOf({ units: false, rise: true }), ["off-units", "on-rise"]);
  assert.deepEqual(classesOf({ name: false, none: true }), [], "the name is always there");
});
