// What the desk knows of the conductor.

import assert from "node:assert/strict";
import test from "node:test";

import { Conductor } from "../../web/conductor.js";

const REPORT = {
  round: 2,
  sheets: ["X"],
  state: "unplanned",
  time: "2026-11-30T13:00:00Z",
  until: null,
  waits_for: "Round 2 has no window.",
};
const ABSENT = { status: 404 }, SILENT = { status: 0 };

/** Answers, one after the other: reports, or faults. The last one stays. */
function asker(...answers) {
  return {
    async conductor() {
      const answer = answers.length > 1 ? answers.shift() : answers[0];
      if (answer.status !== undefined) throw answer;
      return answer;
    },
  };
}

/** The words after each of so many seconds, of a page that was opened before all answers. */
async function seen(context, seconds, ...answers) {
  context.mock.timers.enable({ apis: ["setTimeout"] });
  const conductor = new Conductor();
  const said = [];
  conductor.watch(asker(...answers), () => said.push(conductor.words()));
  for (let second = 0; second < seconds; second++) {
    await new Promise((done) => setImmediate(done));
    context.mock.timers.tick(1000);
  }
  await new Promise((done) => setImmediate(done));
  return said;
}

test("a conductor that starts after the page was opened is named within two seconds", async (t) => {
  const said = await seen(t, 2, ABSENT, REPORT);
  assert.match(said[0], /^No conductor is running/);
  assert.equal(said[1], "⚠ Conductor: Round 2 has no window.");
});

test("a report stays while nothing answers", async (t) => {
  const said = await seen(t, 4, REPORT, SILENT);
  assert.deepEqual(new Set(said), new Set(["⚠ Conductor: Round 2 has no window."]));
});

test("a report is gone if the conductor's file is", async (t) => {
  const said = await seen(t, 2, REPORT, ABSENT);
  assert.match(said.at(-1), /^No conductor is running/);
});
