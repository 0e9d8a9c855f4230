// The server's clock, and what a timetable says at a moment.

import assert from "node:assert/strict";
import test from "node:test";

import { Clock, clockWords, stateOf, timeWords, zoneWords } from "../../web/clock.js";

process.env.TZ = "UTC";
const AT = (time) => Date.parse(`2026-12-01T${time}Z`);
const WINDOW = {
  round: 2,
  opens: "2026-12-01T10:00:00Z",
  closes: "2026-12-01T10:30:00Z",
  results: "2026-12-01T10:30:30Z",
};
const table = (more = {}, window = {}) => (
  { round: 2, ended: false, paused: null, windows: [{ ...WINDOW, ...window }], ...more });

for (const [name, given, time, phase, words] of [
  ["before it opens", table(), "09:59:59", "before", "Opens at 10:00"],
  ["open", table(), "10:00:00", "open", "Open until 10:30"],
  ["open to its last moment", table(), "10:29:59.999", "open", "Open until 10:30"],
  [
    "shut, and results to come",
    table(),
    "10:30:00",
    "shut",
    "Closed for bids. Results appear at 10:30:30.",
  ],
  ["results are due", table(), "10:30:30", "shut", "Closed for bids. The results follow."],
  [
    "without a time for results",
    table({}, { results: undefined }),
    "10:30:00",
    "shut",
    "Closed for bids. The results follow.",
  ],
  ["paused", table({ paused: "Fire." }), "10:10:00", "paused", "Paused: Fire."],
  ["ended", table({ ended: true }), "10:10:00", "ended", "The auction has ended."],
  [
    "another round's window",
    table({ round: 3 }),
    "10:10:00",
    "unplanned",
    "The next time will be announced.",
  ],
  [
    "without an end",
    table({}, { closes: null }),
    "10:10:00",
    "open",
    "Open. The end will be announced.",
  ],
  [
    "without an end, with a note",
    table({}, { closes: null, note: "It closes soon." }),
    "10:10:00",
    "open",
    "Open. It closes soon.",
  ],
]) {
  test(`the timetable says: ${name}`, () => {
    const state = stateOf(given, AT(time));
    assert.deepEqual([state.phase, state.words], [phase, words]);
  });
}

test("a time has its seconds, and its day if that is another one", () => {
  assert.equal(timeWords("2026-12-01T10:00:30Z", AT("09:00:00")), "10:00:30");
  assert.equal(timeWords("2026-12-02T10:00:00Z", AT("09:00:00")), "Wed 2 Dec, 10:00");
});

for (const [seconds, words] of [[0, "0:00"], [59, "0:59"], [600, "10:00"], [3723, "1:02:03"]]) {
  test(`a clock shows ${seconds} seconds as ${words}`, () => {
    assert.equal(clockWords(seconds), words);
  });
}

// The server's clock is `ahead` of the tab's, and a reply takes at most 400 ms, in each direction.
for (const ahead of [-3_600_000, -900, 0, 1, 1500, 86_400_000]) {
  test(`the clock is never behind the server's, ${ahead} ms ahead of the tab's`, () => {
    const clock = new Clock();
    const zero = AT("10:00:00");
    let now = 5000;
    const real = performance.now;
    performance.now = () => now;
    try {
      for (let n = 0; n < 200; n++) {
        const sent = now;
        const there = sent + (n * 37) % 200;
        now = there + (n * 53) % 200;
        const date = new Date(Math.floor((zero + ahead + there) / 1000) * 1000).toUTCString();
        clock.heard(date, sent, now);
        const off = clock.now() - (zero + ahead + now);
        assert.ok(off >= 0 && off <= 1400, `${off} ms after ${n} replies`);
        now += 317;
      }
    } finally {
      performance.now = real;
    }
  });
}

test("without a reply the clock is the tab's own", () => {
  assert.ok(Math.abs(new Clock().now() - Date.now()) < 1000);
});

for (const [zone, words] of [
  ["UTC", "UTC, UTC"],
  ["America/New_York", "America/New_York, UTC-5"],
  ["Australia/Adelaide", "Australia/Adelaide, UTC+10:30"],
])
  test(`a tab in ${zone} names its zone`, () => {
    process.env.TZ = zone;
    assert.equal(zoneWords(AT("12:00:00")), words);
    process.env.TZ = "UTC";
  });
