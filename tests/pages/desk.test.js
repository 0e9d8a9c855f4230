// What the manager's desk shows in each state, and what it makes of what is typed.

import assert from "node:assert/strict";
import test from "node:test";

import {
  closingQuestion,
  countedOf,
  doneWords,
  readIncrements,
  refusalWords,
  sheetWords,
  shown,
  timetableOf,
  wrongIncrements,
} from "../../web/desk_shown.js";

const ACTS = ["pause", "resume", "extend", "announce", "plan", "next", "close", "winners"];

/** What the desk says while these acts are possible. */
function deskOf(possible, more = {}) {
  const why = (act) => (possible.includes(act) ? null : "paused");
  const acts = Object.fromEntries(ACTS.map((act) => [act, { people: 1, why: why(act) }]));
  return { who: "operator", round: 2, acts, waiting: null, ...more };
}

const standing = (name, submitted) => (
  { name, eligibility: 2, submitted, since: null, seen: null });
const BOTH = [standing("X", true), standing("Y", false)];

function state(change = {}) {
  return {
    status: { round: 2, ended: false },
    desk: deskOf(["pause", "extend", "announce", "plan", "close"]),
    report: { words: "Conductor: Round 2 is open.", needsYou: false, isStale: false },
    bidders: BOTH,
    onlyMissing: false,
    link: { silent: false, answered: "10:20:30", fault: "", closing: false },
    time: { phase: "open", words: "Open until 10:30", seconds: 600, results: "" },
    message: "",
    busy: false,
    ...change,
  };
}

const waiting = (who) => (
  { act: "close", key: "a", who, words: "close round 2 early", typed: true, until: "" });
const ENDED = { status: { round: 2, ended: true } };

// What each state is about, the state, and the act and the words of the main button.
const MAIN = {
  "an open round": [{}, "pause", "Pause the auction …"],
  "a paused auction": [{ desk: deskOf(["resume"]) }, "resume", "Continue …"],
  "a round that waits": [
    { desk: deskOf(["pause", "next"]) }, "next", "Close round 2, which waits …"
  ],
  "an act of another person waits": [
    { desk: deskOf(["pause"], { waiting: waiting("second") }) }, "confirm", "Confirm …"
  ],
  "an own act waits": [
    { desk: deskOf(["pause"], { waiting: waiting("operator") }) }, "pause", "Pause the auction …"
  ],
  "the end": [{ ...ENDED, desk: deskOf(["winners"]) }, "winners", "Publish the winners …"],
  "the end, with winners": [{ ...ENDED, desk: deskOf([]) }, "", "The auction has ended"],
  "no desk": [{ desk: null }, "", "The desk does not run"],
  "an act on its way": [{ busy: true }, "", "Sending …"],
};

for (const [what, [change, act, words]] of Object.entries(MAIN)) {
  test(`the button of the bar below: ${what}`, () => {
    const { main } = shown(state(change));
    assert.deepEqual([main.act, main.words], [act, words]);
  });
}

test("in each state the button is off exactly if it does nothing, and red only to pause", () => {
  let count = 0;
  for (const possible of [[], ["pause"], ["resume"], ["next", "pause"], ["winners"]]) {
    for (const ended of [false, true]) {
      for (const who of [null, "operator", "second"]) {
        for (const busy of [false, true]) {
          const desk = deskOf(possible, { waiting: who && waiting(who) });
          const { main } = shown(state({ desk, busy, status: { round: 2, ended } }));
          const isOff = Boolean(main.off);
          assert.equal(isOff, main.act === "" || !possible.includes(main.act)
            && main.act !== "confirm");
          assert.equal(main.kind === "alarm", main.act === "pause");
          count += 1;
        }
      }
    }
  }
  assert.equal(count, 60);
});

test("an act that is not possible says why", () => {
  const { acts } = shown(state());
  const resume = acts.find(({ act }) => act === "resume");
  assert.equal(resume.why, "the auction is paused");
  assert.ok(shown(state({ desk: null })).acts.every(({ why }) => why === "the desk does not run"));
});

test("the title has the time first, and a mark if a person is needed", () => {
  assert.match(shown(state()).title, /^10:00 · Round 2 · desk/);
  const report = { words: "⚠", needsYou: true };
  assert.match(shown(state({ report })).title, /^⚠ 10:00 · Round 2/);
  const desk = deskOf([], { waiting: waiting("second") });
  assert.match(shown(state({ desk })).title, /^⚠/);
  assert.doesNotMatch(shown(state({ ...ENDED, report })).title, /⚠/);
});

test("the missing are named, of the bidders with eligibility only", () => {
  assert.equal(shown(state()).missing, "No bids from: Y.");
  assert.equal(sheetWords(BOTH, 2),
    "1 of 2 bidders with eligibility have submitted bids. No bids from: Y.");
  assert.match(sheetWords([standing("X", false)], 1), /NO bidder .* ends without a sale/);
  assert.match(sheetWords([standing("X", false)], 2), /asks to give up all its blocks/);
  assert.match(sheetWords([standing("X", true)], 2), /^All bidders/);
});

test("all who are missing are in the question, also if there are hundreds", () => {
  const many = Array.from({ length: 500 }, (_, n) => standing(`B${n}`, n === 0));
  const words = sheetWords(many, 2);
  assert.ok(many.slice(1).every(({ name }) => words.includes(name)));
});

test("what is not known is not counted", () => {
  const bidders = [standing("X", true), standing("Y", null)];
  assert.equal(countedOf(bidders), null);
  const now = shown(state({ bidders }));
  assert.deepEqual([now.sheets, now.missing], [null, ""]);
  assert.match(sheetWords(bidders, 2), /does not know/);
});

test("an act of another waits for this person, and its own does not", () => {
  const other = shown(state({ desk: deskOf([], { waiting: waiting("second") }) })).waiting;
  assert.equal(other.line, "Second asks to close round 2 early. Confirm it, or withdraw it.");
  const own = shown(state({ desk: deskOf([], { waiting: waiting("operator") }) })).waiting;
  assert.ok(own.isMine && own.line.endsWith("It waits for a second person."));
});

test("each refusal of the desk has words", () => {
  const codes = ["stale", "repeated", "typed", "one_person", "waiting", "nothing_waits", "too_late",
    "same_person", "ended", "not_ended", "paused", "not_paused", "not_held", "published", "shape"];
  for (const code of codes) {
    const words = refusalWords({ code });
    assert.match(words, /^⚠ Nothing was done: [a-z]/);
    assert.doesNotMatch(words, /refused: /);
  }
  assert.equal(refusalWords({ code: "fault", words: "minutes must be more" }),
    "⚠ Nothing was done: minutes must be more.");
  assert.match(refusalWords({ code: "no_answer" }), /not known whether it was done/);
});

test("what was done has its people and its outcome", () => {
  const one = { who: "operator", words: "pause: Fire." };
  assert.equal(doneWords({ ...one, outcome: "done" }), "operator: pause: Fire.");
  assert.match(doneWords({ ...one, outcome: "waits" }), /asked for/);
  assert.match(doneWords({ ...one, outcome: "stale" }), /not done: the auction has changed/);
  assert.match(doneWords({ ...one, outcome: "the disk is full" }), /not done: the disk is full/);
});

test("days that are typed become a timetable, and a file stays as it is", () => {
  const days = "2026-12-01 10:00-11:00, 14:00-15:00\n\n 2026-12-02 9:00-9:30 ";
  assert.deepEqual(JSON.parse(timetableOf({ zone: "America/New_York", days, percent: "" })), {
    zone: "America/New_York",
    days: [
      { date: "2026-12-01", windows: ["10:00-11:00", "14:00-15:00"] },
      { date: "2026-12-02", windows: ["9:00-9:30"] },
    ],
  });
  const { increments } = JSON.parse(timetableOf({ zone: "", days, percent: " 7 " }));
  assert.deepEqual(increments, [{ percent: 7 }]);
  const file = ' {"days": []}';
  assert.equal(timetableOf({ zone: "UTC", days: file, percent: "7" }), file);
});

const PRODUCTS = ["A", "B", "C"].map((name) => ({ name }));

test("increments are read by name, and each wrong line is named", () => {
  const good = readIncrements(PRODUCTS, "\uFEFFproduct,percent\r\nA,20\r\n\"C\";50\r\n\r\n");
  assert.deepEqual([[...good.found], good.wrong], [[[0, "20"], [2, "50"]], []]);
  const { wrong } = readIncrements(PRODUCTS, "A,0\nB\nD,5\nC,51\nC,1.5");
  assert.deepEqual(wrong, [
    "line 1: the increment of A is 0",
    "line 2: the increment of B is missing",
    "line 3: no product is called D",
    "line 4: the increment of C is 51",
    "line 5: the increment of C is 1.5",
  ]);
});

test("a wrong increment is named with its product", () => {
  assert.equal(wrongIncrements(PRODUCTS, ["1", "50", "10"]), "");
  assert.equal(wrongIncrements(PRODUCTS, ["1", "", "77"]), "B has none, C has 77");
  const many = Array.from({ length: 9 }, (_, n) => ({ name: `P${n}` }));
  assert.match(wrongIncrements(many, many.map(() => "x")), /P4 has x, and 4 more products$/);
});

test("only those without bids are listed if the person wants it", () => {
  const names = (change) => shown(state(change)).rows.map(({ name }) => name);
  assert.deepEqual([names({}), names({ onlyMissing: true })], [["X", "Y"], ["Y"]]);
});

test("it is said how many have submitted bids, if that is known and the auction goes on", () => {
  const submitted = (change) => shown(state(change)).submitted;
  assert.deepEqual(submitted({}), [["Bidders with submitted bids", "1 of 2"]]);
  assert.deepEqual(submitted({ bidders: [standing("X", null)] }), []);
  assert.deepEqual(submitted(ENDED), []);
  assert.deepEqual([shown(state()).isOver, shown(state(ENDED)).isOver], [false, true]);
});

const NOBODY = [standing("X", false), standing("Y", false)];
const ASKED = { isByDesk: false, early: "" };
for (const [what, change, percents, given, words, yes] of [
  ["one increment", {}, [10, 10], ASKED, "rise by 10 percent. 10:00 is left.", "Close the round"],
  ["two increments", {}, [10, 20], ASKED, "rise by 10 to 20 percent.", "Close the round"],
  ["nobody has submitted bids", { bidders: NOBODY }, [10], ASKED, "NO bidder", "without any bids"],
  ["by the desk", {}, [10], { isByDesk: true, early: "" }, "A second person", "Close the round"],
  ["the conductor would do it", {}, [10], { ...ASKED, early: " It would." }, "It would.", "Close"],
  ["who is missing", {}, [10], ASKED, "No bids from: Y.", "Close the round"],
]) {
  test(`the question before a closing: ${what}`, () => {
    const question = closingQuestion(state(change), percents, given);
    assert.ok(question.words.includes(words), question.words);
    assert.ok(question.yes.includes(yes), question.yes);
    assert.equal(question.typed, "2");
  });
}

const STOPPED = { words: "⚠ The conductor has not reported", needsYou: true, isStale: true };
for (const [what, change, waits] of [
  ["during the auction", { report: STOPPED }, { kind: "fault", words: STOPPED.words }],
  ["after its end", { ...ENDED, report: STOPPED }, { kind: "", words: "" }],
  ["after its end, while it runs", ENDED, { kind: "", words: "Conductor: Round 2 is open." }],
]) {
  test(`a conductor that was stopped: ${what}`, () => {
    assert.deepEqual(shown(state(change)).waits, waits);
  });
}
