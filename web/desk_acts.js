// The acts of the desk: for each its question, and the request that follows from the answer.

import {Fault} from "./api.js";
import {timeWords} from "./clock.js";
import {ask} from "./desk_ask.js";
import {sheetWords, timetableOf} from "./desk_shown.js";
import {counted} from "./page.js";

const MINUTES = {
  name: "minutes",
  label: "Minutes",
  kind: "number",
  value: "10"
};

/** A new key, so that a request is done once. */
function freshKey() {
  const bytes = crypto.getRandomValues(new Uint8Array(16));
  return Array.from(bytes, (byte) => byte.toString(16).padStart(2, "0")).join("");
}

/**
 * For each act, its question. It returns what the act is given, and what was typed, or null for No.
 * `state` is what the page shows.
 */
const QUESTIONS = {
  async pause() {
    const words = "Pause the auction now? No bids are accepted until you continue.";
    const why = { name: "words", label: "Why, for everyone" };
    const answer = await ask({ words, fields: [why], yes: "Pause" });
    return answer && { given: { words: answer.words } };
  },
  async resume() {
    const words = "Continue? The window that was cut short opens again after these minutes, for " +
      "the time that was left. In less than 5 minutes it needs a second person.";
    const answer = await ask({ words, fields: [MINUTES], yes: "Continue" });
    return answer && { given: { minutes: Number(answer.minutes) } };
  },
  async extend({ status }) {
    const words = `Give round ${status.round} more time? A window that has ended opens again.`;
    const answer = await ask({ words, fields: [MINUTES], yes: "Give more time" });
    return answer && { given: { minutes: Number(answer.minutes) } };
  },
  async announce() {
    const words = "Announce something to everyone? It cannot be taken back.";
    const text = { name: "words", label: "Announcement" };
    const answer = await ask({ words, fields: [text], yes: "Announce" });
    return answer && { given: { words: answer.words } };
  },
  async plan(state, desk) {
    const words = "A new timetable, for the rounds that have not begun: a line for each day, with "
      +
      "its windows, such as 2026-12-01 10:00-11:00 14:00-15:00. You may paste a file instead.";
    const zone = Intl.DateTimeFormat().resolvedOptions().timeZone || "UTC";
    const fields = [
      { name: "zone", label: "Time zone", value: zone },
      { name: "days", label: "Days and windows", kind: "area", most: 500_000 },
      { name: "percent", label: "Increment in percent, if it changes", optional: true },
    ];
    const answer = await ask({ words, fields, yes: "Look at it" });
    if (!answer) return null;
    const timetable = timetableOf(/** @type {any} */ (answer));
    const { windows } = await desk.check(timetable);
    const now = Date.now();
    const lines = windows.slice(0, 6).map(
      ({ opens, closes }) => `${timeWords(opens, now)} to ${timeWords(closes, opens)}`
    );
    const more = windows.length > lines.length ? ` and ${windows.length - lines.length} more` : "";
    const times = `${lines.join("; ")}${more}`;
    const asked = `Take ${counted(windows.length, "window")}, in your local time: ${times}?`;
    return await ask({ words: asked, yes: "Take it" }) && { given: { timetable } };
  },
  async next({ status, bidders }) {
    const { round } = status;
    const words =
      `Round ${round} waits for a word. ${sheetWords(bidders, round)} Closing it cannot ` +
      "be undone. A second person must confirm it.";
    const fields = [
      {
        name: "without_sheets",
        label: "Close it though nobody has submitted bids",
        kind: "checkbox"
      },
      { name: "no_ties", label: "Close it without tie-breaking numbers", kind: "checkbox" },
    ];
    const answer = await ask({ words, fields, typed: String(round), yes: "Close the round" });
    if (!answer) return null;
    const { without_sheets, no_ties, typed } = answer;
    return { given: { without_sheets, no_ties }, typed };
  },
  async winners() {
    const words = "Publish what each bidder has won, and pays? It cannot be undone. A second " +
      "person must confirm it.";
    return await ask({ words, yes: "Publish" }) && { given: {} };
  },
  async confirm({ desk }) {
    const { act, key, who, words, typed } = desk.waiting;
    const answer = await ask({
      words:
        `${who} asks to ${words}. Confirm it? ` + (act === "resume" ? "" : "It cannot be undone."),
      typed: typed ? String(desk.round) : "",
      yes: "Confirm",
    });
    return answer && { given: {}, typed: answer.typed ?? "", of: key };
  },
  async withdraw({ desk }) {
    const words = `Withdraw what waits: ${desk.waiting.words}?`;
    return await ask({ words, yes: "Withdraw" }) && { given: {}, of: desk.waiting.key };
  },
};

/** The desk of the operator's port, for one person. */
export class Desk {
  #asker;

  constructor(asker) { this.#asker = asker; }

  /** What the desk shows, or null if it does not run. */
  async state() {
    try {
      return await this.#asker.ask("/desk/state");
    } catch (fault) {
      if (fault instanceof Fault && (fault.status === 404 || fault.status === 0)) return null;
      throw fault;
    }
  }

  results() { return this.#asker.ask("/desk/results"); }

  /** The windows of a timetable, or a Fault that says what is wrong. */
  check(timetable) { return this.#asker.ask("/desk/check", "POST", { timetable }); }

  /**
   * Asks about an act, and has it done. Returns what the desk says, or null if the person does not
   * want it. The act is bound to what the page shows when it is asked about.
   */
  async act(act, state, given = null) {
    const { round, stamp } = state.desk;
    const key = freshKey();
    const answer = given ?? await QUESTIONS[act](state, this);
    if (!answer) return null;
    const body = { act, key, round, stamp, typed: "", of: "", ...answer };
    return this.#asker.ask("/desk/act", "POST", body);
  }
}
