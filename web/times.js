// What the operator publishes about time: the timetable, the time that is left by the server's
// clock, and announcements.

import {within} from "./api.js";
import {
  Clock,
  clockWords,
  closingWords,
  resultsOf,
  stateOf,
  timeWords,
  zoneWords
} from "./clock.js";
import {markPage} from "./mock.js";
import {at, counted, make, tell} from "./page.js";

const TIMETABLE = "./public/timetable.json", ANNOUNCEMENTS = "./public/announcements.json";
const EVERY = 2000;
const SELDOM = 10_000; // milliseconds between two requests; the longer one if there is no timetable
const CALLED =
  [1800, 600, 300, 60, 20]; // seconds before the end at which the time left is read out
const SOON = 60;
const SHOWN = 12; // rounds of the timetable

const spoken = (seconds) =>
  (seconds < 60 ? counted(seconds, "second") : counted(Math.round(seconds / 60), "minute"));

/**
 * The card with the announcements and the timetable, which is hidden until there is a timetable.
 */
function card() {
  const list = {
    id: "announced",
    reversed: true,
    role: "log",
    "aria-live": "polite",
    "aria-labelledby": "announcements",
    tabindex: 0,
  };
  return make(
    "aside", { id: "times", class: "card", "aria-labelledby": "timed", hidden: true },
    make("h2", { id: "timed" }, "Time and announcements"), make("p", { id: "notice" }),
    make(
      "div", { id: "announcing", hidden: true },
      make("h3", { id: "announcements" }, "Announcements"), make("ol", list)
    ),
    make("div", {}, make("h3", { id: "zone" }), make("ul", { id: "windows" }))
  );
}

/** Asks for the timetable, and shows it. */
export class Times {
  #clock = new Clock();
  #table = null;
  #known = 0;          // announcements
  #called = new Map(); // the last mark that was read out, by the end that it is of
  #wake = () => {};    // ends the pause between two requests

  /**
   * @param {object} given
   * @param {(table: any) => any} [given.heard] takes each timetable
   * @param {() => any} [given.absent] is called each time that there is none
   * @param {(time: any) => void} [given.ticked] takes { phase, words, seconds, results } four times
   * a second, and draws the time left itself
   * @param {(count: number) => void} [given.news] takes the number of announcements
   * @param {Element} [given.host] where the card is put
   */
  constructor({ heard, absent, ticked, news, host = document.querySelector("main") }) {
    this.heard = heard;
    this.absent = absent;
    this.ticked = ticked;
    this.news = news;
    host.append(card());
    this.#watch();
    setInterval(() => this.#draw(), 250);
  }

  /** What is said while pages are withheld until the results of the round are shown to everyone. */
  closing() { return closingWords(resultsOf(this.#table, this.#clock.now())); }

  /** Asks for the timetable now, and not at its next turn. */
  ask() { this.#wake(); }

  async #get(path) {
    const sent = performance.now();
    const signal = within(10_000);
    const reply = await fetch(path, { cache: "no-cache", credentials: "omit", signal });
    this.#clock.heard(reply.headers.get("date"), sent, performance.now());
    if (reply.status === 404) return null;
    if (!reply.ok) throw new Error(`status ${reply.status}`);
    return reply.json();
  }

  async #watch() {
    for (;;) {
      try {
        const table = await this.#get(TIMETABLE);
        this.#table = table?.windows ? table : null;
        at("times").hidden = at("clock").hidden = !this.#table;
        if (this.#table) {
          await this.#show(this.#table);
        } else {
          await this.absent?.();
        }
      } catch {
        // no answer: the time that is known is still counted
      }
      await new Promise((done) => {
        this.#wake = () => done(null);
        setTimeout(done, this.#table ? EVERY : SELDOM);
      });
    }
  }

  async #show(table) {
    markPage(table.mock);
    tell("notice", table.notice ?? "");
    this.#draw();
    this.#drawTable();
    await this.heard?.(table);
    if (table.announcements !== this.#known) await this.#announce();
  }

  async #announce() {
    const page = await this.#get(ANNOUNCEMENTS);
    if (!page) return;
    const { announcements } = page;
    const last = announcements[announcements.length - 1];
    if (this.#known > announcements.length) { // another auction
      this.#known = 0;
      at("announced").replaceChildren();
    }
    const timeOf = (one) => timeWords(one.time, this.#clock.now());
    for (const one of announcements.slice(this.#known)) {
      const time = make("time", { datetime: one.time }, timeOf(one));
      at("announced").prepend(make("li", { value: one.number }, time, ` ${one.text}`));
    }
    this.#known = announcements.length;
    this.news?.(announcements.length);
    at("latest").hidden = at("announcing").hidden = !last;
    if (last) tell("latest", `Announcement ${last.number}, ${timeOf(last)}: ${last.text}`);
  }

  #drawTable() {
    const { windows, round, ended } = this.#table;
    const now = this.#clock.now();
    const drawn = JSON.stringify([windows, round, ended, new Date(now).toDateString()]);
    if (at("windows").dataset.drawn === drawn) return; // so that a reader's place in the list stays
    at("windows").dataset.drawn = drawn;
    const coming = windows.filter((each) => each.round >= round - 1);
    const more = coming.length - SHOWN;
    tell("zone", `Timetable, in your local time: ${zoneWords(now)}`);
    const rows = coming.slice(0, SHOWN).map((each) => {
      const end = each.closes ? timeWords(each.closes, each.opens) : "…";
      const state = each.round < round || ended ? ", closed" : "";
      const words = `Round ${each.round}: ${timeWords(each.opens, now)} to ${end}${state}`;
      return make("li", each.round === round ? { "aria-current": "step" } : {}, words);
    });
    if (more > 0) rows.push(make("li", {}, `and ${counted(more, "more round")}`));
    at("windows").replaceChildren(...rows);
  }

  #draw() {
    if (!this.#table) return;
    const now = this.#clock.now();
    const { phase, words, until, closes, results } = stateOf(this.#table, now);
    const seconds = until === null ? null : Math.max(0, Math.floor((until - now) / 1000));
    if (phase === "open" && seconds !== null) {
      this.#call(seconds, closes);
    } else {
      tell("called", "");
    }
    if (this.ticked) {
      const ago = Math.ceil((closes - now) / 1000);
      const left = phase === "shut" ? ago : seconds;
      return this.ticked({ phase, words, seconds: left, results, round: this.#table.round });
    }
    tell("standing", words);
    tell("left", leftWords(phase, seconds));
    at("clock").className = phase === "open" && seconds !== null && seconds < SOON ? "soon" : "";
  }

  /** Has the time left read out at each mark that is passed while the page is open. */
  #call(seconds, closes) {
    const mark = Math.min(...CALLED.filter((each) => seconds < each)); // Infinity before the first
    const before = this.#called.get(closes);
    this.#called.set(closes, mark);
    if (before === undefined || before <= mark) return;
    tell("called", `${spoken(seconds + 1)} left in round ${this.#table.round}.`);
  }
}

/** The time left, in words. */
function leftWords(phase, seconds) {
  if (seconds === null) return "";
  return phase === "before" ? `in ${clockWords(seconds)}` : `${clockWords(seconds)} left`;
}
