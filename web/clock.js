// The server's clock, and what a timetable says at a moment. Nothing here reads the page, so tests
// run it in Node.

/**
 * The server's clock, from the Date of its replies, which has whole seconds. Each reply narrows how
 * far it is from the tab's own clock.
 */
export class Clock {
  #low = -Infinity;
  #high = Infinity;

  /** Takes the Date of a reply, and when its request was sent and the reply came. */
  heard(date, sent, came) {
    const shown = Date.parse(date);
    if (Number.isNaN(shown)) return;
    const low = shown - came;
    const high = shown + 1000 - sent;
    const isSet = low > this.#high || high < this.#low; // a clock was set, or the tab slept
    this.#low = isSet ? low : Math.max(this.#low, low);
    this.#high = isSet ? high : Math.min(this.#high, high);
  }

  /**
   * The latest time that the server's clock may show, in milliseconds: the page never shows more
   * time than is left.
   */
  now() { return Number.isFinite(this.#high) ? performance.now() + this.#high : Date.now(); }
}

const two = (n) => String(n).padStart(2, "0");

/** Seconds as a clock shows them. */
export function clockWords(seconds) {
  const minutes = Math.floor(seconds / 60);
  if (minutes < 60) return `${minutes}:${two(seconds % 60)}`;
  return `${Math.floor(minutes / 60)}:${two(minutes % 60)}:${two(seconds % 60)}`;
}

/** A time of day, with its day if that is not the day of another time. */
export function timeWords(time, now) {
  const date = new Date(time);
  const isToday = date.toDateString() === new Date(now).toDateString();
  return date.toLocaleString("en-GB", {
    hour: "2-digit",
    minute: "2-digit",
    ...(date.getSeconds() ? { second: "2-digit" } : {}),
    ...(isToday ? {} : { weekday: "short", day: "numeric", month: "short" }),
  });
}

/** The time zone of this tab, and how far it is from UTC at a time. */
export function zoneWords(now) {
  const minutes = -new Date(now).getTimezoneOffset(), whole = Math.abs(minutes);
  const hours = `${minutes < 0 ? "-" : "+"}${Math.floor(whole / 60)}`;
  const offset = minutes ? hours + (whole % 60 ? `:${two(whole % 60)}` : "") : "";
  return `${Intl.DateTimeFormat().resolvedOptions().timeZone}, UTC${offset}`;
}

/** When the results of the current round appear, in words, while that is still to come; else "". */
export function resultsOf(table, now) {
  const window = table?.windows.find((each) => each.round === table.round);
  const results = Date.parse(window?.results);
  return now < results ? timeWords(results, now) : "";
}

/**
 * The state of the current round, by the timetable: its phase, that in words, the time that is
 * counted down to, if there is
 * one, and when its results appear.
 */
export function stateOf(table, now) {
  const window = table.windows.find((each) => each.round === table.round);
  const opens = Date.parse(window?.opens);
  const closes = Date.parse(window?.closes);
  const results = resultsOf(table, now);
  const state = (phase, words, until = null) => ({ phase, words, until, closes, results });
  if (table.ended) return state("ended", "The auction has ended.");
  if (table.paused) return state("paused", `Paused: ${table.paused}`);
  if (!window) return state("unplanned", "The next time will be announced.");
  if (now < opens) return state("before", `Opens at ${timeWords(opens, now)}`, opens);
  if (Number.isNaN(closes))
    return state("open", `Open. ${window.note ?? "The end will be announced."}`);
  if (now < closes) return state("open", `Open until ${timeWords(closes, now)}`, closes);
  return state(
    "shut", `Closed for bids. ${results ? `Results appear at ${results}.` : "The results follow."}`
  );
}

/**
 * What is said while pages are withheld, from the end of a window until its results are shown to
 * everyone.
 */
export const closingWords = (results) =>
  `The round is closing; ${results ? `results appear at ${results}` : "its results follow"}.`;
