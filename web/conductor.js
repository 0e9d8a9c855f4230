// What the conductor reports to the operator: what it waits for, and which bidders have submitted
// bids in the round.

const EVERY = 2000; // milliseconds between two requests, also if no conductor is running
const STALE = 15;   // seconds without a report after which it may have stopped
const HELD =
  ["held", "paused", "unplanned", "gone", "mismatch"]; // the states in which it waits for a person

export class Conductor {
  #report = null;
  #since = 0; // when the report's time last changed, by this tab's clock

  /** Asks for reports, for good. `changed` is called after each answer. */
  async watch(asker, changed) {
    for (;;) {
      try {
        const report = await asker.conductor();
        if (report.time !== this.#report?.time) this.#since = performance.now();
        this.#report = report;
      } catch (fault) {
        if (fault.status === 404)
          this.#report = null; // else the last report stays, until it is stale
      }
      changed();
      await new Promise((done) => setTimeout(done, EVERY));
    }
  }

  /** Whether the last report is too old to rely on. */
  isStale() { return performance.now() - this.#since > STALE * 1000; }

  /** Whether the conductor waits for a person. */
  needsYou() {
    return this.#report !== null && (this.isStale() || HELD.includes(this.#report.state));
  }

  /** What the conductor waits for. */
  words() {
    if (!this.#report) {
      return "No conductor is running: close each round with `auction close`, " +
        "which first lists who has submitted bids.";
    }
    const since = new Date(this.#report.time).toLocaleTimeString("en-GB");
    if (this.isStale()) {
      const why = "It may have stopped, or a long closing is under way.";
      return `⚠ The conductor has not reported since ${since}. ${why}`;
    }
    return `${this.needsYou() ? "⚠ " : ""}Conductor: ${this.#report.waits_for}`;
  }

  /**
   * A sentence for the question before a closing, if the conductor would close the round by itself.
   */
  early() {
    const isActive = this.#report && !this.isStale() && !HELD.includes(this.#report.state);
    return isActive ? ` The conductor would close it by itself: ${this.#report.waits_for}` : "";
  }

  /**
   * The names of the bidders that have submitted bids in the round, and of those that have not;
   * null if that is not known.
   */
  sheetsOf(round, names) {
    if (!this.#report?.sheets || this.#report.round !== round || this.isStale()) return null;
    const sheets = new Set(this.#report.sheets);
    return {
      submitted: names.filter((name) => sheets.has(name)),
      missing: names.filter((name) => !sheets.has(name))
    };
  }
}
