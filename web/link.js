// What a page knows of its link to the server: whether it answers, since when it does not, and
// whether it withholds pages while a round is closing.

import {watch} from "./api.js";
import {sentence, timeOfDay} from "./page.js";
import {wordsOf} from "./rules.js";

/**
 * @typedef {object} Link
 * @property {boolean} silent whether the last answer is too old
 * @property {string} answered when the server answered last
 * @property {string} fault what it said instead
 * @property {boolean} closing whether it withholds pages until the results of the round are shown
 * to everyone
 */

/**
 * What is known at first, and once the server has answered.
 * @returns {Link}
 */
export const answers = (answered = timeOfDay()) =>
  ({silent: false, answered, fault: "", closing: false});

/** The link, in words and with its class. `may` says what a silence may mean. */
export function linkLine(link, may, closing = "Connected") {
  const since = `since ${link.answered}.`;
  if (link.fault) return { kind: "bad", words: `${sentence(link.fault)} ${since} Retrying.` };
  if (link.silent) return { kind: "bad", words: `No answer ${since} ${may}` };
  return { kind: "good", words: link.closing ? closing : "Connected" };
}

/**
 * Asks for the status, for good. `heard` takes it, `link` returns what is known, `set` changes it,
 * and `doubt` is called if what was loaded may be old, or could not be loaded.
 */
export function follow(asker, {heard, link, set, doubt}) {
  watch(asker, {
    async heard(status) {
      await heard(status);
      set(answers());
    },
    slow() {
      if (!link().silent) set({...link(), silent: true });
    },
    missed(fault) {
      doubt();
      const words = fault.status ? wordsOf(fault.code) : "no answer";
      set({...link(), silent: true, closing: false, fault: words });
    },
    closing() { // what is asked for when the round's number has risen may be withheld too
      doubt();
      set({...answers(), closing: true });
    },
  });
}
