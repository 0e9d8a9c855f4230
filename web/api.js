// The server's routes. A token stays in the memory of this tab, and is sent only in the header of a
// request.

// Seconds to wait for a reply: closing a very large round may take minutes. A slow answer is
// reported before that.
const SECONDS = 20, CLOSING_SECONDS = 300, SLOW_SECONDS = 3;

/**
 * A refusal of the server, or no answer: then `status` is 0, and the request may have taken effect
 * or not.
 */
export class Fault extends Error {
  /**
   * @param {{ code: string, place?: number, words?: string }} page
   * @param {number} status
   */
  constructor(page, status) {
    super(page.code);
    this.code = page.code;
    this.words = page.words;
    this.place = page.place;
    this.status = status;
  }
}

const noAnswer = () => new Fault({ code: "no_answer" }, 0);
/** A signal that ends a request after these milliseconds. */
export const within = (milliseconds) => /** @type {any} */ (AbortSignal).timeout(milliseconds);
export const pause = (time) => new Promise((done) => setTimeout(done, time));
const MOST_SPREAD = 1500;
/**
 * The milliseconds that a page waits before it asks for the results of a round that has just been
 * closed, so that not all ask at once. The more products there are, the longer the results.
 */
export const spread = (products, random = Math.random()) =>
  Math.floor(random * Math.min(MOST_SPREAD, products / 2));

/** Sends requests for a bidder or for the operator. */
export class Asker {
  #token;

  constructor(token) {
    if (/[^ -~]/.test(token))
      throw new Fault({ code: "token" }, 401); // no header may have such a letter
    this.#token = token;
  }

  /**
   * The page for a path, or a Fault. If nginx replies "too often", the request is repeated up to
   * five times.
   */
  async ask(path, method = "GET", body = undefined) {
    for (let again = 0;; again++) {
      const reply = await this.#send(path, method, body);
      if (reply.status === 429 && again < 5) {
        await pause(500 * (again + 1));
        continue;
      }
      const page = await reply.json().catch(() => null);
      if (reply.ok && [
            "round", "products", "closed", "state", "auction"
          ].some((key) => page?.[key]))
        return page;
      // nginx without the server, or neither of them
      if (reply.ok || !page?.code || (page.code === "proxy" && reply.status >= 500))
        throw noAnswer();
      throw new Fault(page, reply.status);
    }
  }

  async #send(path, method, body) {
    const headers = this.#token ? { authorization: "Bearer " + this.#token } : {};
    try {
      return await fetch("." + path, {
        method,
        headers,
        cache: "no-store",
        credentials: "omit",
        referrerPolicy: "no-referrer",
        body: body === undefined ? undefined : JSON.stringify(body),
        signal: within((method === "POST" ? CLOSING_SECONDS : SECONDS) * 1000),
      });
    } catch {
      throw noAnswer();
    }
  }

  status() { return this.ask("/v1/status"); }
  products() { return this.ask("/v1/products"); }
  round(n) { return this.ask("/v1/rounds/" + n); }
  account() { return this.ask("/v1/me"); }
  inForce() { return this.ask("/v1/me/bids"); }
  slip(n) { return this.ask("/v1/me/rounds/" + n); }
  put(round, bids) { return this.ask("/v1/me/bids", "PUT", { bids, round }); }
  close(closing) { return this.ask("/v1/close", "POST", closing); }
  results() { return this.ask("/v1/results"); }
  conductor() { return this.ask("/conductor.json"); }
  commitment() { return this.ask("/public/commitment.json"); }
  receipt(n, sheet) { return this.ask(`/receipts/${n}/${sheet}.json`); }
  refusal() { return this.ask("/receipts/refused.json"); }
}

/**
 * Whether a fault only says that pages are withheld until the results of the round are shown to
 * everyone.
 */
export const isClosing = (fault) => fault.code === "closing" && fault.status === 503;

/**
 * Asks for the status every second, for good, and every five seconds while there is no answer.
 * `heard` takes a status, and may ask for more; `missed` takes the fault if that fails, or
 * `closing` if pages are withheld. `slow` is called while the last answer is older than three
 * seconds, also after a sleep of the machine.
 */
export async function watch(asker, {heard, slow, missed, closing}) {
  let answered = Date.now();
  let failed = false;
  setInterval(() => {
    if (!failed && Date.now() - answered > SLOW_SECONDS * 1000) slow();
  }, 250);
  for (;;) {
    try {
      await heard(await asker.status());
      failed = false;
    } catch (fault) {
      failed = !isClosing(fault);
      if (failed) {
        missed(fault);
      } else {
        closing(fault);
      }
    }
    if (!failed) answered = Date.now();
    await pause(failed ? 5000 : 1000);
  }
}
