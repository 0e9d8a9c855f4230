// The form: for each product one or more price points, each a quantity and a price as typed. An
// empty price means the clock price.

/** A whole number as typed, with or without commas between thousands, or null. */
const whole = (text) =>
  (/^(\d{1,15}|[1-9]\d{0,2}(,\d{3}){1,4})$/.test(text) ? Number(text.replaceAll(",", "")) : null);
/** A number of blocks as typed, or null. */
export const quantityOf = (text) => whole(text.trim());
/** Whole dollars as typed, with or without a `$`, or null. */
export const priceOf = (text) => whole(text.trim().replace(/^\$\s*/, ""));
export const WRONG_QUANTITY = "the quantity is not a whole number: enter a number of blocks, or 0";
export const WRONG_PRICE =
  "the price is not a whole number of dollars: enter one, or leave it empty for the clock price";

const EMPTY = {
  quantity: "",
  price: ""
};
const isEmpty = (step) => step.quantity.trim() === "" && step.price.trim() === "";
const same = (some, others) => some.length === others.length
  && some.every(
    (bid, place) => bid.quantity === others[place].quantity && bid.price === others[place].price
  );

export class Sheet {
  #steps = new Map();

  /** The price points of a product as typed; at least one, which may be empty. */
  steps(product) { return this.#steps.get(product) ?? [{...EMPTY }]; }

  /**
   * Enters a text into one field of a price point. Price points are never changed in place, so that
   * copies stay.
   */
  type(product, step, field, text) {
    const steps = this.steps(product);
    this.#steps
      .set(product, steps.map((typed, at) => (at === step ? {...typed, [field]: text } : typed)));
  }

  /** Everything that is typed, to be given back to `restore`. Takes no copy of the texts. */
  copy() { return new Map(this.#steps); }

  restore(copy) { this.#steps = new Map(copy); }

  /** Everything that is typed, as JSON, without empty price points. */
  toJSON() {
    return [...this.#steps]
      .map(([product, steps]) => [product, steps.filter((step) => !isEmpty(step))])
      .filter(([, steps]) => steps.length)
      .map(([product, steps]) => [product, steps.map(({ quantity, price }) => [quantity, price])]);
  }

  /**
   * Replaces everything by what `toJSON` gave. With `isOld`, prices are left out: they are of an
   * earlier round.
   */
  fromJSON(rows, isOld = false) {
    this.clear();
    for (const [product, steps] of rows) {
      const kept = isOld ? steps.slice(-1) : steps;
      this.#steps.set(product, kept.map(([quantity, price]) => ({
                                          quantity: String(quantity),
                                          price: isOld ? "" : String(price)
                                        })));
    }
  }

  /** Adds an empty price point to a product. */
  addStep(product) { this.#steps.set(product, [...this.steps(product), {...EMPTY }]); }

  clear() { this.#steps.clear(); }

  /** Whether anything is entered for a product. */
  isAsked(product) { return this.steps(product).some((step) => !isEmpty(step)); }

  /** Replaces everything by these bids. A price that is null is left empty. */
  take(bids) {
    this.clear();
    for (const { product, quantity, price } of bids) {
      const step = { quantity: String(quantity), price: price === null ? "" : String(price) };
      this.#steps.set(product, [...(this.#steps.get(product) ?? []), step]);
    }
  }

  /** Replaces everything by bids to maintain these processed demands. */
  maintain(held) {
    this.take(
      held.flatMap((quantity, product) => (quantity ? [{ product, quantity, price: null }] : []))
    );
  }

  /**
   * Prepares the form for the next round. A product whose row is what was submitted, `sent`, gets a
   * bid to maintain its
   * processed demand, or none if that is 0. In any other row the quantity stays, and the price is
   * cleared. Returns how many
   * rows were `maintained`, `emptied` and `left`.
   */
  carry(sent, held, prices) {
    const counts = { maintained: 0, emptied: 0, left: 0 }, sentOf = new Map();
    for (const bid of sent) sentOf.set(bid.product, [...(sentOf.get(bid.product) ?? []), bid]);
    held.forEach((quantity, product) => {
      const typed = this.#readProduct(product, prices), before = sentOf.get(product) ?? [];
      if (typed.wrong.length > 0 || !same(typed.bids, before)) {
        const last = this.steps(product).findLast((step) => !isEmpty(step));
        this.#steps.set(product, [{ quantity: last?.quantity ?? "", price: "" }]);
        counts.left++;
      } else if (quantity > 0) {
        this.#steps.set(product, [{ quantity: String(quantity), price: "" }]);
        counts.maintained++;
      } else if (this.#steps.delete(product) && before.length > 0)
        counts.emptied++;
    });
    return counts;
  }

  /**
   * The bids in the order of the products, each with its price point, and the price points that
   * cannot be read as bids.
   */
  read(prices) {
    const products = [...this.#steps.keys()].sort(
                                              (a, b) => a - b
    ).map((product) => this.#readProduct(product, prices));
    return {
      bids: products.flatMap(({ bids }) => bids),
      wrong: products.flatMap(({ wrong }) => wrong)
    };
  }

  #readProduct(product, prices) {
    const bids = [], wrong = [];
    (this.#steps.get(product) ?? []).forEach((typed, step) => {
      if (isEmpty(typed)) return;
      const quantity = quantityOf(typed.quantity);
      const price = typed.price.trim() === "" ? prices[product].clock : priceOf(typed.price);
      if (quantity === null)
        wrong.push({ product, step, text: WRONG_QUANTITY });
      else if (price === null)
        wrong.push({ product, step, text: WRONG_PRICE });
      else
        bids.push({ product, quantity, price, step });
    });
    return { bids, wrong };
  }
}
