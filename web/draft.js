// The draft of the form: what is typed, stored in this tab's session storage, so that it survives a
// reload, Back, and a tab that the browser discards. It has no token, and is bound to the auction,
// the bidder, and the round.

const NAME = "draft";

/** A short mark of an auction: the same for the same products and the same server's auction. */
export function auctionMark(products, commitment) {
  const text = commitment?.auction ?? JSON.stringify(products);
  let mark = 0;
  for (let n = 0; n < text.length; n++) mark = (Math.imul(mark, 31) + text.charCodeAt(n)) | 0;
  return `${text.length}.${mark >>> 0}`;
}

/**
 * Keeps rows for a round; none if there is nothing typed. A store that is full or forbidden keeps
 * nothing.
 */
export function keepDraft({auction, bidder, round, time, rows}) {
  try {
    if (rows.length === 0)
      sessionStorage.removeItem(NAME);
    else
      sessionStorage.setItem(NAME, JSON.stringify({ auction, bidder, round, time, rows }));
  } catch { /* the question before leaving is still asked */
  }
}

/** The draft of this auction and bidder, or null. It may be of an earlier round. */
export function draftOf(auction, bidder, count) {
  try {
    const draft = JSON.parse(sessionStorage.getItem(NAME));
    const isMine =
      draft?.auction === auction && draft.bidder === bidder && Array.isArray(draft.rows);
    const isRow = ([product, steps]) =>
      Number.isInteger(product) && product >= 0 && product < count && steps.every(Array.isArray);
    return isMine && draft.rows.every(isRow) ? draft : null;
  } catch {
    return null;
  }
}

const COLUMNS = "columns";

/** Keeps which columns a person has chosen in this tab: { ID: whether it is shown }. */
export function keepColumns(chosen) {
  try {
    sessionStorage.setItem(COLUMNS, JSON.stringify(chosen));
  } catch { /* the columns are as at first after a reload */
  }
}

/** The columns that a person has chosen in this tab. */
export function columnsOf() {
  try {
    return JSON.parse(sessionStorage.getItem(COLUMNS)) ?? {};
  } catch {
    return {};
  }
}

const SHEETS = "sheets";

/**
 * Keeps the bids that this tab saw in force in each round: { bids, time }, or null if that is not
 * known. If there is no space for all rounds, the oldest are left out.
 */
export function keepSheets(auction, bidder, sheets) {
  const rounds = [...sheets]
                   .filter(([, sheet]) => sheet)
                   .sort(([a], [b]) => a - b)
                   .map(
                     ([round, { bids, time }]
                     ) => [round, time ?? "", bids.map(({ product,
                                                          quantity,
                                                          price }) => [product, quantity, price])]
                   );
  while (auction && rounds.length) {
    try {
      return sessionStorage.setItem(SHEETS, JSON.stringify({ auction, bidder, rounds }));
    } catch {
      rounds.shift();
    }
  }
}

/** The bids that this tab saw of an auction and a bidder, by round. */
export function sheetsOf(auction, bidder) {
  try {
    const kept = JSON.parse(sessionStorage.getItem(SHEETS));
    if (kept?.auction !== auction || kept.bidder !== bidder) return new Map();
    return new Map(kept.rounds.map(
      ([round, time, bids]) => [round, {
        bids: bids.map(([product, quantity, price]) => ({ product, quantity, price })),
        ...(time ? { time } : {})
      }]
    ));
  } catch {
    return new Map();
  }
}

const EVIDENCE = "evidence";

/**
 * Keeps the receipts of a bidder in an auction, what this tab sent, and refusals of late sheets,
 * for after a reload.
 */
export function keepEvidence(auction, bidder, evidence) {
  if (!auction) return;
  try {
    sessionStorage.setItem(EVIDENCE, JSON.stringify({ auction, bidder, ...evidence }));
  } catch { /* after a reload, the receipts are reported as not sent from this tab */
  }
}

/** The receipts and refusals of a bidder that this tab has, and what it sent. */
export function evidenceOf(auction, bidder) {
  const none = { receipts: [], sent: [], refusals: [] };
  try {
    const kept = JSON.parse(sessionStorage.getItem(EVIDENCE));
    if (kept.auction === auction && kept.bidder === bidder) return {...none, ...kept };
  } catch { /* nothing is kept */
  }
  return none;
}
