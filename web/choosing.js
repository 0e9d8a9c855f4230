// Which rows of a table are shown, and in which order: by a search, by a column. Nothing here reads
// the page, so tests run it in Node.

import {counted, number} from "./page.js";

const collate = new Intl.Collator("en", { numeric: true }).compare;

/** The words of a search, in small letters. */
export const searched = (text) => text.trim().toLowerCase().split(/\s+/).filter(Boolean);

/** Whether a name has each of these words. */
export const isFound = (name, words) => {
  const small = name.toLowerCase();
  return words.every((word) => small.includes(word));
};

/**
 * Places in the order of their values by `by`, rising or falling; without `by` as they are. Places
 * of equal values stay in their order.
 */
export function sorted(places, by, isDown) {
  if (!by) return places;
  const values = new Map(places.map((place) => [place, by(place)]));
  const turn = isDown ? -1 : 1;
  return places.toSorted((a, b) => {
    const [x, y] = [values.get(a), values.get(b)];
    return turn * (typeof x === "string" ? collate(x, y) : x - y) || a - b;
  });
}

/** How a table is sorted after its head `id` was pressed: rising, falling, and then as it was. */
export function turned({id, isDown}, pressed) {
  if (id !== pressed) return { id: pressed, isDown: false };
  return isDown ? { id: null, isDown: false } : { id, isDown: true };
}

/** How many rows are shown of all, in words. */
export const countWords = (shown, all, noun) =>
  (shown === all ? counted(all, noun) : `${number(shown)} of ${number(all)}`);
