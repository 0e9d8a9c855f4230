// What is pasted into the grid: a column or a block of cells from a spreadsheet, or bids by
// product.

const FIELDS = ["quantity", "price"];

/**
 * The cells of a text from a spreadsheet: rows by line, cells by tab. One empty line at the end is
 * not a row.
 */
export function cellsOf(text) {
  const lines = text.replace(/\r\n?/g, "\n").split("\n");
  if (lines.length > 1 && lines[lines.length - 1] === "") lines.pop();
  return lines.map((line) => line.split("\t").map((cell) => cell.trim()));
}

/** Whether a text is more than one cell, so that the grid takes it and not the field. */
export const isBlock = (text) => /[\t\n\r]/.test(text.replace(/[\r\n]+$/, ""));

/** Whether a text has bids by product: most of its rows begin with the name of one. */
export function isByProduct(text, names) {
  const rows = text.split(/\r\n|\n|\r/).filter((line) => line.trim() !== "").slice(0, 50);
  const named =
    rows.filter((row) => names.has(row.split(/[\t;,]/)[0].trim().replace(/^"(.*)"$/, "$1")));
  return rows.length > 0 && named.length * 2 > rows.length;
}

/**
 * Where the cells go, from the row `first` and the field `field` on: a list of { key, field, text
 * }. `keys` are the rows in
 * the order in which they are shown. Returns too how many cells have no place.
 */
export function placed(cells, keys, first, field) {
  const entries = [], start = FIELDS.indexOf(field);
  let left = 0;
  cells.forEach((row, down) => row.forEach((text, across) => {
    const key = keys[first + down], name = FIELDS[start + across];
    if (key === undefined || name === undefined)
      left += text === "" ? 0 : 1;
    else
      entries.push({ key, field: name, text });
  }));
  return { entries, left };
}
