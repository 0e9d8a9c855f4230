// Tables as CSV: bids to save and to read (`product,quantity,price`, or a table with these among
// its heads), and other tables to save.

import {priceOf, quantityOf, WRONG_PRICE, WRONG_QUANTITY} from "./sheet.js";

const HEAD = "product,quantity,price";
const field = (value) =>
  (/[",\r\n]/.test(String(value)) ? `"${String(value).replaceAll("\"", "\"\"")}"` : String(value));

/** The text of rows. */
export const written = (rows) => rows.map((row) => row.map(field).join(",") + "\r\n").join("");

/** Bids as CSV, products by name. */
export function writtenBids(products, bids) {
  return written([
    ["product", "quantity", "price"],
    ...bids.map((bid) => [products[bid.product].name, bid.quantity, bid.price])
  ]);
}

/**
 * A round to fill in, and to upload again: what is known of each product, and the price points of
 * the form. `terms` has prices and demands, `sold` the results of the last round, or null.
 */
export function writtenRound({products, prices, held}, sold, steps) {
  const head = ["product", "units", "supply", "cap", "start", "clock", "aggregate demand"];
  const lines = products.flatMap(
    (product, p) => steps(p).map(
      (typed) =>
        [product.name,
         product.units,
         product.supply,
         product.cap,
         prices[p].start,
         prices[p].clock,
         sold ? sold[p].demand ?? "" : "",
         held[p],
         typed.quantity.trim(),
         typed.price.trim(),
  ]
    )
  );
  return written([[...head, "processed demand", "quantity", "price"], ...lines]);
}

/** Where the fields of a bid are in the lines, by the heads of the first one; or null. */
function headsOf(fields) {
  const heads = fields.map((head) => head.toLowerCase());
  const places = HEAD.split(",").map((head) => heads.indexOf(head));
  return places.includes(-1) ? null : { places, count: fields.length };
}

/**
 * The fields of a line, parted by semicolons or tabs if it has any, else by commas not in quotes.
 */
function fieldsOf(line) {
  const parted = /[;\t]/.test(line) ? /(?:^|[;\t])("[^"]*"|[^;\t]*)/g : /(?:^|,)("[^"]*"|[^,]*)/g;
  return [...line.matchAll(parted)].map(
    (match) => match[1].trim().replace(/^"(.*)"$/, "$1").trim()
  );
}

/** The three fields of a bid, whose price may have commas. */
function joined(fields) {
  const price = fields.slice(2).join(",");
  return fields.length > 3 && /^\$?[1-9]\d{0,2}(,\d{3})+$/.test(price)
    ? [...fields.slice(0, 2), price]
    : fields;
}

/**
 * The bids of a CSV text, and its wrong lines in words. A product is named, or numbered from 0 if
 * no product's name is a number. A price may have `$` and commas; an empty one is null.
 */
export function readBids(products, text) {
  const numbers = new Map(products.map((product, at) => [product.name, at]));
  const areNumbers =
    products.some((product) => /^\d+$/.test(product.name)); // a spreadsheet makes 1 of 001
  if (!areNumbers) products.forEach((_, at) => numbers.set(String(at), at));
  const bids = [], wrong = [];
  let heads = null;
  text.replace(/^\ufeff/, "").split(/\r\n|\n|\r/).forEach((line, at) => {
    const say = (words) => wrong.push(`line ${at + 1}: ${words}`);
    const all = fieldsOf(line);
    if (at === 0) heads = headsOf(all);
    if (all.join("") === "" || (at === 0 && heads)) return;
    const isWide = heads !== null && (heads.count > 3 || heads.places.join() !== "0,1,2");
    if (isWide && all.length !== heads.count) return say("it has not as many fields as the first");
    const fields = isWide ? heads.places.map((n) => all[n]) : joined(all);
    if (fields.length !== 3) return say(`there are not three fields: ${HEAD}`);
    if (isWide && fields[1] + fields[2] === "") return; // a product without a bid
    const product = numbers.get(fields[0]);
    const quantity = quantityOf(fields[1]);
    const price = fields[2] === "" ? null : priceOf(fields[2]);
    if (product === undefined) return say(`no product is called ${fields[0].slice(0, 40)}`);
    if (quantity === null) return say(WRONG_QUANTITY);
    if (price === null && fields[2] !== "") return say(WRONG_PRICE);
    bids.push({ product, quantity, price });
  });
  return { bids, wrong };
}

/**
 * What blocks are worth to a bidder, by a text with lines `product,value,value,..`: the value of
 * the first block, of the second one, and so on. Returns a list for each product, and the wrong
 * lines in words.
 */
export function readValues(products, text) {
  const places = new Map(products.map(({ name }, p) => [name, p]));
  const worth = products.map(() => []), wrong = [];
  text.replace(/^\ufeff/, "").split(/\r\n|\n|\r/).forEach((line, at) => {
    const [name, ...fields] = fieldsOf(line);
    const given = fields.filter((field) => field !== "");
    if (!name || (at === 0 && name.toLowerCase() === "product")) return;
    const values = given.map(priceOf);
    if (!places.has(name))
      wrong.push(`line ${at + 1}: no product is called ${name.slice(0, 40)}`);
    else if (values.includes(null))
      wrong.push(`line ${at + 1}: a value is not a whole number of dollars`);
    else
      worth[places.get(name)] = values;
  });
  return { worth, wrong };
}

/** Gives a text to the person as a file. */
export function save(name, text) {
  const link = document.createElement("a");
  link.href = URL.createObjectURL(new Blob([text], { type: "text/csv" }));
  link.download = name;
  document.body.append(link);
  link.click();
  link.remove();
  setTimeout(() => URL.revokeObjectURL(link.href), 10_000);
}
