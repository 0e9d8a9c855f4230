// A chart by round: a price as a line, and numbers of blocks as bars below it, and as a second line
// if there is another number. `plotOf` works out what is drawn, and reads no page. The table next
// to a chart has the same numbers.

import {make} from "./page.js";

const SVG = "http://www.w3.org/2000/svg";
const HIGH = 290, TOP = 26, MIDDLE = 150, BARS = 188, FOOT = 252, RIGHT = 16, LETTER = 7;
const words = (n) => n.toLocaleString("en-US");

/**
 * @typedef {object} Point what is known of a round; `other` is null if it is not known
 * @property {number} round
 * @property {number | bigint} price
 * @property {number} blocks
 * @property {number | null} [other]
 */

/** At most `most` round numbers from `low` to `high`, whose steps are 1, 2 or 5 with zeros. */
export function ticks(low, high, most) {
  if (high <= low) return [low];
  const least = (high - low) / most;
  const ten = 10 ** Math.floor(Math.log10(least));
  const step = Math.max(1, [1, 2, 5, 10].map((n) => n * ten).find((n) => n >= least));
  const first = Math.ceil(low / step) * step;
  const found = [];
  for (let n = first; n <= high; n += step) found.push(n);
  return found.length ? found : [low];
}

/**
 * Which of `count` rounds are written below the bars, so that their numbers have `space` pixels.
 */
export function labelled(count, step, space) {
  const every = Math.max(1, Math.ceil(space / step));
  return Array.from({ length: count }, (_, n) => n).filter((n) => (count - 1 - n) % every === 0);
}

/** Where the points of a chart are: a scale for each of its parts. */
function scales(points, wide) {
  const prices = points.map(({ price }) => Number(price));
  const low = Math.min(...prices), high = Math.max(...prices);
  const most = Math.max(1, ...points.flatMap(({ blocks, other }) => [blocks, other ?? 0]));
  const left = Math.max(56, LETTER * words(high).length + 22);
  const step = (wide - left - RIGHT) / points.length;
  return {
    low,
    high,
    most,
    left,
    step,
    x: (place) => left + step * (place + 0.5),
    yPrice: (price) =>
      (high === low ? (TOP + MIDDLE) / 2
                    : MIDDLE - ((Number(price) - low) / (high - low)) * (MIDDLE - TOP)),
    yBlocks: (blocks) => FOOT - (blocks / most) * (FOOT - BARS)
  };
}

/**
 * The shapes of a chart `wide` pixels wide, as [tag, attributes, text].
 * @param {Point[]} points
 * @param {number} wide
 * @returns {[string, Object<string, any>, string?][]}
 */
export function plotOf(points, wide) {
  const scale = scales(points, wide);
  const { left, step, x, yPrice, yBlocks } = scale;
  const right = wide - RIGHT;
  const text = (x, y, anchor, words) => ["text", { x, y, "text-anchor": anchor }, words];
  const line = (y, kind) => ["line", { class: kind, x1: left, x2: right, y1: y, y2: y }];
  const axis = (values, y) => values.flatMap(
    (value) => [line(y(value), "grid"), text(left - 8, y(value) + 4, "end", words(value))]
  );
  const bar = Math.max(1.5, Math.min(40, step * 0.62));
  const places = points.map((_, place) => place);
  const line2 = places.filter((place) => points[place].other != null);
  return /** @type {any} */ ([
    ...axis(ticks(scale.low, scale.high, 4), yPrice),
    ...axis(ticks(0, scale.most, 2), yBlocks),
    ...points.map(({ blocks }, place) => ["rect", {
                    class: "blocks",
                    x: x(place) - bar / 2,
                    y: yBlocks(blocks),
                    width: bar,
                    height: FOOT - yBlocks(blocks)
                  }]),
    line(FOOT, "axis"),
    ...labelled(points.length, step, LETTER * 3 + 6)
      .map((place) => text(x(place), FOOT + 18, "middle", words(points[place].round))),
    text(left - 8, FOOT + 18, "end", "Round"),
    ["polyline", { class: "price", points: path(points, x, ({ price }) => yPrice(price)) }],
    ...(
      line2.length > 1 ? [[
        "polyline", {
          class: "other",
          points: line2.map((n) => `${x(n)},${yBlocks(points[n].other)}`).join(" ")
        }
      ]]
                       : []
    ),
    ...(
      points.length < 25 ? points.map(
        ({ price }, place) =>
          ["circle", { class: "price", cx: x(place), cy: yPrice(price), r: Math.min(4, step / 4) }]
      )
                         : []
    ),
  ]);
}

const path = (points, x, y) => points.map((point, place) => `${x(place)},${y(point)}`).join(" ");

/** The place of the point at `x` pixels of a chart `wide` pixels wide. */
export function placeAt(points, wide, x) {
  const { left, step } = scales(points, wide);
  return Math.max(0, Math.min(points.length - 1, Math.floor((x - left) / step)));
}

/** The shapes of a small chart of prices and blocks, for a row of a table. */
export function sparkOf(points, wide = 96, high = 22) {
  const prices = points.map(({ price }) => Number(price));
  const low = Math.min(...prices), range = Math.max(...prices) - low || 1;
  const most = Math.max(1, ...points.map(({ blocks }) => blocks));
  const step = wide / points.length;
  const x = (place) => step * (place + 0.5);
  const y = ({ price }) => high - 2 - ((Number(price) - low) / range) * (high - 4);
  return [
    ...points.flatMap(({ blocks }, place) => {
      if (!blocks) return [];
      const tall = (blocks / most) * (high - 4), width = Math.max(1, step * 0.7);
      const box = { x: x(place) - width / 2, y: high - tall, width, height: tall };
      return [["rect", { class: "blocks", ...box }]];
    }),
    points.length > 1 ? ["polyline", { class: "price", points: path(points, x, y) }]
                      : ["circle", { class: "price", cx: x(0), cy: y(points[0]), r: 2 }],
  ];
}

function drawn(shapes, attributes) {
  const svg = document.createElementNS(SVG, "svg");
  for (const [tag, given, text] of [["svg", attributes], ...shapes]) {
    const element = tag === "svg" ? svg : document.createElementNS(SVG, tag);
    for (const [name, value] of Object.entries(given)) element.setAttribute(name, value);
    if (text !== undefined) element.textContent = text;
    if (element !== svg) svg.append(element);
  }
  return svg;
}

/** A small chart, which says nothing that the row does not say. */
export function spark(points) {
  const size = { viewBox: "0 0 96 22", width: 96, height: 22 };
  return drawn(sparkOf(points), { class: "spark", "aria-hidden": "true", ...size });
}

/**
 * A chart with a cursor, which the mouse and the arrow keys move. `say` has what is said of a
 * point.
 * @param {string} name
 * @param {Point[]} points
 * @param {number} wide
 * @param {(point: any) => string} say
 */
export function chart(name, points, wide, say) {
  const all = points.map(say).join("; ");
  const svg = drawn([["title", {}, `${name}. ${all}`], ...plotOf(points, wide)], {
    viewBox: `0 0 ${wide} ${HIGH}`,
    width: wide,
    height: HIGH,
    role: "slider",
    tabindex: 0,
    "aria-label": name,
    "aria-valuemin": points[0].round,
    "aria-valuemax": points[points.length - 1].round,
  });
  const reading = make("p", { class: "reading" });
  const { x } = scales(points, wide);
  const cursor = drawn([["line", { class: "cursor", y1: TOP - 8, y2: FOOT }]], {}).firstChild;
  svg.append(/** @type {Node} */ (cursor));
  let at = points.length - 1;
  const move = (place) => {
    at = Math.max(0, Math.min(points.length - 1, place));
    const words = say(points[at]);
    const line = /** @type {Element} */ (cursor);
    for (const side of ["x1", "x2"]) line.setAttribute(side, String(x(at)));
    svg.setAttribute("aria-valuenow", String(points[at].round));
    svg.setAttribute("aria-valuetext", words);
    reading.textContent = words.charAt(0).toUpperCase() + words.slice(1);
  };
  move(at);
  svg.addEventListener("pointermove", (event) => {
    const box = svg.getBoundingClientRect();
    move(placeAt(points, wide, ((event.clientX - box.left) / box.width) * wide));
  });
  svg.addEventListener("keydown", (event) => {
    const to = { ArrowLeft: at - 1,
                 ArrowRight: at + 1,
                 Home: 0,
                 End: points.length - 1 }[event.key];
    if (to === undefined) return;
    event.preventDefault();
    move(to);
  });
  return [svg, reading];
}
