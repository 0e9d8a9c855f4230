// Draws the two bars of the bidder's page from what shown.js returns. A text is written only if it
// has changed, so that a screen reader reads it out once.

import {entitle} from "./mock.js";
import {at, make, tell} from "./page.js";

const CLASSES = ["again", "off", "idle", "doubt"]; // of the button that submits

/** Draws the bars and the title. `now` is what `shown` returns. */
export function drawBars(now) {
  const { clock, todo, link, message, send } = now;
  entitle(now.title);
  tell("round", now.round);
  tell("left", clock.left);
  tell("standing", clock.words);
  at("clock").className = clock.kind;
  for (const [id, line] of Object.entries({ todo, link, message })) {
    tell(id, line.words);
    at(id).className = line.kind;
  }
  at("back").hidden = !todo.back;
  const [, words] = message.button ?? [];
  at("act").hidden = !message.button;
  tell("act", words ?? "");
  at("undo").hidden = !now.undo;
  tell("undo", now.undo ? `Undo ${now.undo}` : "Undo");
  tell("send", send.words);
  at("send").className = CLASSES.find((kind) => send[kind]) ?? "first";
  at("send").setAttribute("aria-disabled", String(Boolean(send.off)));
  tell("force", now.inForce);
  tell("who", now.who);
  tell("bidstab", now.tab);
  tell("news", now.news);
  tell("strange", now.strange);
  document.body.classList.toggle("ended", now.isOver);
  at("receipts").hidden = !now.hasReceipts;
  at("old").hidden = !now.hasOld;
  drawLines(now.lines);
  drawSums(now.sums);
}

let drawnLines = []; // the wrong lines that are listed

/** The wrong lines of a file. */
function drawLines(lines) {
  if (lines === drawnLines || (!lines.length && !drawnLines.length)) return;
  drawnLines = lines;
  at("lines").replaceChildren(...lines.map((line) => make("li", {}, line)));
}

/** The empty elements of a total: its name, its value and what that is of, a note, and a gauge. */
function emptySum() {
  const value = make("dd", {}, make("b"), make("span", { class: "of" }));
  const bars = [make("i"), make("i", { class: "need" })];
  const gauge = make("i", { class: "gauge", "aria-hidden": "true" }, ...bars);
  return make("div", {}, make("dt"), value, make("dd", { class: "note" }), gauge);
}

/** The totals. Their elements stay, so that a listener's place in them does. */
function drawSums(sums) {
  const list = at("sums");
  while (list.children.length < sums.length) list.append(emptySum());
  sums.forEach(({ name, value, of = "", note = "", kind = "", bar }, place) => {
    const [dt, dd, small, gauge] = list.children[place].children;
    const [strong, rest] = dd.children;
    const texts = [[dt, name], [strong, value], [rest, of && ` ${of}`], [small, note]];
    for (const [element, text] of texts) {
      if (element.textContent !== text) element.textContent = text;
    }
    list.children[place].className = kind;
    gauge.hidden = !bar;
    if (!bar) return;
    gauge.firstChild.style.width = `${100 * bar.part}%`;
    gauge.lastChild.style.left = `${100 * bar.need}%`;
  });
}
