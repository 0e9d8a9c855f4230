// The views of the bidder's page: the bids, the closed rounds, and the announcements, each with a
// tab.

import {at, besideByKey} from "./page.js";

const tabs = () =>
  /** @type {HTMLElement[]} */ ([...document.querySelectorAll("#views [role=tab]")]);

/** Shows a view by its name. */
export function view(name) {
  for (const tab of tabs()) {
    const isOn = tab.dataset.view === name;
    tab.setAttribute("aria-selected", String(isOn));
    tab.tabIndex = isOn ? 0 : -1;
    at(tab.dataset.view + "view").hidden = !isOn;
  }
  dispatchEvent(new CustomEvent("view", { detail: name }));
}

function viewByKey(event) {
  const next = besideByKey(tabs(), event);
  if (!next) return;
  view(next.dataset.view);
  next.focus();
}

at("views").addEventListener("click", (event) => {
  const tab = event.target.closest("[role=tab]");
  if (tab) view(tab.dataset.view);
});
at("views").addEventListener("keydown", viewByKey);
at("latest").addEventListener("click", (event) => {
  event.preventDefault();
  view("times");
});
