// What marks a mock auction. Its tokens begin with MOCK, and its pages and its timetable say so.

const WORDS = "Mock auction: nothing is sold.";
const MARK = "MOCK · ";

/** Whether a token is of a mock auction. nginx ignores case in tokens. */
export const isMockToken = (token) => /^mock/i.test(token);

/**
 * Why a page does not send a token, or nothing if it does: a token of the mock auction opens
 * nothing in the real one, and the other way round.
 * @param {boolean} isMockPage
 * @param {string} token
 */
export function strangeToken(isMockPage, token) {
  if (isMockToken(token) === isMockPage) return "";
  return isMockPage ? "This is the mock auction. Enter its token, which begins with MOCK."
                    : "This token is of the mock auction. Enter the token of the real auction.";
}

/** Whether this page says that it is of a mock auction. */
export const isMockPage = () => document.getElementById("mock") !== null;

/** Sets the title of the tab. */
export function entitle(words) { document.title = (isMockPage() ? MARK : "") + words; }

/** Takes what a timetable says: a page of a mock auction says so, whichever file it came from. */
export function markPage(isMock) {
  if (!isMock || isMockPage()) return;
  const banner = document.createElement("p");
  banner.id = "mock";
  banner.className = "mock";
  banner.textContent = WORDS;
  document.body.prepend(banner);
  entitle(document.title);
}
