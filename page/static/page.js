// Asks for each screen with the clerk's key, and does what moves: ages, renewals, sending, arrows.
"use strict";

const KEY = "page-key";
const one = (selector) => document.querySelector(selector);
const all = (selector, within = document) => [...within.querySelectorAll(selector)];
const parsed = (text) => new DOMParser().parseFromString(text, "text/html");
const rowName = (row) => row.closest("section").id + row.dataset.key;
let renewal;

function tell(text) {
  const line = one("#trouble") ?? document.body.appendChild(document.createElement("p"));
  line.hidden = false;
  line.textContent = text;
}

const ask = (url, more = {}) =>
  fetch(url, { ...more, headers: { "X-Page-Key": localStorage.getItem(KEY) ?? "" } });

async function show(url, more) {
  const reply = await ask(url, more);
  if (reply.status === 401) {
    tell("This page opens by a link of its own for each clerk, which lasts a working day: "
      + "`python3 page --link INITIALS` prints it.");
    return;
  }
  const made = parsed(await reply.text());
  document.title = made.title;
  document.body.replaceWith(made.body);
  begin();
}

// Opens a link: its secret is used once, and leaves the address.
async function enter() {
  const body = new URLSearchParams({ secret: location.hash.slice(1) });
  const reply = await fetch("/enter", { method: "POST", body });
  const told = await reply.json();
  history.replaceState(null, "", reply.ok ? "/" : "/enter");
  if (reply.ok) localStorage.setItem(KEY, told.key);
  return reply.ok ? show("/") : tell(told.error);
}

// Sends a form that books, with a word about it while it lasts.
async function send(form) {
  const button = form.querySelector("button"), begun = Date.now();
  const count = () => {
    button.textContent = `Sending, ${Math.floor((Date.now() - begun) / 1000)} s`;
  };
  const body = new URLSearchParams(new FormData(form)), clock = setInterval(count, 250);
  all("button").forEach((each) => { each.disabled = true; });
  count();
  try {
    await show(form.action, { method: "POST", body });
    one("h1")?.focus();
  } catch {
    tell("The page's program did not reply, so it is not known if this was booked. Load this anew. "
      + "A red line has the row if it has no reply; without one, look before you type it again.");
    button.textContent = "Not known";
  } finally {
    clearInterval(clock);
  }
}

async function download(link) {
  const made = document.createElement("a"), key = new URL(link.href).searchParams.get("csv");
  made.href = URL.createObjectURL(await (await ask(link.href)).blob());
  made.download = `${location.pathname.slice(1).replaceAll("/", "-") || "today"}-${key}.csv`;
  made.click();
  setTimeout(() => URL.revokeObjectURL(made.href), 10000);
}

// Asks for this screen again, and marks the rows that were not on it.
async function renew() {
  const here = document.activeElement, at = here?.getAttribute("href");
  if (document.hidden || here?.matches("main input, main select")) return;
  try {
    const known = new Set(all("[data-key]").map(rowName));
    const made = parsed(await (await ask(location.href)).text());
    ["main", ".where", "#lines"].forEach((part) => one(part).replaceWith(made.querySelector(part)));
    all("[data-key]").forEach((row) => row.classList.toggle("new", !known.has(rowName(row))));
    if (at) one(`[href="${CSS.escape(at)}"]`)?.focus({ preventScroll: true });
  } catch {
    tell("The page's program does not reply: this is of the time in the head. It is asked again.");
  }
}

async function explain(part) {
  const reply = await ask(part.dataset.explained);
  part.innerHTML = reply.ok ? await reply.text()
    : "<p class='line amber'>brk explain gave no text: load this anew.</p>";
}

function begin() {
  const seconds = Number(document.body.dataset.renew);
  clearInterval(renewal);
  if (seconds) renewal = setInterval(renew, seconds * 1000);
  all("[data-explained]").forEach(explain);
  scrollTo(0, history.state?.y ?? 0);
  if (location.hash) document.getElementById(location.hash.slice(1))?.scrollIntoView();
}

// Arrows, Home and End lead from link to link of a table or a list.
function move(event, here, whole, step) {
  const rows = all("tr, li", whole).map((row) => all("a", row)).filter((links) => links.length);
  const row = rows.findIndex((links) => links.includes(here)), column = rows[row].indexOf(here);
  const to = (at, length) => Math.min(Math.max(at + step, 0), length - 1);
  const isAcross = event.key === "ArrowRight" || event.key === "ArrowLeft";
  const links = isAcross ? rows[row] : rows[to(row, rows.length)];
  const next = links[isAcross ? to(column, links.length) : Math.min(column, links.length - 1)];
  event.preventDefault();
  here.tabIndex = -1;
  next.tabIndex = 0;
  next.focus();
}

setInterval(() => all(".age[data-read]").forEach((age) => {
  const seconds = Math.max(0, Math.round(Date.now() / 1000 - Number(age.dataset.read)));
  age.textContent = seconds < 120 ? `${seconds} s ago` : `${Math.round(seconds / 60)} min ago`;
}), 1000);
addEventListener("pagehide", () => history.replaceState({ y: scrollY }, ""));
addEventListener("submit", (event) => {
  if (event.target.method === "post") event.preventDefault();
  if (event.target.method === "post") send(event.target);
});
addEventListener("click", (event) => {
  const { target } = event, link = target.closest("a[download]");
  if (link) event.preventDefault();
  if (link) download(link);
  if (target.closest("[data-print]")) print();
});
addEventListener("keydown", (event) => {
  const here = document.activeElement, whole = here?.matches("a") && here.closest("table, ul");
  const steps = { ArrowDown: 1, ArrowUp: -1, ArrowRight: 1, ArrowLeft: -1, Home: -1e9, End: 1e9 };
  if (event.key === "/" && !here?.matches("input, select")) {
    event.preventDefault();
    one(".find input")?.select();
  }
  if (whole && event.key in steps) move(event, here, whole, steps[event.key]);
});
if (location.pathname === "/enter" && location.hash) {
  enter();
} else {
  show(location.href).catch(() => tell("The page's program does not reply: start it, and reload."));
}
