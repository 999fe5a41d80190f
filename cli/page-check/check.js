// Runs in a page of its own, beside frames that hold an untouched page of `snowdell table --format html`, and looks into
// their documents. cli/screenshots writes that page; the listing and the policy are attributes of its body. A line for each
// check goes into the element `result`: `ok WHAT` or `failed WHAT: FOUND`.
"use strict";

const ANSWERS = ["permit", "undecided", "deny"];
const WORDS = { permit: "permitted", undecided: "undecided", deny: "denied" };
const PHONE = 390;

const lines = [];
function check(what, good, found) {
  lines.push(good ? "ok " + what : "failed " + what + ": " + found);
}
function same(what, found, wanted) {
  check(what, found === wanted, JSON.stringify(found) + " and not " + JSON.stringify(wanted));
}

const seen = (element) => element.checkVisibility() && element.getClientRects().length > 0;
// What is kept for hearers is there, and nothing of it can be seen.
const heardOnly = (element) => seen(element) && element.ownerDocument.defaultView.getComputedStyle(element).clipPath === "inset(50%)";
const content = (element, pseudo) => element.ownerDocument.defaultView.getComputedStyle(element, pseudo).content;

// A page of an accepted policy, and what the listing says of it.
class Sheet {
  constructor(frame, listing) {
    this.document = frame.contentDocument;
    this.listing = listing;
    this.table = this.document.getElementById("table");
    this.cells = Array.from(this.table.querySelectorAll("tbody td"));
    this.marks = this.table.classList.contains("marks");
  }
  id(name) { return this.document.getElementById(name); }
  answers(cell) { return Array.from(cell.querySelectorAll("[data-answer]")); }
  access(element) {
    const cell = element.closest("td");
    return [cell.dataset.s, cell.dataset.o, element.dataset.a].join(",");
  }
  choose(who, where, answer) {
    this.id("who").value = who;
    this.id("where").value = where;
    this.id("answer").value = answer;
    this.id("filter").dispatchEvent(new Event("change", { bubbles: true }));
  }
}

// The heading's numbers and every cell are the listing's.
function agrees(sheet, name) {
  const [, accesses, permits, undecided, rounds] = sheet.listing[0].split(",");
  const heading = Array.from(sheet.document.querySelectorAll(".counts dd")).map((e) => e.textContent).join(",");
  same(name + "the heading has the listing's numbers", heading, [accesses, permits, undecided, rounds].join(","));
  const elements = sheet.cells.flatMap((cell) => sheet.answers(cell));
  same(name + "an element for every access", elements.length, Number(accesses));
  const found = elements.filter((e) => e.dataset.answer !== "deny").map((e) => e.dataset.answer + "," + sheet.access(e));
  same(name + "the cells agree with the listing", found.sort().join("\n"), sheet.listing.slice(1).sort().join("\n"));
  check(name + "a cell stands under its object and beside its subject", sheet.cells.every((cell) => {
    const row = cell.parentNode, head = sheet.table.tHead.rows[0].cells[cell.cellIndex];
    return row.cells[0].dataset.s === cell.dataset.s && head.dataset.o === cell.dataset.o;
  }), "a cell elsewhere");
}

// What can be seen of a cell is what its attributes say.
function shows(sheet, name) {
  const wrong = sheet.cells.filter((cell) => {
    const point = content(cell, "::before").includes("\u00b7");
    const answers = sheet.answers(cell);
    return point !== answers.every((e) => e.dataset.answer === "deny") || !answers.every((e) => showsAnswer(sheet, e));
  });
  same(name + "cells that show something else than their answer", wrong.length, 0);
}
function showsAnswer(sheet, element) {
  const action = element.dataset.a, text = element.textContent;
  if (element.dataset.answer === "deny") return heardOnly(element) && text === (sheet.marks ? "no" : "no " + action);
  if (!seen(element) || heardOnly(element)) return false;
  if (element.dataset.answer === "permit") {
    return sheet.marks ? text === "yes" && content(element, "::before").includes("\u2713") : text === action;
  }
  return content(element, "::after").includes("?") && text === (sheet.marks ? "undecided" : action + " undecided");
}

// Rows, columns and actions that the filter leaves are those that have what is asked for.
function filters(sheet, name) {
  const first = sheet.listing.length > 1 ? sheet.listing[1].split(",") : ["", sheet.cells[0].dataset.s, sheet.cells[0].dataset.o];
  const nobody = sheet.cells[0].dataset.s;
  const tries = [["", "", ""], [first[1], "", ""], ["", first[2], ""], [first[1], first[2], ""], [nobody, "", "undecided"]];
  ANSWERS.forEach((answer) => tries.push(["", "", answer], [first[1], first[2], answer]));
  tries.forEach(([who, where, answer]) => filtersBy(sheet, name, who, where, answer));
  sheet.id("all").click();
  check(name + "show all shows all", sheet.cells.every(seen) && sheet.id("found").className === "", sheet.id("found").textContent);
}
function filtersBy(sheet, name, who, where, answer) {
  const what = name + "filter by " + ([who, where, answer].filter(Boolean).join(", ") || "nothing");
  sheet.choose(who, where, answer);
  const asked = (cell) => (!who || cell.dataset.s === who) && (!where || cell.dataset.o === where) &&
    (!answer || sheet.answers(cell).some((e) => e.dataset.answer === answer));
  const left = sheet.cells.filter(asked);
  const rows = new Set(left.map((cell) => cell.dataset.s)), columns = new Set(left.map((cell) => cell.dataset.o));
  const wrong = sheet.cells.filter((cell) => seen(cell) !== (rows.has(cell.dataset.s) && columns.has(cell.dataset.o)));
  same(what + ": wrong cells", wrong.length, 0);
  const heads = Array.from(sheet.table.querySelectorAll("th[data-s], th[data-o]"));
  check(what + ": names of rows and columns", heads.every((th) => seen(th) === (rows.has(th.dataset.s) || columns.has(th.dataset.o))), "others");
  const count = { permit: 0, undecided: 0, deny: 0 };
  left.forEach((cell) => sheet.answers(cell).forEach((e) => {
    if (!answer || e.dataset.answer === answer) count[e.dataset.answer] += 1;
  }));
  if (answer) {
    const plain = left.flatMap((cell) => sheet.answers(cell)).filter((e) => seen(e) && !heardOnly(e));
    check(what + ": only that answer is seen", plain.every((e) => e.dataset.answer === answer) && plain.length === count[answer], plain.length);
  }
  const said = left.length === 0 ? "Nothing matches." : "Shown: " + rows.size + " of " + sheet.table.tBodies[0].rows.length + " rows, " +
    columns.size + " of " + (sheet.table.tHead.rows[0].cells.length - 1) + " columns; " +
    ANSWERS.map((a) => count[a] + " " + WORDS[a]).join(", ") + ".";
  check(what + ": it is said", sheet.id("found").textContent.endsWith(said), sheet.id("found").textContent);
}

// The page itself never moves sideways; the table does, in its box, and its names stay.
function scrolls(sheet, name) {
  fits(sheet.document, name);
  const box = sheet.table.parentNode, corner = box.getBoundingClientRect();
  box.scrollLeft = box.scrollTop = 200;
  const left = sheet.table.tBodies[0].rows[1].cells[0].getBoundingClientRect().left - corner.left;
  const top = sheet.table.tHead.rows[0].cells[1].getBoundingClientRect().top - corner.top;
  check(name + "the names of rows and columns stay", Math.abs(left) < 2 && Math.abs(top) < 2, left + ", " + top);
  box.scrollLeft = box.scrollTop = 0;
}
function fits(page, name) {
  const root = page.documentElement;
  check(name + "the page is no wider than the screen", root.scrollWidth <= root.clientWidth, root.scrollWidth);
}

// For a hearer: language, title, headings in order, a caption, scopes, a label on each control, a live region.
function heard(sheet, name) {
  const page = sheet.document;
  const levels = Array.from(page.querySelectorAll("h1, h2, h3")).map((h) => Number(h.localName[1]));
  check(name + "headings in order", levels[0] === 1 && levels.every((level, i) => i === 0 || level === 2), levels);
  check(name + "language, title and caption", page.documentElement.lang === "en" && page.title !== "" && sheet.table.caption.textContent !== "", page.title);
  const scoped = Array.from(sheet.table.querySelectorAll("th")).every((th) => th.scope === (th.closest("thead") ? "col" : "row"));
  check(name + "every th has its scope", scoped, "one without");
  const controls = Array.from(page.querySelectorAll("select"));
  check(name + "every control has a label", controls.length === 3 && controls.every((c) => c.labels.length === 1), controls.length);
  same(name + "the filter's result is a live region", sheet.id("found").getAttribute("aria-live"), "polite");
}

// Nothing was fetched, and a script that is not the page's own does not run.
function alone(frame, name) {
  const view = frame.contentWindow, page = frame.contentDocument;
  same(name + "requests of the page", view.performance.getEntriesByType("resource").length, 0);
  const script = page.createElement("script");
  script.textContent = "window.strange = true";
  page.body.append(script);
  script.remove();
  same(name + "a strange script is stopped", view.strange, undefined);
}

// The page of a refused policy: its lines are the file's, and the mark stands where the listing says.
function refused(page, name, listing, policy) {
  const [, number, line, place] = listing[0].split(",").map(Number);
  const items = Array.from(page.querySelectorAll("ol.text li"));
  const texts = items.map((li) => {
    const copy = li.cloneNode(true);
    copy.querySelectorAll(".note").forEach((note) => note.replaceWith("\n"));
    return copy.textContent.replace(/ \n$/, "");
  });
  same(name + "the lines are the policy's", texts.join("\n") + "\n", policy);
  same(name + "one line is marked", items.filter((li) => li.id === "refused").length, 1);
  same(name + "it is the refused line", items.findIndex((li) => li.id === "refused") + 1, line);
  const mark = page.querySelector("mark"), before = page.createRange();
  before.setStart(page.getElementById("refused"), 0);
  before.setEndBefore(mark);
  same(name + "the place is marked", before.toString().split(",").slice(2).join(",").length, place);
  check(name + "the number is named", page.querySelector("p.fault").textContent.startsWith("Refusal " + number + ","), "another");
}

function run() {
  const listing = atob(document.body.dataset.listing).trimEnd().split("\n"), policy = atob(document.body.dataset.policy);
  const frames = Array.from(document.querySelectorAll("iframe"));
  // A request that this page made is seen, so that none would be missed in the others.
  same("a request is noticed where there is one", performance.getEntriesByType("resource").filter((e) => e.initiatorType === "img").length, 1);
  frames.forEach((frame) => {
    const name = frame.name + ": ", page = frame.contentDocument;
    if (listing[0].startsWith("refused")) {
      refused(page, name, listing, policy);
      fits(page, name);
    } else {
      const sheet = new Sheet(frame, listing);
      agrees(sheet, name);
      shows(sheet, name);
      scrolls(sheet, name);
      if (frame.hasAttribute("sandbox")) {
        check(name + "all is shown and no filter", sheet.cells.every(seen) && !seen(sheet.id("filter")), "else");
      } else {
        filters(sheet, name);
        heard(sheet, name);
      }
    }
    alone(frame, name);
  });
  same("the narrow frame is a phone's", frames[1].contentWindow.innerWidth, PHONE);
}

window.addEventListener("load", () => {
  try {
    run();
  } catch (error) {
    check("the checks ran to their end", false, error.stack);
  }
  document.getElementById("result").textContent = lines.join("\n") + "\n";
});
