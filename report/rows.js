"use strict";
// The page's data, its rows, and the pages of rows. The parts of the script are put one behind the
// other. Texts of the run get into the page as texts alone, never as markup.

const ROWS_A_PAGE = 50;
const ROWS_PRINTED = 1000;
const SORTS = [["refused", "Refused"], ["sent", "Sent"], ["reports", "Reports"], ["all", "All"]];
const SIGNS = { refused: "✕", sent: "✓", reported: "→", noted: "!", untold: "?" };
const SEARCHED = ["order_id", "original_id", "account", "symbol", "time"];
const grouped = new Intl.NumberFormat("en-US").format;
const byId = (id) => document.getElementById(id);

let run = null;
let linesOfTrees = null;
let shown = [];
let page = 0;

async function unpacked(id) {
  const bytes = Uint8Array.from(atob(byId(id).textContent), (c) => c.charCodeAt(0));
  const stream = new Blob([bytes]).stream().pipeThrough(new DecompressionStream("deflate"));
  return new Response(stream).json();
}

function made(name, text, className) {
  const element = document.createElement(name);
  if (text !== undefined) element.textContent = text;
  if (className) element.className = className;
  return element;
}

const text = (column, row) => run.words[run[column][row]];
const fateOf = (row) => run.fates[run.fate[row]];

function sortOf(fate) {
  if (fate[0] === "refused" || fate[0] === "sent") return fate[0];
  return fate[0] === "untold" ? "all" : "reports";
}

function cell(label, content, className) {
  const td = made("td", undefined, className);
  td.setAttribute("role", "cell");
  td.dataset.label = label;
  td.append(content);
  return td;
}

function under(main, more, className) {
  const span = made("span", main, className);
  if (more) span.append(made("span", more, "under"));
  return span;
}

function asked(row) {
  const price = text("price", row);
  const order = ["side", "quantity", "symbol"].map((column) => text(column, row));
  const parts = [...order, price && `at ${price}`];
  return under(parts.filter(Boolean).join(" ") || "–", text("message", row));
}

function outcome(row) {
  const [sort, label, cause] = fateOf(row);
  const box = made("div");
  const badge = made("span", label, `badge ${sort}`);
  const sign = made("span", `${SIGNS[sort]} `);
  sign.setAttribute("aria-hidden", "true");
  badge.prepend(sign);
  box.append(badge);
  if (run.tree[row] >= 0) box.append(standingButton(row));
  if (cause) box.append(made("span", cause, "under"));
  return box;
}

function standingButton(row) {
  const button = made("button", "What stood there", "quiet");
  button.type = "button";
  button.setAttribute("aria-expanded", "false");
  button.setAttribute("aria-label", `What stood there when ${text("order_id", row)} was refused`);
  button.addEventListener("click", () => toggle(button, row));
  return button;
}

function rowOf(row) {
  const tr = made("tr");
  tr.setAttribute("role", "row");
  const refusing = run.tree[row] >= 0;
  const limit = refusing ? run.trees[run.tree[row]][1] : null;
  const original = text("original_id", row);
  tr.append(
    cell("session, frame", `${run.session[row]}, ${run.frame[row]}`),
    cell("time (52)", text("time", row), "two"),
    cell("ClOrdID (11)", under(text("order_id", row), original && `of ${original}`, "order")),
    cell("account", text("account", row), "two"),
    cell("asks for", asked(row), "wide"),
    cell("outcome", outcome(row), "wide"),
    cell("root", refusing ? grouped(run.root[row]) : "", "number"),
    cell("limit", limit === null ? "" : grouped(limit), "number"),
    cell("above by", limit === null ? "" : grouped(run.root[row] - limit), "number"));
  return tr;
}

function render(most = ROWS_A_PAGE) {
  const first = page * ROWS_A_PAGE, rows = shown.slice(first, first + most);
  byId("rows").replaceChildren(...rows.map(rowOf));
  const all = grouped(run.session.length);
  const range = `${grouped(first + 1)} to ${grouped(first + rows.length)}`;
  byId("count").textContent = shown.length === 0
    ? `None of ${all} rows fits the filters.`
    : `Rows ${range} of ${grouped(shown.length)} that fit, of ${all} in all.`;
  const pages = Math.max(1, Math.ceil(shown.length / ROWS_A_PAGE));
  byId("page-text").textContent = `page ${grouped(page + 1)} of ${grouped(pages)}`;
  byId("previous").disabled = page === 0;
  byId("next").disabled = page + 1 >= pages;
}

function turn(pages) {
  page += pages;
  render();
  byId("requests").scrollIntoView();
}
