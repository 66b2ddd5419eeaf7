// What each session had posted where a request was refused.

// What each session had posted last at a place of a tree, and what this one had before.
function standingAt(lines, place, session) {
  const standing = new Map();
  let before = 0;
  for (let at = 0; at < place; at += 1) {
    const of = lines.sessions[at];
    if (of === session) before = standing.get(of) || 0;
    standing.set(of, lines.values[at]);
  }
  const above = [...standing].filter((pair) => pair[1] > 0);
  return { standing: above.sort((one, other) => one[0] - other[0]), before };
}

function bar(part, whole) {
  const svg = document.createElementNS("http://www.w3.org/2000/svg", "svg");
  svg.setAttribute("class", "bar");
  svg.setAttribute("aria-hidden", "true");
  svg.setAttribute("width", "100%");
  svg.setAttribute("height", "6");
  for (const [name, share] of [["rail", 100], ["part", Math.min(100, (100 * part) / whole)]]) {
    const rect = document.createElementNS("http://www.w3.org/2000/svg", "rect");
    rect.setAttribute("class", name);
    rect.setAttribute("width", `${share}%`);
    rect.setAttribute("height", "6");
    rect.setAttribute("rx", "3");
    svg.append(rect);
  }
  return svg;
}

function leadOf(row) {
  const [title, limit] = run.trees[run.tree[row]];
  const posts = run.place[row] === 1 ? "1 post" : `${grouped(run.place[row])} posts`;
  const place = `After ${posts} in the tree of ${title}`;
  if (limit === null) return `${place} the firm was halted.`;
  const root = run.root[row];
  const above = `${grouped(root - limit)} above the limit of ${grouped(limit)}`;
  return `${place} the root was ${grouped(root)}, with this request: ${above}. There stood:`;
}

async function detailOf(row) {
  linesOfTrees = linesOfTrees || await unpacked("lines-data");
  const session = run.session[row], tree = run.tree[row];
  const { standing, before } = standingAt(linesOfTrees[tree], run.place[row], session);
  const list = made("ul", undefined, "standing");
  for (const [of, value] of standing) {
    const item = made("li", undefined, of === session ? "own" : "");
    const isOwn = of === session && run.trees[tree][1] !== null;
    const own = isOwn ? `, with this request (before it ${grouped(before)})` : "";
    const name = made("span", `session ${of}: ${run.sessions[of]}${own}`);
    item.append(name, made("b", grouped(value)), bar(value, run.root[row]));
    list.append(item);
  }
  const td = made("td");
  td.setAttribute("role", "cell");
  td.colSpan = 9;
  td.append(made("p", leadOf(row)), list);
  const tr = made("tr", undefined, "detail");
  tr.setAttribute("role", "row");
  tr.append(td);
  return tr;
}

async function toggle(button, row) {
  const tr = button.closest("tr");
  const open = button.getAttribute("aria-expanded") === "true";
  button.setAttribute("aria-expanded", String(!open));
  if (open) {
    tr.nextElementSibling.remove();
  } else {
    const detail = await detailOf(row);
    if (tr.isConnected && button.getAttribute("aria-expanded") === "true") tr.after(detail);
  }
}
