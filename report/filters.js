// The filters of the requests, and the search.

function option(select, value, label) {
  const item = made("option", label);
  item.value = value;
  select.append(item);
}

function countOf(column, length) {
  const counts = new Array(length).fill(0);
  for (const value of run[column]) if (value >= 0) counts[value] += 1;
  return counts;
}

function makeSorts() {
  const counts = { all: run.session.length, refused: 0, sent: 0, reports: 0 };
  countOf("fate", run.fates.length).forEach((count, fate) => {
    const sort = sortOf(run.fates[fate]);
    if (sort !== "all") counts[sort] += count;
  });
  for (const [sort, label] of SORTS) {
    const input = made("input");
    Object.assign(input, { type: "radio", name: "sort", value: sort });
    input.checked = sort === (counts.refused ? "refused" : "all");
    const choice = made("label");
    choice.append(input, made("span", `${label} ${grouped(counts[sort])}`));
    byId("sorts").append(choice);
  }
}

function makeSelects() {
  option(byId("fate"), "", "every outcome");
  countOf("fate", run.fates.length).forEach((count, fate) =>
    option(byId("fate"), fate, `${run.fates[fate][1]} (${grouped(count)})`));
  option(byId("tree"), "", "any limit or none");
  countOf("tree", run.trees.length).forEach((count, tree) => {
    if (count) option(byId("tree"), tree, `${run.trees[tree][0]} (${grouped(count)})`);
  });
  option(byId("session"), "", "every session");
  run.sessions.forEach((name, session) => option(byId("session"), session, `${session}: ${name}`));
}

function chosenSort() {
  return document.querySelector("input[name=sort]:checked").value;
}

function choose(sort) {
  document.querySelector(`input[name=sort][value=${sort}]`).checked = true;
}

function wordsWith(wanted) {
  const found = new Set();
  if (wanted) {
    run.words.forEach((word, number) => {
      if (word.toLowerCase().includes(wanted)) found.add(number);
    });
  }
  return found;
}

function filter() {
  const sort = chosenSort();
  const fate = byId("fate").value, tree = byId("tree").value, session = byId("session").value;
  const wanted = byId("search").value.trim().toLowerCase();
  const found = wordsWith(wanted);
  const fits = run.fates.map((other) => sort === "all" || sortOf(other) === sort);
  shown = [];
  for (let row = 0; row < run.session.length; row += 1) {
    if (fits[run.fate[row]]
      && (fate === "" || run.fate[row] === +fate)
      && (tree === "" || run.tree[row] === +tree)
      && (session === "" || run.session[row] === +session)
      && (!wanted || SEARCHED.some((column) => found.has(run[column][row])))) shown.push(row);
  }
  page = 0;
  render();
}

function clear() {
  for (const id of ["search", "fate", "tree", "session"]) byId(id).value = "";
  choose("all");
  filter();
}
