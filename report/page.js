// Begins: fills the page and listens.

function showTree(tree) {
  clear();
  byId("tree").value = tree;
  choose("refused");
  filter();
  byId("requests-title").scrollIntoView();
  byId("tree").focus();
}

function listen() {
  let waiting = 0;
  document.querySelector(".filters").addEventListener("submit", (event) => event.preventDefault());
  for (const id of ["fate", "tree", "session", "sorts"]) {
    byId(id).addEventListener("change", filter);
  }
  byId("search").addEventListener("input", () => {
    clearTimeout(waiting);
    waiting = setTimeout(filter, 150);
  });
  byId("clear").addEventListener("click", clear);
  byId("previous").addEventListener("click", () => turn(-1));
  byId("next").addEventListener("click", () => turn(1));
  for (const button of document.querySelectorAll("button[data-tree]")) {
    button.addEventListener("click", () => showTree(button.dataset.tree));
  }
  addEventListener("beforeprint", () => {
    document.querySelectorAll("details").forEach((details) => { details.open = true; });
    render(ROWS_PRINTED);
  });
  addEventListener("afterprint", () => render());
}

async function begin() {
  try {
    run = await unpacked("requests-data");
  } catch (fault) {
    byId("count").textContent =
      `The rows can't be read here (${fault.message}); they all stand in requests.csv.`;
    return;
  }
  makeSorts();
  makeSelects();
  listen();
  filter();
  document.documentElement.dataset.ready = "yes";
}

begin();
