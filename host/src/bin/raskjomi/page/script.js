
"use strict";
(() => {
  const all = (selector, of = document) => Array.from(of.querySelectorAll(selector));
  const find = document.getElementById("find");
  const found = document.getElementById("found");
  const rows = all("tbody[data-ids]");
  const folds = all("details");

  const search = () => {
    const words = find.value.trim().toLowerCase();
    const isNumber = /^[0-9]+$/.test(words);
    let count = 0;
    for (const row of rows) {
      const matches = isNumber
        ? row.dataset.ids.split(" ").includes(String(Number(words)))
        : (row.dataset.names || "").toLowerCase().includes(words);
      row.hidden = words !== "" && !matches;
      count += row.hidden ? 0 : 1;
    }
    found.textContent = words === "" ? "" : count + (count === 1 ? " row" : " rows");
  };

  const open = (isOpen) => folds.forEach((fold) => { fold.open = isOpen; });

  const show = () => {
    const target = document.getElementById(location.hash.slice(1));
    if (!target) { return; }
    if (target.closest("[hidden]")) {
      find.value = "";
      search();
    }
    for (let part = target; part; part = part.parentElement) {
      if (part.tagName === "DETAILS") { part.open = true; }
    }
    if (target.tagName === "TBODY") { all("details", target).forEach((fold) => { fold.open = true; }); }
    target.scrollIntoView();
  };

  const key = (row, column) => {
    const cell = row.rows[0].cells[column];
    return "key" in cell.dataset ? Number(cell.dataset.key) : cell.textContent;
  };

  const sort = (table, column, heading) => {
    const isUp = heading.getAttribute("aria-sort") !== "ascending";
    all("th[aria-sort]", table).forEach((other) => other.removeAttribute("aria-sort"));
    heading.setAttribute("aria-sort", isUp ? "ascending" : "descending");
    const before = (a, b) => (a < b ? -1 : a > b ? 1 : 0);
    const bodies = Array.from(table.tBodies);
    bodies.sort((one, other) => (isUp ? 1 : -1) * before(key(one, column), key(other, column)));
    table.append(...bodies);
  };

  for (const table of all("table.sortable")) {
    Array.from(table.tHead.rows[0].cells).forEach((heading, column) => {
      const button = document.createElement("button");
      button.type = "button";
      button.title = "Sort by this column";
      button.textContent = heading.textContent;
      button.addEventListener("click", () => sort(table, column, heading));
      heading.replaceChildren(button);
    });
  }
  const tools = document.getElementById("tools");
  tools.hidden = false;
  tools.addEventListener("submit", (event) => event.preventDefault());
  find.addEventListener("input", search);
  document.getElementById("open").addEventListener("click", () => open(true));
  document.getElementById("close").addEventListener("click", () => open(false));
  addEventListener("hashchange", show);
  addEventListener("beforeprint", () => open(true));
  show();
})();
