// Sorts and filters the rows of each log. Without scripts the rows stand as they are: broken ones first.
"use strict";
for (const section of document.querySelectorAll("section.log")) {
  const tools = section.querySelector("form.tools"), table = section.querySelector("table.rows");
  if (!table) continue;
  const rows = [...table.tBodies];
  const text = tools.elements.text, state = tools.elements.state, found = tools.querySelector(".found");

  const filter = () => {
    const wanted = text.value.trim().toLowerCase();
    let shown = 0;
    for (const row of rows) {
      const words = (row.querySelector(".name").textContent + (row.querySelector(".why") || row).textContent).toLowerCase();
      row.hidden = !words.includes(wanted) || (state.value !== "" && row.dataset.state !== state.value);
      shown += !row.hidden;
    }
    found.textContent = shown === rows.length ? "" : shown + " of " + rows.length + " rows";
  };

  const key = (row, column) => {
    const cell = row.rows[0].cells[column], value = cell.dataset.value || cell.textContent.trim();
    return value === "" || isNaN(value) ? value : Number(value);
  };
  const compare = (a, b) => {
    if (a === "" || b === "") return (a === "") - (b === "");
    if (typeof a !== typeof b) return typeof a === "number" ? -1 : 1;
    return typeof a === "number" ? a - b : a.localeCompare(b);
  };
  const sort = (heading, column) => {
    const down = heading.getAttribute("aria-sort") === "ascending";
    for (const other of table.tHead.rows[0].cells) other.removeAttribute("aria-sort");
    heading.setAttribute("aria-sort", down ? "descending" : "ascending");
    const sorted = [...rows].sort((one, two) => compare(key(one, column), key(two, column)));
    table.append(...(down ? sorted.reverse() : sorted));
  };

  // A span and not a button: a browser that repeats the headings on each printed page leaves buttons out.
  [...table.tHead.rows[0].cells].forEach((heading, column) => {
    if (heading.classList.contains("bars")) return;
    const button = document.createElement("span");
    button.tabIndex = 0;
    button.setAttribute("role", "button");
    button.append(...heading.childNodes);
    button.addEventListener("click", () => sort(heading, column));
    button.addEventListener("keydown", event => {
      if (event.key !== "Enter" && event.key !== " ") return;
      event.preventDefault();
      sort(heading, column);
    });
    heading.append(button);
  });
  tools.addEventListener("submit", event => event.preventDefault());
  tools.addEventListener("input", filter);
  // A link to a row that the filter hides shows all rows again.
  addEventListener("hashchange", () => {
    const row = document.getElementById(location.hash.slice(1));
    if (row && row.hidden && table.contains(row)) {
      tools.reset();
      filter();
      row.scrollIntoView();
    }
  });
  tools.hidden = false;
}
