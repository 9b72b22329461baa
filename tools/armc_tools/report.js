// Sorts the table of a report by the column whose head is clicked: by numbers or keys where its cells have them, or else by their texts.
"use strict";
const table = document.querySelector(".report");
const valueOf = (row, column) => {
  const cell = row.cells[column];
  return cell.dataset.value === undefined ? cell.dataset.key || cell.textContent : Number(cell.dataset.value);
};

function sortBy(head, column) {
  const down = head.getAttribute("aria-sort") === "ascending";
  const rows = [...table.tBodies[0].rows].sort((one, two) => {
    const [a, b] = [valueOf(one, column), valueOf(two, column)];
    return a < b ? -1 : Number(a > b);
  });
  table.tBodies[0].append(...(down ? rows.reverse() : rows));
  table.querySelectorAll("th").forEach((each) => each.removeAttribute("aria-sort"));
  head.setAttribute("aria-sort", down ? "descending" : "ascending");
}

table.querySelectorAll("th").forEach((head, column) => {
  const button = document.createElement("button");
  button.type = "button";
  button.textContent = head.textContent;
  button.addEventListener("click", () => sortBy(head, column));
  head.replaceChildren(button);
});
