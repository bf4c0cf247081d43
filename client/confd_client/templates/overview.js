"use strict";
// Sorts a table by the column whose heading is pressed: upwards, and when it is pressed again downwards. Cells without
// a value come last both ways; lines that are equal keep their order.
const collator = new Intl.Collator("en", { numeric: true });

function compare(left, right, isNumber) {
  return isNumber ? Number(left) - Number(right) : collator.compare(left, right);
}

function sortBy(heading) {
  const body = heading.closest("table").tBodies[0];
  const place = heading.cellIndex;
  const isNumber = heading.dataset.number === "yes";
  const turn = heading.getAttribute("aria-sort") === "ascending" ? -1 : 1;
  const lines = Array.from(body.rows, (row) => [row.cells[place].dataset.order, row]);
  lines.sort(([left], [right]) => {
    if (left === "" || right === "") return (left === "") - (right === "");
    return turn * compare(left, right, isNumber);
  });
  for (const other of heading.parentElement.cells) other.removeAttribute("aria-sort");
  heading.setAttribute("aria-sort", turn === 1 ? "ascending" : "descending");
  body.append(...lines.map(([, row]) => row));
}

for (const button of document.querySelectorAll("th > button")) {
  button.addEventListener("click", () => sortBy(button.parentElement));
}
