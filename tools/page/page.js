"use strict";
// What is wider than its place scrolls, and can be reached with the keyboard; the head of a table that fits stays in sight.
function settle() {
  document.querySelectorAll(".scroll").forEach((it) => {
    it.classList.remove("fits");
    const fits = it.clientWidth >= it.scrollWidth;
    it.classList.toggle("fits", fits);
    if (fits) { it.removeAttribute("tabindex"); } else { it.tabIndex = 0; }
  });
}
settle();
window.addEventListener("resize", settle);
// The filter of the tables: what is typed has to stand in a row, and "open only" leaves those with an open value.
(function () {
  const form = document.getElementById("filter");
  if (form === null) { return; }
  const text = document.getElementById("filter-text");
  const open = document.getElementById("filter-open");
  const said = document.getElementById("filter-said");
  const rows = Array.from(document.querySelectorAll("tr[data-open]"));
  let words = null;
  function apply() {
    words = words || rows.map((row) => row.textContent.toLowerCase());
    const wanted = text.value.trim().toLowerCase();
    const left = new Map();
    let count = 0;
    rows.forEach((row, at) => {
      const fits = words[at].includes(wanted) ? !open.checked || row.dataset.open !== "0" : false;
      row.hidden = !fits;
      count += fits ? 1 : 0;
      left.set(row.parentNode, (left.get(row.parentNode) || 0) + (fits ? 1 : 0));
    });
    // (a block of rows that was not seen yet is taken to be as high as so many)
    left.forEach((many, block) => {
      block.hidden = many === 0;
      block.style.setProperty("--rows", many);
    });
    said.textContent = count.toLocaleString("en") + " of " + rows.length.toLocaleString("en") + " here";
  }
  text.addEventListener("input", apply);
  open.addEventListener("change", apply);
  form.addEventListener("submit", (event) => event.preventDefault());
  form.hidden = false;
  if (text.value !== "" || open.checked) { apply(); }
}());
