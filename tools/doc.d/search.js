// Searches INDEX (search-index.js), rows of a name, what it is, its place, and its first sentence.
"use strict";
(function () {
  const form = document.getElementById("search");
  const field = document.getElementById("query");
  const list = document.getElementById("found");
  const count = document.getElementById("count");
  form.hidden = false;
  form.addEventListener("submit", (event) => event.preventDefault());

  // A smaller number is a better match: the name, its front, a part of it, the sentence.
  function rank(row, words) {
    const name = row[0].toLowerCase(), last = name.split(/::|\./).pop(), text = (row[1] + " " + row[3]).toLowerCase();
    let worst = 0;
    for (const word of words) {
      const it = last === word ? 0 : last.startsWith(word) ? 1 : name.includes(word) ? 2 : text.includes(word) ? 3 : 9;
      if (it === 9) return 9;
      worst = Math.max(worst, it);
    }
    return worst;
  }

  function search() {
    const words = field.value.toLowerCase().split(/\s+/).filter(Boolean);
    list.replaceChildren();
    count.textContent = "";
    if (words.length === 0) return;
    const rows = INDEX.map((row) => [rank(row, words), row]).filter((it) => it[0] < 9).sort((a, b) => a[0] - b[0]);
    count.textContent = rows.length + (rows.length === 1 ? " match" : " matches") + (rows.length > 50 ? ", of which the first 50 are shown" : "");
    for (const [, row] of rows.slice(0, 50)) {
      const entry = document.createElement("li"), link = document.createElement("a"), code = document.createElement("code");
      code.textContent = row[0];
      link.href = row[2];
      link.append(code);
      entry.append(link, " (" + row[1] + ") " + row[3]);
      list.append(entry);
    }
  }

  field.addEventListener("input", search);
  search();
})();
