
"use strict";
(function () {
  var form = document.getElementById("filter"), found = document.getElementById("found");
  var table = document.getElementById("table");
  var who = document.getElementById("who"), where = document.getElementById("where"), answer = document.getElementById("answer");
  var heads = Array.from(table.tHead.rows[0].cells).slice(1), rows = Array.from(table.tBodies[0].rows);
  var words = { permit: "permitted", undecided: "undecided", deny: "denied" };

  // The answers of every cell, read once: how many of each.
  var cells = rows.map(function (row) {
    return Array.from(row.cells).slice(1).map(function (cell) {
      var has = { permit: 0, undecided: 0, deny: 0 };
      cell.querySelectorAll("[data-answer]").forEach(function (e) { has[e.dataset.answer] += 1; });
      return { cell: cell, has: has };
    });
  });

  function option(select, name, depth) { select.add(new Option("\u00a0".repeat(3 * depth) + name, name)); }

  // A row or a column stays if one of its cells has what is asked for.
  function apply() {
    var shown = { permit: 0, undecided: 0, deny: 0 }, rowStays = rows.map(function () { return false; });
    var columnStays = heads.map(function () { return false; });
    cells.forEach(function (row, r) {
      row.forEach(function (at, c) {
        if (who.value && at.cell.dataset.s !== who.value) return;
        if (where.value && at.cell.dataset.o !== where.value) return;
        if (answer.value && at.has[answer.value] === 0) return;
        rowStays[r] = columnStays[c] = true;
        Object.keys(shown).forEach(function (a) { if (!answer.value || answer.value === a) shown[a] += at.has[a]; });
      });
    });
    rows.forEach(function (row, r) { row.hidden = !rowStays[r]; });
    heads.forEach(function (head, c) { head.hidden = !columnStays[c]; });
    cells.forEach(function (row) { row.forEach(function (at, c) { at.cell.hidden = !columnStays[c]; }); });
    table.dataset.only = answer.value;
    say(shown, rowStays, columnStays);
  }

  function say(shown, rowStays, columnStays) {
    function stay(all) { return all.filter(Boolean).length + " of " + all.length; }
    var asked = [who.value, where.value, words[answer.value]].filter(Boolean);
    var counts = Object.keys(words).map(function (a) { return shown[a] + " " + words[a]; });
    var none = !rowStays.some(Boolean);
    table.parentNode.hidden = none;
    found.className = asked.length ? "filtered" : "";
    found.textContent = (asked.length ? "Filtered by " + asked.join(", ") + ". " : "") + (none ? "Nothing matches." :
      "Shown: " + stay(rowStays) + " rows, " + stay(columnStays) + " columns; " + counts.join(", ") + ".");
  }

  rows.forEach(function (row) { option(who, row.cells[0].dataset.s, Number(row.cells[0].dataset.depth)); });
  heads.forEach(function (head) { option(where, head.dataset.o, 0); });
  form.addEventListener("change", apply);
  document.getElementById("all").addEventListener("click", function () { form.reset(); apply(); });
  form.hidden = false;
  apply();
})();
