// Filters the trains on the page. Without this script all of them are shown.
(function () {
  "use strict";
  const form = document.getElementById("filter");
  const trains = Array.from(document.querySelectorAll(".train"));
  if (!trains.length) {
    return;
  }
  const { places, firstDate, changed } = JSON.parse(document.getElementById("data").textContent);
  const groups = Array.from(document.querySelectorAll(".group"));
  const parts = Array.from(document.querySelectorAll(".groups"));
  const field = form.elements;

  // Which places a text may mean: a CRS code or a TIPLOC, or else a part of a name.
  function placesOf(text) {
    const wanted = text.trim().toUpperCase();
    const numbers = places.map((_, number) => number);
    const coded = numbers.filter((number) => places[number].slice(1).includes(wanted));
    if (coded.length) {
      return new Set(coded);
    }
    return new Set(numbers.filter((number) => places[number][0].toUpperCase().includes(wanted)));
  }

  function dateNumber(text) {
    return Math.round((Date.parse(text) - Date.parse(firstDate)) / 86400000);
  }

  // Changes are such as "times 3-7 10-14;cancelled 20": a kind, and the numbers of its dates.
  function hasChange(group, kind, date) {
    return group.dataset.changes.split(";").some((change) => {
      const [itsKind, ...ranges] = change.split(" ");
      const onDate = ranges.some((range) => {
        const [first, last] = range.split("-").map(Number);
        return first <= date && date <= (last === undefined ? first : last);
      });
      return (!kind || kind === itsKind) && (Number.isNaN(date) || onDate);
    });
  }

  function calls(train, wanted) {
    return train.dataset.places.split(" ").some((number) => wanted.has(Number(number)));
  }

  function show() {
    const date = field.date.value ? dateNumber(field.date.value) : NaN;
    const wanted = field.place.value.trim() ? placesOf(field.place.value) : null;
    const operator = field.operator.value;
    for (const group of groups) {
      const changes = hasChange(group, field.kind.value, date);
      let any = false;
      for (const train of group.querySelectorAll(".train")) {
        const operators = train.dataset.operator.split(" ");
        const shown = changes && (operator === "all" || operators.includes(operator)) && (!wanted || calls(train, wanted));
        train.hidden = !shown;
        any = any || shown;
      }
      group.hidden = !any;
    }
    for (const part of parts) {
      part.hidden = part.querySelector(".group") && !part.querySelector(".group:not([hidden])");
    }
    const count = trains.filter((train) => !train.hidden).length;
    const others = changed > trains.length ? `; ${changed.toLocaleString("en-GB")} trains differ in all` : "";
    field.shown.value = `${count} of ${trains.length} trains on this page${others}`;
  }

  for (const name of new Set(places.map((place) => place[0]))) {
    document.getElementById("place-names").append(new Option(name, name));
  }
  form.addEventListener("input", show);
  form.addEventListener("reset", () => setTimeout(show));
  form.addEventListener("submit", (event) => event.preventDefault());
  field.calls.addEventListener("click", () => {
    const open = field.calls.getAttribute("aria-pressed") === "false";
    field.calls.setAttribute("aria-pressed", String(open));
    field.calls.textContent = open ? "Close all calls" : "Open all calls";
    for (const details of document.querySelectorAll(".train details")) {
      details.open = open;
    }
  });
  // A date that is chosen sets the filter.
  for (const link of document.querySelectorAll("a[data-date]")) {
    link.hidden = false;
    link.addEventListener("click", () => {
      field.date.value = link.dataset.date;
      show();
    });
  }
  form.hidden = false;
  show();
})();
