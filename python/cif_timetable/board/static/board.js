// Completes the names of stations in a search, as they are typed. Without this script the search works the same.
"use strict";

const MOST = 10;
const WAIT = 120;

function option(value, label) {
  const found = document.createElement("option");
  found.value = value;
  found.label = label;
  return found;
}

async function complete(field, list) {
  const text = field.value.trim();
  if (text.length < 2) {
    list.replaceChildren();
    return;
  }
  const answer = await fetch(field.dataset.names + "?q=" + encodeURIComponent(text));
  if (!answer.ok || field.value.trim() !== text) {
    return;
  }
  const found = await answer.json();
  const options = found.stations.map((row) => option(row.name, row.station_crs));
  if (!("stations" in field.dataset)) {
    for (const row of found.locations) {
      options.push(option(row.tiploc, row.name));
    }
    for (const row of found.trains) {
      options.push(option(row.uid, [row.identity, row.origin_name, "to", row.destination_name].join(" ")));
    }
  }
  list.replaceChildren(...options.slice(0, MOST));
}

for (const field of document.querySelectorAll("input[data-names]")) {
  let timer = 0;
  field.addEventListener("input", () => {
    clearTimeout(timer);
    timer = setTimeout(() => complete(field, field.list), WAIT);
  });
}
