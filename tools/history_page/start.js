/* Fills the page, and goes where the address says: #E, #E.K or #E.K-L for bytes, #event-E for an event of the list. */
function goTo(place) {
  const bytes = /^#(\d+)(?:\.(\d+)(?:-(\d+))?)?$/.exec(place);
  const listedEvent = /^#event-(\d+)$/.exec(place);
  if (bytes && document.getElementById(`card-${bytes[1]}`)) {
    const number = Number(bytes[1]);
    const from = bytes[2] === undefined ? 0 : Number(bytes[2]);
    const end = bytes[2] === undefined ? events[number].n : (bytes[3] === undefined ? from : Number(bytes[3])) + 1;
    if (from >= end || end > events[number].n) return;
    isKept = true;
    choose(number, from, end);
    reveal(new Map([[number, [[from, end]]]]), isInput(number) ? inputColumn : outputColumn);
  } else if (listedEvent && events[Number(listedEvent[1])]) {
    pick(Number(listedEvent[1]));
    document.getElementById("events").scrollIntoView();
  }
}

function facts() {
  const processes = data.groups.reduce((sum, [, , members]) => sum + members.length, 0);
  const words = [
    plural(events.length, "event"),
    `${processes} process${processes === 1 ? "" : "es"} in ${plural(data.groups.length, "group")}`,
    plural(data.total, "instruction"),
    plural(events.filter((event) => event.x === "output").length, "output"),
    `linkage ${data.linkage}`,
  ];
  return words.join(" \u00b7 ") + (data.notes.length ? ". " + data.notes.join(" ") : "");
}

document.getElementById("log").textContent = data.log;
document.getElementById("facts").textContent = facts();
fillColumns();
drawGraph();
tableOfEdges();
drawTimeline();
show();
if (events.length) pick(data.outputs.length ? data.outputs[data.outputs.length - 1] : 0);
goTo(location.hash);
window.addEventListener("hashchange", () => goTo(location.hash));
