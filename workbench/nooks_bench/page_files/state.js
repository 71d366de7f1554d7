/** The state after an event: the rows of the page's data, as tables. Nothing is computed here. */

import { element, linked } from "./elements.js";
import { at, rowsAt } from "./history.js";

const RING = 16;
const QUEUE = 64;

function card(name, ...children) {
  return element("section", { class: "card" }, element("h3", {}, name), ...children);
}

function none(text) {
  return element("p", { class: "none" }, text);
}

/** A row of a table. A new one has a mark before it, with a title for those who hear the page. */
function row(isNew, ...cells) {
  const mark = isNew ? element("span", { title: "changed by this event" }, "\u25b8") : "";
  const made = cells.map((cell) => (cell instanceof Element ? cell : element("td", {}, cell)));
  return element("tr", { class: isNew ? "new" : "" }, element("td", { class: "mark" }, mark), ...made);
}

function table(heads, rows) {
  const head = element("tr", {}, element("th", {}), ...heads.map((each) => element("th", {}, each)));
  return element("table", {}, element("thead", {}, head), element("tbody", {}, ...rows));
}

function modeCard(part, event) {
  const rows = Object.fromEntries(rowsAt(part.state.part, event).map((each) => [each.name, each]));
  const failures = `failures ${rows.failures.says}, limit ${part.limit}`;
  return card("Part",
    element("p", { class: "mode" },
      element("span", { class: `swatch ${rows.mode.says.replace(" ", "-")}` }),
      element("b", { class: rows.mode.isNew ? "new" : "" }, rows.mode.says),
      rows.stage.says ? `, stage ${rows.stage.says}` : "", "; ",
      element("span", { class: rows.failures.isNew ? "new" : "" }, failures)));
}

function callCard(part, event) {
  const rows = rowsAt(part.state.calls, event).map(({ name, says, isNew }) => {
    const [where, call, asks, words] = says;
    return row(isNew, part.names[name] ?? name, call, asks,
      element("td", { class: `where ${where}` }, ...linked(words, part.place)));
  });
  const heads = ["thread", "call", "asks for", "where it is"];
  return card("Calls, each thread's last one", rows.length ? table(heads, rows) : none("no thread has asked for anything yet"));
}

function registerCard(part, event) {
  const rows = part.registers.map((name, number) => {
    const record = at(part.state.record[number], event);
    const device = at(part.state.registers[number], event);
    const isNew = event > 0 && (record[0] === event || device[0] === event);
    const differs = record[1] === device[1] ? "" : "differs";
    return row(isNew, `${number} ${name}`, record[1], device[1], differs);
  });
  return card("Configuration", table(["register", "shadow's record", "device", ""], rows));
}

function listCard(name, section, event, heads, empty) {
  const rows = rowsAt(section, event).map(({ name: number, says, isNew }) =>
    row(isNew, number, element("td", { title: says[1], class: "words" }, says[0])));
  return card(name, rows.length ? table(heads, rows) : none(empty));
}

/** The first frames of a list, and how many there are. */
function frames(list, most) {
  const shown = list.slice(0, 12).join(" ");
  return `${list.length}${most ? ` of ${most}` : ""}${list.length ? ": " : ""}${shown}${list.length > 12 ? " .." : ""}`;
}

function frameCard(part, event) {
  const rows = Object.fromEntries(rowsAt(part.state.frames, event).map((each) => [each.name, each]));
  const wire = rowsAt(part.state.wire, event)[0];
  return card("Frames", table(["where", "frames, the oldest first"], [
    row(rows.ring.isNew, "device's ring", frames(rows.ring.says, RING)),
    row(rows.driver.isNew, "driver's hands", frames(rows.driver.says, 0)),
    row(rows.queue.isNew, "kernel's queue", frames(rows.queue.says, QUEUE)),
    row(wire.isNew, "sent to the wire", wire.says),
  ]));
}

function streamCard(part, event) {
  const rows = Object.fromEntries(rowsAt(part.state.stream, event).map((each) => [each.name, each]));
  const holder = part.names[rows.holder.says] ?? rows.holder.says;
  return card("Stream", table(["", ""], [
    row(rows.holder.isNew, "held by", holder),
    row(rows.played.isNew, "played", rows.played.says),
  ]));
}

function restCard(part, event) {
  const [holds, losses, contract] = ["holds", "losses", "contract"].map((name) => rowsAt(part.state[name], event)[0]);
  const broken = element("td", { class: contract.says ? "broken" : "" },
    ...linked(contract.says || "not broken so far", part.place));
  return card("Driver and applications", table(["", ""], [
    row(holds.isNew, "the driver holds", holds.says.join(", ") || "nothing"),
    row(losses.isNew, "lost so far", losses.says || "nothing"),
    row(contract.isNew, "contract", broken),
  ]));
}

/** The cards of a part after an event; 0 is the beginning. */
export function stateCards(part, event) {
  const cards = [modeCard(part, event), callCard(part, event), registerCard(part, event)];
  if (part.class === "block") {
    cards.push(listCard("Disk", part.state.blocks, event, ["block", "words"], "all blocks are blank"));
  }
  if (part.class === "net") cards.push(frameCard(part, event));
  if (part.class === "sound") cards.push(streamCard(part, event));
  if (rowsAt(part.state.objects, event).length) {
    cards.push(listCard("Kernel objects that were changed", part.state.objects, event, ["object", "words"], ""));
  }
  return [...cards, restCard(part, event)];
}
