/** The events of a part in words, as a list. */

import { LongList, element } from "./elements.js";

const EVENT_ROW = 38;

/** The mark before an event's words: that it broke the contract, failed, or was struck by a fault. */
export function markOf(part, event) {
  if (event === part.broken) return "CONTRACT ";
  if (part.failed.has(event)) return "FAILED ";
  return String(event) in part.lanes.faults ? "FAULT " : "";
}

export class EventList {
  /** `go` is called with the chosen event. */
  constructor(go) {
    this.list = new LongList("events", EVENT_ROW, (index) => this.row(index));
    this.go = go;
    this.part = null;
    this.event = 0;
  }

  /** Shows the events of another part. */
  take(part) {
    this.part = part;
    this.list.resize(part.events.length);
  }

  show(event) {
    this.event = event;
    this.list.show(Math.max(event - 1, 0));
  }

  row(index) {
    const number = index + 1;
    const mark = markOf(this.part, number);
    const words = [element("span", { class: "number" }, String(number)), element("b", {}, mark), this.part.events[index][0]];
    const chosen = number === this.event ? "chosen" : number > this.event ? "later" : "";
    return element("div", { class: `row ${chosen}`, title: this.part.events[index][0], onclick: () => this.go(number) },
      element("div", { class: "two" }, ...words));
  }
}
