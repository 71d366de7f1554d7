/** The page: what is selected in the run, and how the selection moves. */

import { BurstView } from "./burst.js";
import { addressOf, element, linked } from "./elements.js";
import { EventList } from "./events.js";
import { LanesDrawing, MARGIN, columnsOf, legendMark, legendOf, windowOf } from "./lanes.js";
import { stateCards } from "./state.js";

const PLAY_EVERY = 900;
const WRITE_AFTER = 200;
const MOST_PRINTED = 400;

const KEYS = [
  ["\u2190 \u2192", "one event back or on; with Shift ten"],
  ["\u2191 \u2193", "one instruction of the burst back or forward; with Shift ten"],
  ["Home End", "the beginning, the last event"],
  ["Space", "play, and stop"],
  ["n, N", "the next, the last event at which something went wrong"],
  ["1 to 8", "a part by its number, from 1"],
  ["+ -", "wider and narrower lanes"],
  ["?", "these keys"],
];

/** What a page has in addition to every page: keys in words, what each does, and what adds a fault before an instruction. */
const NOTHING_MORE = { keys: [], acts: {}, addFault: null };

export class Page {
  /** Shows runs in an element. */
  constructor(root, more = NOTHING_MORE) {
    this.root = root;
    this.more = more;
    this.data = null;
    this.zoom = 1;
    this.view = null;
    this.playing = 0;
    this.writing = 0;
    this.here = { part: 0, event: 0, turn: 0 };
  }

  /** Shows a run from its beginning. */
  take(data) {
    this.data = data;
    this.view = null;
    if (this.playing) this.togglePlay();
    clearTimeout(this.writing);
    this.here = { part: 0, event: 0, turn: 0 };
    for (const part of data.parts) {
      part.failed = new Set(part.lanes.failures);
      part.marks = marksOf(part);
    }
    this.events = new EventList((event) => this.goEvent(event));
    this.burst = new BurstView((turn) => this.go({ ...this.here, turn }), this.more.addFault);
    this.build();
  }

  /** Shows nothing. */
  clear() {
    clearTimeout(this.writing);
    if (this.playing) this.togglePlay();
    this.data = null;
    this.root.replaceChildren();
  }

  get part() {
    return this.data.parts[this.here.part];
  }

  /** The instruction before which a fault is added, 0 for none. */
  get turnHere() {
    return this.data === null ? 0 : this.burst.turnHere;
  }

  /** The burst of the selected event, 0 if it is not a burst. */
  get burstNumber() {
    return this.here.event ? this.part.events[this.here.event - 1][2] : 0;
  }

  /** Makes the elements that stay. What happened is shown at the beginning, and in print. */
  build() {
    const button = (text, label, act) => element("button", { type: "button", title: label, "aria-label": label, onclick: act }, text);
    this.tabs = element("nav", { class: "tabs", "aria-label": "parts" }, ...this.data.parts.map((part, index) =>
      element("button", { type: "button", onclick: () => this.goPart(index) }, `${part.name}`, element("small", {}, ` part ${part.place}, ${part.head}`))));
    this.summary = element("section", { class: "summary" });
    this.overview = element("canvas", { class: "overview", height: 10, "aria-hidden": "true", onclick: (click) => this.chooseOverview(click) });
    this.lanes = element("div", { class: "lanes" });
    this.legend = element("div", { class: "legend" });
    this.slider = element("input", { type: "range", min: 0, class: "event-slider", "aria-label": "event", oninput: () => this.goEvent(Number(this.slider.value)) });
    this.where = element("output", { class: "event-where" });
    this.play = button("\u25b6 play", "play (space)", () => this.togglePlay());
    this.link = element("a", { class: "link", title: "a link to this event" }, "link");
    this.help = element("dl", { class: "keys", hidden: true }, ...[...KEYS, ...this.more.keys].flatMap(([keys, about]) => [element("dt", {}, keys), element("dd", {}, about)]));
    const bar = element("div", { class: "bar event-bar" },
      button("|\u25c0", "the beginning (Home)", () => this.goEvent(0)), button("\u25c0 back", "one event back (arrow left)", () => this.goEvent(this.here.event - 1)),
      button("on \u25b6", "one event on (arrow right)", () => this.goEvent(this.here.event + 1)), button("\u25b6|", "the last event (End)", () => this.goEvent(this.part.events.length)),
      this.play, this.next = button("next \u26a0", "the next event at which something went wrong (n)", () => this.goWrong(1)), this.slider, this.where, this.link,
      button("keys ?", "the keys (?)", () => this.toggleKeys()));
    this.said = element("div", { class: "said", "aria-live": "polite" });
    this.state = element("div", { class: "state" });
    const column = (name, title, ...children) => element("section", { class: `column ${name}` }, element("h2", {}, title), ...children);
    this.root.replaceChildren(
      element("header", {}, element("h1", {}, this.data.title), this.tabs, element("p", { class: "status" }, this.data.status)),
      element("div", { class: "top" }, this.overview, this.lanes, this.legend, bar, this.help, this.summary, this.said),
      element("main", {}, column("of-events", "Events", this.events.list.holder), this.stateColumn = column("of-state", "State after the event", this.state),
        column("of-burst", "What the driver did", this.burst.holder)),
      element("footer", {}, ...this.data.made.map((line) => element("p", {}, line))));
  }

  /** Goes to a part, an event and an item of its burst, as far as they exist. */
  go({ part, event, turn }) {
    const index = Math.max(0, Math.min(part, this.data.parts.length - 1));
    const isOther = index !== this.here.part || this.burst.part === null;
    const events = this.data.parts[index].events;
    const number = Math.max(0, Math.min(event, events.length));
    this.here.part = index;
    if (isOther) this.takePart();
    const burst = number ? events[number - 1][2] : 0;
    const last = this.burst.last(burst);
    this.here = { part: index, event: number, turn: turn === null ? this.burst.firstTurn(burst) : Math.max(0, Math.min(turn, last)) };
    this.show(burst);
    this.writeAddress();
  }

  goEvent(event) {
    this.go({ part: this.here.part, event, turn: null });
  }

  /** Goes to the event of a burst, or to the last event if the run has no such burst. */
  goBurst(part, burst) {
    const events = this.data.parts[part].events;
    const index = events.findIndex((event) => event[2] === burst);
    this.go({ part, event: index < 0 ? events.length : index + 1, turn: null });
  }

  goPart(part) {
    this.go({ part, event: 0, turn: null });
  }

  /** Goes to the next event, or the one before, at which something went wrong. */
  goWrong(direction) {
    const marks = this.part.marks;
    const found = direction > 0 ? marks.find((each) => each > this.here.event) : marks.findLast((each) => each < this.here.event);
    if (found !== undefined) this.goEvent(found);
  }

  /** Shows what depends on the part only. */
  takePart() {
    const part = this.part;
    this.view = null;
    this.events.take(part);
    this.burst.take(part);
    this.slider.max = String(part.events.length);
    this.next.hidden = part.marks.length === 0;
    [...this.tabs.children].forEach((tab, index) => tab.setAttribute("aria-pressed", String(index === this.here.part)));
    this.summary.replaceChildren(element("h2", {}, `What happened to ${part.name}`),
      element("ul", {}, ...part.summary.map((line) => element("li", { class: line.startsWith("CONTRACT") ? "broken" : line.startsWith("failed") ? "failed" : "" }, ...linked(line, part.place)))));
    this.width = this.lanes.clientWidth;
    const { step } = columnsOf(part, this.width, this.zoom);
    this.legend.replaceChildren(...legendOf(part, step).map((entry) => element("span", { class: "entry" }, legendMark(entry), entry[2])));
    this.drawOverview();
  }

  show(burst) {
    const { event, turn } = this.here;
    const part = this.part;
    this.drawLanes();
    this.slider.value = String(event);
    this.where.textContent = event ? `event ${event} of ${part.events.length}` : `the beginning, before event 1 of ${part.events.length}`;
    this.link.setAttribute("href", addressOf(part.place, event));
    this.showSaid();
    this.events.show(event);
    this.state.replaceChildren(...stateCards(part, event));
    this.burst.show(burst, turn);
  }

  showSaid() {
    const { event } = this.here;
    this.summary.classList.toggle("later", event > 0);
    if (event === 0) {
      const about = "The beginning: nothing has happened yet. The key \u2192, or the button 'on', goes to the first event; a click on a lane goes to any.";
      this.said.replaceChildren(element("p", { class: "line" }, about));
      return;
    }
    const [words, line, , notes] = this.part.events[event - 1];
    this.said.replaceChildren(
      element("p", { class: "sentence" }, element("span", { class: "number" }, String(event)), ...linked(words, this.part.place)),
      ...notes.map(([kind, text]) => element("p", { class: `note ${kind}` }, text)),
      element("p", { class: "line mono" }, line));
  }

  drawLanes() {
    const part = this.part;
    const { step, count } = columnsOf(part, this.width, this.zoom);
    const view = windowOf(part, Math.max(this.here.event, 1), count, this.view);
    if (this.view !== view) {
      this.view = view;
      this.drawing = new LanesDrawing(part, view, step, (event) => this.goEvent(event));
      this.lanes.replaceChildren(this.drawing.svg);
    }
    this.drawing.mark(this.here.event);
  }

  /** Draws the whole run on a strip: its modes, and where something went wrong. */
  drawOverview() {
    const part = this.part;
    const wide = Math.max(this.width - MARGIN - 8, 100);
    const style = getComputedStyle(document.documentElement);
    const colours = { starts: "--sky", serves: "--pale", recovers: "--orange", "given up": "--grey" };
    this.overview.width = wide;
    const context = this.overview.getContext("2d");
    const x = (event) => ((event - 1) / part.events.length) * wide;
    for (const [mode, first, last] of part.lanes.spans) {
      context.fillStyle = style.getPropertyValue(colours[mode]);
      context.fillRect(x(first), 0, x(last + 1) - x(first), 10);
    }
    for (const event of part.marks) {
      context.fillStyle = event === part.broken ? "#000" : style.getPropertyValue("--red");
      context.fillRect(x(event), 0, Math.max(2, wide / part.events.length), 10);
    }
  }

  chooseOverview(click) {
    const box = this.overview.getBoundingClientRect();
    this.goEvent(1 + Math.floor(((click.clientX - box.left) / box.width) * this.part.events.length));
  }

  /** Writes the address after a delay, so that fast steps do not write it each time. */
  writeAddress() {
    clearTimeout(this.writing);
    this.writing = setTimeout(() => {
      const { event, turn } = this.here;
      const address = addressOf(this.part.place, event, turn === this.burst.firstTurn(this.burstNumber) ? 0 : turn);
      if (address !== location.hash) history.replaceState(null, "", address);
    }, WRITE_AFTER);
  }

  /** Goes to what the address names. */
  readAddress() {
    clearTimeout(this.writing);
    const found = /^#p(\d+)e(\d+)(?:t(\d+))?$/.exec(location.hash);
    if (found) this.go({ part: Number(found[1]), event: Number(found[2]), turn: found[3] ? Number(found[3]) : null });
    else this.go({ part: 0, event: 0, turn: null });
  }

  togglePlay() {
    const stops = this.playing !== 0;
    clearInterval(this.playing);
    this.playing = stops ? 0 : setInterval(() => this.playOn(), PLAY_EVERY);
    this.play.textContent = stops ? "\u25b6 play" : "\u25a0 stop";
    if (!stops) this.playOn();
  }

  playOn() {
    if (this.here.event >= this.part.events.length) this.togglePlay();
    else this.goEvent(this.here.event + 1);
  }

  toggleKeys() {
    this.help.hidden = !this.help.hidden;
  }

  zoomBy(factor) {
    this.zoom = Math.max(0.5, Math.min(4, this.zoom * factor));
    this.view = null;
    this.drawLanes();
  }

  /** Does what a key does; false if that is nothing. */
  key(name, isShifted) {
    const keys = this.data === null ? this.more.acts : { ...this.keysOfRun(isShifted ? 10 : 1), ...this.more.acts };
    if (/^[1-8]$/.test(name) && this.data !== null && Number(name) <= this.data.parts.length) this.goPart(Number(name) - 1);
    else if (Object.hasOwn(keys, name)) keys[name]();
    else return false;
    return true;
  }

  /** What the keys of a run do; `by` is how far a step goes. */
  keysOfRun(by) {
    const { part, event, turn } = this.here;
    return {
      ArrowLeft: () => this.goEvent(event - by),
      ArrowRight: () => this.goEvent(event + by),
      ArrowUp: () => this.go({ part, event, turn: turn - by }),
      ArrowDown: () => this.go({ part, event, turn: turn + by }),
      Home: () => this.goEvent(0),
      End: () => this.goEvent(this.part.events.length),
      " ": () => this.togglePlay(),
      n: () => this.goWrong(1),
      N: () => this.goWrong(-1),
      "+": () => this.zoomBy(1.25),
      "-": () => this.zoomBy(0.8),
      "?": () => this.toggleKeys(),
    };
  }

  pressed(press) {
    if (press.ctrlKey || press.altKey || press.metaKey || isTyping(press.target, press.key)) return;
    const chosen = press.target instanceof Element ? press.target.tagName : "";
    if (press.key === " " && ["BUTTON", "SUMMARY", "INPUT"].includes(chosen) && press.target !== this.slider) return;
    if (this.key(press.key, press.shiftKey)) press.preventDefault();
  }

  /** For print the lists are whole, and the lanes continue in further rows. */
  print(begins) {
    if (this.data === null) return;
    this.events.list.draw(begins ? MOST_PRINTED : 0);
    this.burst.draw(begins ? MOST_PRINTED : 0);
    document.body.classList.toggle("printing", begins);
    this.view = null;
    if (!begins) {
      this.drawLanes();
      return;
    }
    const { step, count } = columnsOf(this.part, 1000, 1);
    const last = Math.min(this.part.events.length, MOST_PRINTED);
    const rows = [];
    for (let first = 1; first <= last; first += count) {
      const row = new LanesDrawing(this.part, { first, last: Math.min(last, first + count - 1) }, step, () => {});
      row.mark(this.here.event);
      rows.push(row.svg);
    }
    this.lanes.replaceChildren(...rows);
  }

  start() {
    addEventListener("hashchange", () => this.data && this.readAddress());
    addEventListener("keydown", (press) => this.pressed(press), true);
    addEventListener("resize", () => {
      if (this.data === null) return;
      this.view = null;
      this.width = this.lanes.clientWidth;
      this.drawOverview();
      this.drawLanes();
    });
    addEventListener("beforeprint", () => this.print(true));
    addEventListener("afterprint", () => this.print(false));
  }
}

/** The events at which something went wrong: failures, faults that struck, and a broken contract. */
function marksOf(part) {
  const found = new Set([...part.lanes.failures, ...Object.keys(part.lanes.faults).map(Number), ...(part.broken ? [part.broken] : [])]);
  return [...found].sort((one, other) => one - other);
}

/** Whether a key is for the focused element: a field to type or choose in, or a drawing with its own arrows. */
function isTyping(target, key) {
  if (!(target instanceof Element)) return false;
  if (target.matches("[role=application]")) return /^(Arrow|Enter)/.test(key);
  return target.matches("textarea, select, input:not([type=range]):not([type=checkbox])");
}
