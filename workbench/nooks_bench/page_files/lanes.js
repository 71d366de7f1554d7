/** The lanes of a part: its modes and stages, the shadow, the threads, the driver, and what it does to the device. */

import { shape } from "./elements.js";
import { markOf } from "./events.js";

const LANE = 25;
const BAR = 15;
const TOP = 20;
export const MARGIN = 86;
const SHADOW = 16;


// With more threads than these, calls have no labels, so that all lanes fit on a screen.
const MOST_LABELLED = 5;

// The least and the greatest width of an event if all of them fit, and the width if they do not.
const NARROW = 18;
const WIDE = 64;
const USUAL = 24;

// Acts that reach beyond the device.
const OUTWARD = "stpr";

/** The width of an event, and how many events are drawn next to each other. */
export function columnsOf(part, width, zoom) {
  const room = Math.max(width - MARGIN - 8, 100);
  const all = room / Math.max(part.events.length, 1);
  const step = (all < NARROW ? USUAL : Math.min(all, WIDE)) * zoom;
  return { step, count: Math.max(1, Math.floor(room / step)) };
}

/** The events that are drawn: the window moves only when the selected event comes near its end. */
export function windowOf(part, event, count, before) {
  const last = part.events.length;
  const edge = Math.min(3, Math.floor(count / 4));
  if (before && before.last - before.first + 1 === count && event >= before.first + edge && event <= before.last - edge) return before;
  if (before && before.first === 1 && event < before.first + edge && before.last === Math.min(count, last)) return before;
  const first = Math.max(1, Math.min(event - Math.floor(count / 2), last - count + 1));
  return { first, last: Math.min(last, first + count - 1) };
}

class Drawing {
  constructor(part, view, step) {
    this.part = part;
    this.lanes = part.lanes;
    this.view = view;
    this.step = step;
    this.y = TOP;
    this.shapes = [];
    this.isCrowded = part.lanes.threads.length > MOST_LABELLED;
  }

  add(...made) {
    this.shapes.push(...made);
  }

  left(event) {
    return MARGIN + (event - this.view.first) * this.step;
  }

  middle(event) {
    return this.left(event) + this.step / 2;
  }

  /** The visible events. */
  * events() {
    for (let event = this.view.first; event <= this.view.last; event += 1) yield event;
  }

  begin(name, title) {
    this.add(shape("text", { x: MARGIN - 8, y: this.y + BAR - 3, "text-anchor": "end", class: "lane-name" }, title, name));
  }

  /** Draws a bar over some events, as far as they are visible. */
  bar(first, last, kind, title) {
    if (first > this.view.last || last < this.view.first) return;
    const x = this.left(Math.max(first, this.view.first));
    const wide = this.left(Math.min(last, this.view.last) + 1) - x;
    this.add(shape("rect", { x, y: this.y, width: wide, height: BAR, rx: 2, class: kind }, title));
  }

  letter(event, text, kind, title) {
    const wide = Math.min(this.step - 1, Math.max(13, 7 * text.length + 4));
    const x = this.middle(event);
    this.add(shape("rect", { x: x - wide / 2, y: this.y + 1, width: wide, height: BAR - 2, rx: 2, class: `letter ${kind}` }, title),
      shape("text", { x, y: this.y + 11, "text-anchor": "middle", class: `small ${kind}` }, title, text));
  }

  cross(event, title) {
    const [x, y] = [this.middle(event), this.y + BAR / 2];
    const path = `M${x - 5},${y - 5} L${x + 5},${y + 5} M${x - 5},${y + 5} L${x + 5},${y - 5}`;
    this.add(shape("path", { d: path, class: "cross-ground" }), shape("path", { d: path, class: "cross" }, title));
  }

  ruler() {
    const every = [1, 2, 5, 10, 20, 50, 100].find((each) => each * this.step >= 34) ?? 200;
    for (const event of this.events()) {
      if (event % every === 0) this.add(shape("text", { x: this.middle(event), y: 12, "text-anchor": "middle", class: "tick" }, "", String(event)));
    }
  }

  modes() {
    this.begin("part", "what the part is at, and the stages of its start and its recoveries");
    for (const [mode, first, last] of this.lanes.spans) this.bar(first, last, mode.replace(" ", "-"), `${mode}: events ${first} to ${last}`);
    for (const event of this.events()) {
      const stage = this.lanes.stages[event];
      if (!stage) continue;
      const text = stageText(stage, this.step);
      this.add(shape("text", { x: this.middle(event), y: this.y + 11, "text-anchor": "middle", class: "stage" }, `stage ${stage[1]}`, text));
    }
    this.y += LANE;
  }

  shadow() {
    this.begin("shadow", "the substitute for the driver: it answers calls, and enters the new driver itself");
    for (const [mode, first, last] of this.lanes.spans) if (mode === "recovers") this.bar(first, last, "stands-in", "the shadow replaces the driver");
    for (const event of this.events()) {
      const burst = this.lanes.bursts[event];
      if (burst && burst[0] === SHADOW) this.tick(event, "a burst of the driver for the shadow");
    }
    for (const [, , calls] of this.lanes.threads) {
      for (const call of this.seen(calls)) if (call[3] === "by the shadow") this.answer(call);
    }
    this.y += LANE;
  }

  tick(event, title) {
    this.add(shape("rect", { x: this.middle(event) - 1.5, y: this.y + 2.5, width: 3, height: BAR - 5, class: "tick-mark" }, title));
  }

  /** The calls of a thread that are open in the visible events; a thread has one open call at a time. */
  seen(calls) {
    let low = 0;
    let high = calls.length;
    while (low < high) {
      const middle = (low + high) >> 1;
      if (calls[middle][1] <= this.view.last) low = middle + 1;
      else high = middle;
    }
    const found = [];
    for (let index = low - 1; index >= 0; index -= 1) {
      if (calls[index][2] && calls[index][2] < this.view.first) break;
      found.push(calls[index]);
    }
    return found.reverse();
  }

  thread(number, name, calls) {
    this.begin(name, `thread ${number}`);
    for (const call of this.seen(calls)) this.call(call);
    this.y += this.isCrowded ? BAR + 3 : LANE + 8;
  }

  call(call) {
    const [number, invoked, answered, , inside, interruptions, title] = call;
    const last = answered || this.part.events.length;
    this.bar(invoked, last, answered === invoked ? "at-once" : "held", title);
    for (const [first, end] of inside) this.bar(first, end, "inside", `${title}: inside the driver, events ${first} to ${end}`);
    for (const event of this.events()) {
      const burst = this.lanes.bursts[event];
      if (burst && burst[2] === number && event !== answered && !interruptions.includes(event)) this.tick(event, `burst ${burst[1]}`);
    }
    for (const event of interruptions) if (this.isSeen(event)) this.cross(event, `interrupted at event ${event}`);
    if (answered && this.isSeen(answered)) this.answer(call);
    if (this.isCrowded) return;
    const x = this.left(Math.max(invoked, this.view.first));
    const room = (Math.min(last, this.view.last) - Math.max(invoked, this.view.first) + 1) * this.step;
    const words = title.split(":")[0];
    const label = words.length * 5.2 <= room ? words : `c${number}`;
    if (label.length * 5.2 <= room + 6) this.add(shape("text", { x: x + 1, y: this.y + BAR + 9, class: "label" }, title, label));
  }

  isSeen(event) {
    return event >= this.view.first && event <= this.view.last;
  }

  /** Marks who answered: a disc for the driver, a diamond for the shadow, a ring at its enter, a square at once or gone. */
  answer(call) {
    const [, , event, by, , , title] = call;
    if (!this.isSeen(event)) return;
    const [x, y] = [this.middle(event), this.y + BAR / 2];
    if (by === "by the driver") this.add(shape("circle", { cx: x, cy: y, r: 5, class: "by-driver" }, title));
    else if (by === "by the shadow") this.add(shape("path", { d: `M${x},${y - 6.5} L${x + 6.5},${y} L${x},${y + 6.5} L${x - 6.5},${y} Z`, class: "by-shadow" }, title));
    else if (by === "at its enter") this.add(shape("circle", { cx: x, cy: y, r: 4.5, class: "at-enter" }, title));
    else this.add(shape("rect", { x: x - 4, y: y - 4, width: 8, height: 8, class: by.startsWith("with gone") ? "gone" : "once" }, title));
  }

  driver() {
    this.begin("driver", "from each load to a failure; in each burst the context that runs, S for the shadow's");
    for (const [first, last] of this.lanes.loaded) this.bar(first, last, "loaded", `the driver is there: events ${first} to ${last}`);
    for (const event of this.events()) {
      const burst = this.lanes.bursts[event];
      if (!burst) continue;
      const context = burst[0] === SHADOW ? "S" : String(burst[0]);
      if (this.part.failed.has(event)) this.cross(event, `burst ${burst[1]}, context ${burst[0]}: the driver fails`);
      else this.letter(event, context, "context", `burst ${burst[1]}, context ${burst[0]}`);
    }
    this.y += LANE;
  }

  device() {
    this.begin("device", "what the driver did to the device");
    for (const event of this.events()) {
      const act = this.lanes.acts[event];
      if (!act) continue;
      const text = act[0] + (act[1] > 1 && this.step >= 26 ? ` x${act[1]}` : "");
      this.letter(event, text, act[0] === "f" ? "failed-act" : OUTWARD.includes(act[0]) ? "outward" : "inward", `event ${event}: ${act[2]}`);
    }
    this.y += LANE;
  }

  faults() {
    if (!Object.keys(this.lanes.faults).length) return;
    this.begin("faults", "faults of the scenario that struck, and where a guard stopped the driver");
    for (const event of this.events()) {
      const letters = this.lanes.faults[event];
      if (letters) this.letter(event, letters.length > 1 ? "+" : letters[0], "fault", `event ${event}: ${letters.map((each) => this.part.letters.faults[each]).join(", ")}`);
    }
    this.y += LANE;
  }

  frames() {
    if (!Object.keys(this.lanes.frames).length) return;
    this.begin("wire", "frames that came: kept in the ring, or lost");
    for (const event of this.events()) {
      if (!(event in this.lanes.frames)) continue;
      const delivered = this.lanes.frames[event];
      const [x, y] = [this.middle(event), this.y + BAR / 2];
      this.add(shape("path", { d: `M${x - 5},${y - 5} L${x + 5},${y - 5} L${x},${y + 5} Z`, class: delivered ? "kept" : "lost" }, delivered ? "a frame, kept" : "a frame, lost"));
    }
    this.y += LANE;
  }

  /** Draws what broke the contract, below all marks. */
  broken() {
    if (!this.isSeen(this.part.broken)) return;
    const x = this.middle(this.part.broken);
    this.shapes.unshift(shape("line", { x1: x, y1: TOP - 4, x2: x, y2: this.y, class: "broken-line" }, "the contract is broken here"));
  }
}

/** The name of a stage if that fits, else its letter. */
function stageText([letter, name], step) {
  return name.length * 5.4 <= step ? name : letter;
}

/** Stripes for held calls, so that they differ by more than their colour. */
function stripes() {
  const ground = shape("rect", { width: 6, height: 6, class: "stripe-ground" });
  const line = shape("path", { d: "M0,0 L0,6", class: "stripe-line" });
  return shape("defs", {}, "", shape("pattern", { id: "held", width: 6, height: 6, patternUnits: "userSpaceOnUse", patternTransform: "rotate(45)" }, "", ground, line));
}

/** The lanes of some events of a part. They are drawn once; a step to another of these events only moves the mark. */
export class LanesDrawing {
  /** `go` is called with the chosen event. */
  constructor(part, view, step, go) {
    this.part = part;
    this.view = view;
    this.step = step;
    const drawing = drawn(part, view, step);
    const high = drawing.y;
    const wide = drawing.left(view.last + 1) + 4;
    this.column = shape("rect", { y: TOP - 4, width: step, height: high - TOP + 6, class: "now" });
    this.flag = shape("rect", { y: 0, height: 15, rx: 3, class: "now-flag" });
    this.number = shape("text", { y: 11.5, "text-anchor": "middle", class: "now-number" });
    this.svg = shape("svg", { width: wide, height: high + 4, viewBox: `0 0 ${wide} ${high + 4}`, role: "img" }, "",
      stripes(), this.column, ...drawing.shapes, this.flag, this.number);
    this.svg.addEventListener("click", (click) => {
      const x = click.clientX - this.svg.getBoundingClientRect().left;
      const chosen = view.first + Math.floor((x - MARGIN) / step);
      if (x > MARGIN && chosen <= view.last) go(chosen);
    });
  }

  /** Marks the selected event, if it is drawn. */
  mark(event) {
    const isSeen = event >= this.view.first && event <= this.view.last;
    const x = MARGIN + (event - this.view.first) * this.step;
    for (const each of [this.column, this.flag, this.number]) each.setAttribute("visibility", isSeen ? "visible" : "hidden");
    this.column.setAttribute("x", String(x));
    const wide = 14 + 7.4 * String(event).length;
    this.flag.setAttribute("width", String(wide));
    this.flag.setAttribute("x", String(x + this.step / 2 - wide / 2));
    this.number.setAttribute("x", String(x + this.step / 2));
    this.number.textContent = String(event);
    this.svg.setAttribute("aria-label", laneWords(this.part, event));
  }
}

function drawn(part, view, step) {
  const drawing = new Drawing(part, view, step);
  drawing.ruler();
  drawing.modes();
  drawing.shadow();
  for (const [number, name, calls] of part.lanes.threads) drawing.thread(number, name, calls);
  drawing.driver();
  drawing.device();
  drawing.faults();
  drawing.frames();
  drawing.broken();
  return drawing;
}

function laneWords(part, event) {
  return event ? `lanes, at event ${event}: ${markOf(part, event)}${part.events[event - 1][0]}` : "lanes, at the beginning";
}

/** What the marks of the lanes mean: a class of a shape, and words. Only those that the part has are listed. */
export function legendOf(part, step) {
  const modes = new Set(part.lanes.spans.map(([mode]) => mode));
  const calls = part.lanes.threads.flatMap(([, , each]) => each);
  const by = new Set(calls.map((call) => call[3]));
  const acts = new Set(Object.values(part.lanes.acts).map((act) => act[0]));
  const entries = ["starts", "serves", "recovers", "given up"].filter((mode) => modes.has(mode)).map((mode) => ["box", mode.replace(" ", "-"), mode]);
  const stages = new Map(Object.values(part.lanes.stages).filter((stage) => stageText(stage, step) !== stage[1]));
  for (const [letter, name] of stages) entries.push(["letter", "stage-swatch", name, letter]);
  entries.push(["box", "held-swatch", "call held"], ["box", "inside", "call inside the driver"]);
  const answers = { "by the driver": ["disc", "by-driver", "answered by the driver"], "by the shadow": ["diamond", "by-shadow", "answered by the shadow"],
    "at its enter": ["disc", "at-enter", "answered at its enter"] };
  for (const [name, entry] of Object.entries(answers)) if (by.has(name)) entries.push(entry);
  if ([...by].some((each) => each.startsWith("at once"))) entries.push(["square", "once", "answered at once: a wrong operation"]);
  if ([...by].some((each) => each.startsWith("with gone"))) entries.push(["square", "gone", "gone: the part is given up"]);
  if (Object.keys(part.lanes.bursts).length) entries.push(["tick", "tick-mark", "a burst that continues"]);
  if (part.failed.size) entries.push(["cross", "cross", "the driver fails; a call is interrupted"]);
  for (const [letter, name] of Object.entries(part.letters.acts)) if (acts.has(letter)) entries.push(["letter", OUTWARD.includes(letter) ? "outward" : letter === "f" ? "failed-act" : "inward", name, letter]);
  const strikes = new Set(Object.values(part.lanes.faults).flat());
  for (const [letter, name] of Object.entries(part.letters.faults)) if (strikes.has(letter)) entries.push(["letter", "fault", name, letter]);
  if (Object.values(part.lanes.frames).includes(true)) entries.push(["triangle", "kept", "frame kept"]);
  if (Object.values(part.lanes.frames).includes(false)) entries.push(["triangle", "lost", "frame lost"]);
  return entries;
}

/**
 * An entry of the legend.
 * @param {any[]} entry
 */
export function legendMark([form, kind, , letter]) {
  const forms = {
    box: () => [shape("rect", { x: 1, y: 1, width: 18, height: 12, rx: 2, class: kind })],
    disc: () => [shape("circle", { cx: 10, cy: 7, r: 5, class: kind })],
    diamond: () => [shape("path", { d: "M10,1 L16,7 L10,13 L4,7 Z", class: kind })],
    square: () => [shape("rect", { x: 6, y: 3, width: 8, height: 8, class: kind })],
    cross: () => [shape("path", { d: "M5,2 L15,12 M5,12 L15,2", class: kind })],
    tick: () => [shape("rect", { x: 8, y: 2, width: 3, height: 10, class: kind })],
    triangle: () => [shape("path", { d: "M5,2 L15,2 L10,12 Z", class: kind })],
    letter: () => [shape("rect", { x: 3, y: 1, width: 14, height: 12, rx: 2, class: `letter ${kind}` }),
      shape("text", { x: 10, y: 10.5, "text-anchor": "middle", class: `small ${kind}` }, "", letter)],
  };
  return shape("svg", { width: 20, height: 14, "aria-hidden": "true" }, "", ...forms[form]());
}
