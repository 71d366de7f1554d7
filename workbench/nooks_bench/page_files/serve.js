/** The page of a server: texts to edit, faults to add, and the run of the texts. */

import { Asking } from "./ask.js";
import { Editor } from "./editor.js";
import { element } from "./elements.js";
import { FaultForm } from "./fault.js";
import { DrawnMap } from "./map.js";
import { OrderList } from "./orders.js";
import { Page } from "./page.js";

const CHECK_AFTER = 500;

/** What can be made as a file, with its ending. */
const MAKES = { exact: ["exact JSON", ".json"], report: ["report", ".report"], page: ["page", ".html"], map: ["map of the burst", ".svg"], guarded: ["guarded scenario", ".json"] };

const NO_SCENARIO = "There is no scenario (.json, .jsonc) in this folder: copy one of the examples into it, and load this page again.";

/** What can be done, for anyone who sees the page for the first time. */
const INTRODUCTION = [
  "A scenario opens as text, with the text of its drivers, and is run at once. Below the texts its run is gone through event by event.",
  "Change a text, and run it again (r). Add a fault before an instruction of a burst (f), and remove it (u).",
  "Run it with a guard (g), draw the outcome of a fault at each instruction of a burst (m), or list what all orders of the steps come to (x).",
  "Files are written in this folder alone, when you save (Ctrl+S) or make one.",
];

const BENCH_KEYS = [
  ["r", "run; Ctrl+Enter does so from a text"],
  ["g", "with a guard or without one, and run"],
  ["f", "add the fault before the instruction that is shown"],
  ["u", "undo the last fault or schedule"],
  ["m", "a map of the burst that is looked at"],
  ["x", "the outcomes of all orders"],
  ["e, Esc", "to the text; back from it; Esc also stops a run"],
  ["Ctrl+S", "save"],
  ["F8", "to the position of an error in a text"],
];

function button(text, label, act, more = {}) {
  return element("button", { type: "button", title: label, onclick: act, ...more }, text);
}

class Bench {
  constructor({ token, folder, seconds, kinds }) {
    this.asking = new Asking(token);
    this.seconds = seconds;
    this.file = "";
    this.ran = "";
    this.opened = "";
    this.refusedToDrop = "";
    this.before = [];
    this.stop = null;
    this.checking = 0;
    this.fault = new FaultForm(kinds);
    this.editor = new Editor(() => this.changed());
    this.map = new DrawnMap((fault, part) => this.addFault(part, fault));
    this.orders = new OrderList((schedule) => this.openOrder(schedule));
    this.root = element("div", { class: "run" });
    this.page = new Page(this.root, { keys: BENCH_KEYS, acts: this.acts(), addFault: (turn) => this.addFaultAt(turn) });
    this.build(folder);
  }

  /** What the keys of the bench do. */
  acts() {
    return {
      r: () => this.run(),
      g: () => this.toggleGuard(),
      f: () => this.addFaultAt(this.page.turnHere),
      u: () => this.undo(),
      m: () => this.drawMap(),
      x: () => this.explore(),
    };
  }

  build(folder) {
    this.files = element("select", { "aria-label": "scenario", class: "files", onchange: () => this.open(this.files.value) });
    this.guard = element("input", { type: "checkbox", onchange: () => this.run() });
    this.stopper = button("\u25a0 stop", "stop the run (Esc)", () => this.stop?.abort(), { disabled: true, class: "stop" });
    this.said = element("p", { class: "bench-said", role: "status", "aria-live": "assertive", onclick: () => this.editor.goFault() });
    const bar = element("div", { class: "bar bench-bar" },
      element("b", {}, "nooks-bench serve"), element("span", { class: "none folder", title: "the folder that is served" }, folder), this.files,
      button("\u25b6 run (r)", "run the texts as they are (r, or Ctrl+Enter)", () => this.run(), { class: "run-it" }),
      element("label", { class: "guard" }, this.guard, " with a guard (g)"), this.stopper,
      button("hide texts", "hide or show the texts and tools", (click) => this.toggleTexts(click.currentTarget)), this.said);
    const tools = element("div", { class: "tools" }, this.faultTools(), this.tryTools(), this.fileTools(), this.orders.holder);
    this.body = element("div", { class: "bench-body", hidden: true }, this.editor.holder, tools);
    this.root.append(element("ul", { class: "introduction" }, ...INTRODUCTION.map((line) => element("li", {}, line))));
    document.body.append(element("section", { class: "bench", "aria-label": "workbench" }, bar, this.body), this.map.holder, this.root);
  }

  faultTools() {
    this.undoer = button("undo", "take the last fault or schedule back (u)", () => this.undo(), { disabled: true, class: "undo" });
    return element("div", { class: "tool" }, element("b", {}, "Fault"), ...this.fault.elements,
      button("add (f)", "add it before the instruction that is shown (f)", () => this.addFaultAt(this.page.turnHere), { class: "place-here" }), this.undoer,
      element("span", { class: "none" }, "or a click on 'fault' at an instruction, or on a cell of a map"));
  }

  tryTools() {
    return element("div", { class: "tool" }, element("b", {}, "Tries"),
      button("map of this burst (m)", "the outcome of this fault at each instruction of the burst that is shown (m)", () => this.drawMap(), { class: "draw" }),
      button("all orders (x)", "what comes of every order of the steps (x)", () => this.explore(), { class: "explore" }));
  }

  fileTools() {
    const makes = Object.entries(MAKES).map(([name, [words, ending]]) => element("option", { value: name }, `${words} ${ending}`));
    this.makes = element("select", { "aria-label": "what is made", class: "makes" }, ...makes);
    this.target = element("input", { class: "field-target", "aria-label": "the file's name", title: "the file's name", autocomplete: "off" });
    this.over = button("write over it", "write over the file that is there", () => this.make(true), { hidden: true, class: "over" });
    return element("div", { class: "tool" }, element("b", {}, "Files"),
      button("save (Ctrl+S)", "save the texts that are not saved", () => this.save(), { class: "save" }), this.makes, this.target,
      button("make", "make this file in the folder", () => this.make(false), { class: "make" }), this.over);
  }

  async start() {
    addEventListener("keydown", (press) => this.pressed(press), true);
    addEventListener("beforeunload", (leaving) => {
      if (this.editor.isEdited) leaving.preventDefault();
    });
    this.page.start();
    const scenarios = await this.listFiles();
    if (scenarios === null) return;
    const named = new URLSearchParams(location.search).get("open");
    if (named && scenarios.includes(named)) {
      await this.open(named, location.hash);
      return;
    }
    this.files.focus();
    this.say(scenarios.length ? "Choose a scenario in the list above." : NO_SCENARIO, "");
  }

  /** Lists the scenarios of the folder, with the open one selected. */
  async listFiles() {
    const { made, refused } = await this.asking.ask("/files", {});
    if (!made) {
      this.say(refused.text, "refused");
      return null;
    }
    const scenarios = made.files.filter((name) => /\.jsonc?$/.test(name));
    const options = scenarios.map((name) => element("option", { value: name }, name));
    this.files.replaceChildren(element("option", { value: "" }, "open a scenario .."), ...options);
    this.files.value = this.opened;
    return scenarios;
  }

  say(text, kind) {
    this.said.textContent = text;
    this.said.className = `bench-said ${kind}`;
    this.said.title = kind === "refused" ? "a click, or F8, goes to the position" : "";
  }

  /** Says what the server refused or ended, and marks the position. */
  sayRefused({ refused, ended }) {
    this.say((refused ?? ended).text, "refused");
    this.editor.mark(refused && refused.line ? refused : null);
  }

  toggleTexts(toggle) {
    const isHidden = this.body.toggleAttribute("hidden");
    toggle.textContent = isHidden ? "show texts" : "hide texts";
  }

  // Requests.

  /** What every request of a run has: the texts as edited. */
  get given() {
    return { file: this.file, texts: this.editor.plain, guard: this.guard.checked };
  }

  /** Requests a run, which another one, or Esc, stops. Returns what was made, or null. */
  async work(task, more = {}) {
    if (!this.file) {
      this.say("no scenario is open", "refused");
      return null;
    }
    this.stop?.abort();
    const stop = new AbortController();
    this.stop = stop;
    this.stopper.disabled = false;
    this.say(`at work, at most ${this.seconds} s ..`, "at-work");
    const answer = await this.asking.ask("/work", { ...this.given, task, ...more }, stop.signal);
    if (this.stop !== stop) return null;
    this.stop = null;
    this.stopper.disabled = true;
    if (!answer.made) {
      this.sayRefused(answer);
      return null;
    }
    this.editor.mark(null);
    this.say("", "");
    return answer.made;
  }

  /** Opens a scenario, runs it, and goes to the event that an address names. */
  async open(name, address = "") {
    if (!name) return;
    if (this.editor.isEdited && this.refusedToDrop !== name) {
      this.refusedToDrop = name;
      this.files.value = this.opened;
      this.say(`there are changes that are not saved: save them, or choose ${name} again to drop them`, "refused");
      return;
    }
    const answer = await this.asking.ask("/work", { task: "open", file: name, texts: {} });
    if (!answer.made) return this.sayRefused(answer);
    const { file, texts } = answer.made;
    this.stop?.abort();
    this.stop = null;
    this.refusedToDrop = "";
    this.page.clear();
    this.opened = name;
    this.files.value = name;
    this.writeOpened(address);
    this.file = file;
    this.body.hidden = false;
    this.before = [];
    this.undoer.disabled = true;
    this.orders.clear();
    this.map.clear();
    this.target.value = file.replace(/\.jsonc?$/, "");
    this.editor.take(texts);
    document.title = `${file} - nooks-bench`;
    this.files.blur();
    await this.run(() => this.page.readAddress());
  }

  /** Names the open scenario in the address, so that it can be loaded again. */
  writeOpened(address) {
    const query = new URLSearchParams(location.search);
    query.set("open", this.opened);
    history.replaceState(null, "", `?${query}${address}`);
  }

  /** Runs the texts as edited. The selection stays, or moves to where `go` goes. */
  async run(go = null) {
    const texts = JSON.stringify(this.editor.plain);
    const made = await this.work("run");
    this.showStale();
    if (!made) return;
    this.ran = texts;
    const before = this.page.data ? { ...this.page.here } : null;
    this.page.take(made.data);
    if (go) go();
    else this.page.go({ ...(before ?? { part: 0, event: 0 }), turn: null });
    const how = this.guard.checked ? "with a guard" : "without a guard";
    this.say(`${this.file}, ${how}: ${made.data.status}`, "ran");
    this.root.classList.toggle("guarded", this.guard.checked);
    this.showStale();
  }

  /** Shows whether the texts were edited after the run that is shown. */
  showStale() {
    this.root.classList.toggle("stale", this.page.data !== null && JSON.stringify(this.editor.plain) !== this.ran);
  }

  toggleGuard() {
    this.guard.checked = !this.guard.checked;
    this.run();
  }

  /** Adds the fault of the form before an instruction of the selected burst. */
  addFaultAt(turn) {
    const burst = this.page.burstNumber;
    if (!burst || !turn) return this.say("go to an event in which the driver works: a fault strikes in a burst, before an instruction", "refused");
    const { several } = this.fault;
    if (several) return this.say(`a fault has one ${several}, a number; only a map takes several`, "refused");
    return this.addFault(this.page.here.part, this.fault.before(turn, burst));
  }

  /** Adds a fault to the scenario, runs it, and goes to where the fault struck. */
  async addFault(part, fault) {
    const made = await this.work("place", { part, fault });
    if (made) await this.change(made.text, () => this.page.goBurst(part, fault.burst));
  }

  async openOrder(schedule) {
    const made = await this.work("schedule", { schedule });
    if (made) await this.change(made.text, () => this.goFirstWrong());
  }

  /** Goes to where a run first went wrong, or to its beginning. */
  goFirstWrong() {
    const part = Math.max(0, this.page.data.parts.findIndex((each) => each.marks.length));
    this.page.go({ part, event: this.page.data.parts[part].marks[0] ?? 0, turn: null });
  }

  /** Replaces the scenario's text, and runs it. */
  async change(text, go) {
    this.before.push([this.editor.texts.get(this.file).text, text]);
    this.undoer.disabled = false;
    this.editor.put(this.file, text);
    await this.run(go);
  }

  async undo() {
    if (!this.before.length) return;
    const [before, after] = this.before.pop();
    if (this.editor.texts.get(this.file).text !== after) {
      this.before = [];
      this.undoer.disabled = true;
      this.say("the text was changed by hand since then: undo it there", "refused");
      return;
    }
    this.editor.put(this.file, before);
    this.undoer.disabled = this.before.length === 0;
    await this.run();
  }

  /** The selected burst and the fault of the form, as a map takes them. */
  mapOptions() {
    const width = Math.max(600, this.root.clientWidth - 20);
    return { part: this.page.here.part, burst: this.page.burstNumber, kind: this.fault.kind, ...this.fault.written, width };
  }

  async drawMap() {
    const options = this.mapOptions();
    if (!options.burst) return this.say("look at an event in which the driver works: a map is of one burst", "refused");
    const made = await this.work("map", options);
    if (!made) return;
    this.map.take(made.svg, options.part);
    this.say(made.command, "ran");
    this.map.drawing.focus();
  }

  async explore() {
    const made = await this.work("explore");
    if (!made) return;
    this.orders.take(made);
    this.say(made.words, "ran");
  }

  // Files.

  /** Saves the unsaved texts, each under its name. */
  async save() {
    const saved = [];
    for (const name of this.editor.unsaved) {
      const { text, was } = this.editor.texts.get(name);
      const answer = await this.asking.ask("/save", { name, text, was });
      if (!answer.made) return this.sayRefused(answer);
      this.editor.keep(name, text, answer.made.was);
      saved.push(name);
    }
    await this.listFiles();
    this.say(saved.length ? `saved: ${saved.join(", ")}` : "all texts are saved", "ran");
  }

  /** Makes a file from the scenario. */
  async make(over) {
    const makes = this.makes.value;
    const ending = MAKES[makes][1];
    const name = this.target.value.endsWith(ending) ? this.target.value : this.target.value + ending;
    const made = await this.work("make", { makes, name, over, ...(makes === "map" ? this.mapOptions() : {}) });
    this.over.hidden = made !== null || !this.said.textContent.includes("is there already");
    if (made) this.say(`made: ${made.name}`, "ran");
  }

  /** After a pause in typing, asks whether the program accepts the texts. */
  changed() {
    this.showStale();
    clearTimeout(this.checking);
    this.checking = setTimeout(() => this.check(), CHECK_AFTER);
  }

  async check() {
    const given = this.given;
    const answer = await this.asking.ask("/work", { ...given, task: "check" });
    if (JSON.stringify(given.texts) !== JSON.stringify(this.editor.plain) || this.stop) return;
    if (answer.made) {
      this.editor.mark(null);
      this.say("the program takes these texts; r or Ctrl+Enter runs them", "ran");
    } else this.sayRefused(answer);
  }

  /** The keys that also work in a text. */
  pressed(press) {
    const isCtrl = press.ctrlKey || press.metaKey;
    const inText = document.activeElement === this.editor.area;
    if (isCtrl && press.key === "Enter") this.run();
    else if (isCtrl && press.key === "s") this.save();
    else if (press.key === "F8") this.editor.goFault();
    else if (press.key === "Escape") this.escape();
    else if (press.key === "e" && !isCtrl && !press.altKey && document.activeElement.matches(":not(textarea, input, select)")) this.editor.area.focus();
    else return;
    if (!inText || press.key !== "Escape") press.preventDefault();
  }

  /** Stops what is running, or leaves the focused field. */
  escape() {
    if (this.stop) this.stop.abort();
    else if (document.activeElement instanceof HTMLElement) document.activeElement.blur();
  }
}

const bench = new Bench(JSON.parse(document.getElementById("data").textContent));
bench.start();
