/** The texts of a scenario and its drivers, one at a time, with line numbers and the position of an input error. */

import { element } from "./elements.js";

const LINE_HEIGHT = 17;
const TOP_MARGIN = 4;

export class Editor {
  /** `changed` is called after the text was edited by hand. */
  constructor(changed) {
    this.changed = changed;
    this.texts = new Map();
    this.name = "";
    this.fault = null;
    this.tabs = element("nav", { class: "text-tabs", "aria-label": "texts" });
    this.numbers = element("pre", { class: "numbers", "aria-hidden": "true" });
    this.badNumber = element("span", { class: "bad-number", hidden: true });
    this.gutter = element("div", { class: "gutter mono" }, this.numbers, this.badNumber);
    this.badLine = element("div", { class: "bad-line", hidden: true });
    this.area = element("textarea", { class: "text-area mono", spellcheck: "false", wrap: "off", autocapitalize: "off", autocomplete: "off", "aria-label": "text",
      oninput: () => this.typed(), onscroll: () => this.scrolled() });
    this.holder = element("div", { class: "editor" }, this.tabs, element("div", { class: "text-box" }, this.gutter, element("div", { class: "text-holder" }, this.badLine, this.area)));
  }

  /** Takes other texts, by name; the first one is the scenario. */
  take(texts) {
    this.texts = new Map(Object.entries(texts));
    this.fault = null;
    this.show([...this.texts.keys()][0]);
  }

  /** The texts as edited. */
  get plain() {
    return Object.fromEntries([...this.texts].map(([name, each]) => [name, each.text]));
  }

  /** Whether there are unsaved changes. */
  get isEdited() {
    return [...this.texts.values()].some((each) => each.edited && !each.saved);
  }

  /** The names of the unsaved texts. */
  get unsaved() {
    return [...this.texts].filter(([, each]) => !each.saved).map(([name]) => name);
  }

  show(name) {
    this.name = name;
    this.area.value = this.texts.get(name).text;
    this.area.scrollTop = 0;
    this.showTabs();
    this.showLines();
  }

  showTabs() {
    this.tabs.replaceChildren(...[...this.texts].map(([name, { saved }]) =>
      element("button", { type: "button", "aria-pressed": String(name === this.name), onclick: () => this.show(name) }, name,
        saved ? "" : element("span", { class: "unsaved" }, " \u2022 not saved"))));
  }

  showLines() {
    const count = this.area.value.split("\n").length;
    if (count !== this.count) {
      this.count = count;
      this.numbers.textContent = Array.from({ length: count }, (_, index) => String(index + 1)).join("\n");
    }
    this.scrolled();
  }

  typed() {
    const text = this.texts.get(this.name);
    text.text = this.area.value;
    text.saved = false;
    text.edited = true;
    this.fault = null;
    this.showTabs();
    this.showLines();
    this.changed();
  }

  /** Replaces a text, as if the new one was typed. */
  put(name, text) {
    const known = this.texts.get(name);
    known.saved = known.saved && known.text === text;
    known.edited = true;
    known.text = text;
    if (name === this.name) {
      const { scrollTop } = this.area;
      this.area.value = text;
      this.area.scrollTop = scrollTop;
    }
    this.showTabs();
    this.showLines();
  }

  /** Records that a text was saved. */
  keep(name, text, was) {
    const known = this.texts.get(name);
    known.was = was;
    known.saved = known.text === text;
    this.showTabs();
  }

  /** Marks the line of an input error, or none, in the text that has it. */
  mark(fault) {
    this.fault = fault !== null && this.texts.has(fault.file) ? fault : null;
    if (this.fault && this.fault.file !== this.name && document.activeElement !== this.area) this.show(this.fault.file);
    this.scrolled();
  }

  /** Goes to the line and the column of the input error. */
  goFault() {
    if (!this.fault) return;
    const { file, line, column } = this.fault;
    if (file !== this.name) this.show(file);
    const before = this.area.value.split("\n").slice(0, line - 1).reduce((sum, each) => sum + each.length + 1, 0);
    this.area.focus();
    this.area.setSelectionRange(before + column - 1, before + column - 1);
    this.area.scrollTop = Math.max(0, (line - 4) * LINE_HEIGHT);
    this.scrolled();
  }

  /** Keeps the numbers and the mark next to their lines. */
  scrolled() {
    const top = this.area.scrollTop;
    this.numbers.style.top = `${TOP_MARGIN - top}px`;
    const isHere = this.fault !== null && this.fault.file === this.name;
    this.badNumber.hidden = !isHere;
    this.badLine.hidden = !isHere;
    if (!isHere) return;
    const at = `${TOP_MARGIN + (this.fault.line - 1) * LINE_HEIGHT - top}px`;
    this.badNumber.textContent = String(this.fault.line);
    this.badNumber.style.top = at;
    this.badLine.style.top = at;
  }
}
