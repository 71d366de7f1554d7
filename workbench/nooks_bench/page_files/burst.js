/** A traced burst, instruction by instruction, next to the driver's text, with the registers and the words that change. */

import { LongList, element } from "./elements.js";
import { at } from "./history.js";

const TURN_ROW = 18;
const MOST_WORDS = 12;

export class BurstView {
  /** `go` is called with the chosen item; `addFault`, if there is one, with the number of the instruction that a fault is added before. */
  constructor(go, addFault = null) {
    this.go = go;
    this.addFault = addFault;
    this.part = null;
    this.burst = null;
    this.turn = 0;
    this.items = new LongList("items mono", TURN_ROW, (index) => this.itemRow(index + 1));
    this.source = new LongList("source mono", TURN_ROW, (index) => this.sourceRow(index));
    this.head = element("div", { class: "burst-head" });
    this.slider = element("input", { type: "range", min: 0, "aria-label": "instruction of the burst", oninput: () => go(Number(this.slider.value)) });
    this.where = element("output", { class: "turn-where" });
    this.registers = element("div", { class: "registers mono" });
    this.words = element("div", { class: "changed-words mono" });
    this.said = element("div", { class: "turn-said" });
    const button = (text, label, move) => element("button", { type: "button", title: label, "aria-label": label, onclick: () => go(this.turn + move) }, text);
    this.whole = element("div", { class: "burst-whole" },
      element("div", { class: "bar turn-bar" }, button("\u25b2", "one instruction back (arrow up)", -1), button("\u25bc", "one instruction forward (arrow down)", 1), this.slider, this.where),
      this.said, element("div", { class: "row item heads" }, ...[["instr.", "number"], ["line", "number"], ["the driver's text", "instruction"], ["what it does", "effect"]].map(([text, kind]) => element("span", { class: `cell ${kind}` }, text))),
      this.items.holder,
      element("div", { class: "below" },
        element("div", {}, element("h4", {}, "Registers after this instruction"), this.registers),
        element("div", { class: "text" }, element("h4", {}, "The driver's text"), this.source.holder)),
      element("h4", {}, "Words of memory that this burst changed"), this.words);
    this.without = element("p", { class: "none" });
    this.holder = element("div", { class: "burst" }, this.head, this.without, this.whole);
  }

  /** Takes the driver's text of another part. An image has no lines: its words are shown instead. */
  take(part) {
    this.part = part;
    this.lines = part.source.lines.length > 1 ? part.source.lines : null;
    this.addresses = Object.keys(part.source.words).map(Number).sort((one, other) => one - other);
    this.source.resize(this.lines ? this.lines.length : this.addresses.length);
  }

  /** The item that is selected first: the one that broke the contract, else the last. */
  firstTurn(number) {
    const burst = this.part.bursts[number];
    return burst ? burst.breaks || burst.items.length : 0;
  }

  last(number) {
    const burst = this.part.bursts[number];
    return burst ? burst.items.length : 0;
  }

  show(number, turn) {
    this.burst = this.part.bursts[number] ?? null;
    this.turn = turn;
    this.whole.hidden = this.burst === null;
    this.without.hidden = this.burst !== null;
    if (this.burst === null) {
      // A scroll event for the rows of the previous burst may still come.
      this.items.resize(0);
      this.head.replaceChildren(element("h3", {}, number ? `Burst ${number}` : "Burst"));
      const command = `nooks-bench trace ${this.part.place} ${number} SCENARIO`;
      this.without.textContent = number ? `This burst was not traced when the page was made; ${command} shows it.` : "This event is no burst: the driver does not run.";
      return;
    }
    this.showHead(number);
    this.items.resize(this.burst.items.length);
    this.slider.max = String(this.burst.items.length);
    this.slider.value = String(turn);
    this.items.show(Math.max(turn - 1, 0));
    this.showRegisters();
    this.showWords();
    this.showSource();
  }

  showHead(number) {
    const { head, device } = this.burst;
    this.head.replaceChildren(element("h3", {}, `Burst ${number}, instruction by instruction`), element("p", {}, head), device ? element("p", {}, `device before: ${device}`) : "");
    const item = this.burst.items[this.turn - 1];
    const turns = this.burst.items.filter((each) => each[0]).length;
    this.where.textContent = this.turn === 0 ? `before instruction 1 of ${turns}` : item[0] ? `instruction ${item[0]} of ${turns}` : `${item[3] ? "the guard" : "a fault"}, after instruction ${item[1]}`;
    const ends = this.turn === this.burst.items.length;
    const said = [];
    if (this.turn > 0 && this.turn === this.burst.breaks) said.push(element("b", { class: "broken" }, `CONTRACT BROKEN by this instruction: ${item[2]}. `));
    const isGuard = item !== undefined && !item[0] && item[3];
    if (item && !item[0]) said.push(element("b", { class: "fault-text" }, isGuard ? "The GUARD stops the driver here. " : `FAULT of the scenario: ${item[2]}. `));
    if (ends && !isGuard) said.push(`The burst ends: ${this.burst.cause || this.burst.end}.`);
    this.said.replaceChildren(...said);
  }

  /** The line of an executed instruction, and the driver's text there. A word that was overwritten is shown as it is now. */
  textOf(item) {
    const [line, instruction] = this.part.source.words[item[1]] ?? [0, ""];
    if (item[3] || !line || !this.lines) return [`@${item[1]}`, item[3] ? `${item[3]} (written over)` : instruction];
    return [String(line), this.lines[line - 1].split(";")[0].trim()];
  }

  itemRow(number) {
    const item = this.burst.items[number - 1];
    const chosen = number === this.turn ? "chosen" : number > this.turn ? "later" : "";
    const choose = { onclick: () => this.go(number) };
    if (!item[0]) {
      return element("div", { class: `row item fault-row ${chosen}`, ...choose }, element("span", { class: "cell wide" }, item[3] ? `-- after ${item[1]} ${item[2]}` : `-- fault strikes after ${item[1]}: ${item[2]}`));
    }
    const breaks = number === this.burst.breaks;
    const [line, text] = this.textOf(item);
    const cells = [[String(item[0]), "number"], [line, "number"], [text, "instruction"], [(breaks ? "\u25c0 BREAKS: " : "") + item[2], `effect ${breaks ? "broken" : ""}`]];
    return element("div", { class: `row item ${chosen}`, title: `at ${item[1]}: ${item[2]}`, ...choose }, ...cells.map(([text, kind]) => element("span", { class: `cell ${kind}` }, text)), this.faultButton(item[0]));
  }

  /** A button that adds a fault before an instruction. The key f does so at the selected instruction. */
  faultButton(turn) {
    if (this.addFault === null) return "";
    const clicked = (click) => {
      click.stopPropagation();
      this.addFault(turn);
    };
    return element("button", { type: "button", class: "place", tabindex: -1, title: `add the fault before instruction ${turn} (f)`, onclick: clicked }, "fault");
  }

  /** The instruction before which a fault is added: the selected one, or the one after a selected fault; 0 for none. */
  get turnHere() {
    if (this.burst === null) return 0;
    const item = this.burst.items[Math.max(this.turn - 1, 0)];
    return item ? item[0] || item[1] + 1 : 0;
  }

  showRegisters() {
    const cells = Object.entries(this.burst.registers).map(([number, history]) => {
      const [since, word] = at(history, this.turn);
      const isNew = since === this.turn && this.turn > 0;
      return element("span", { class: isNew ? "register new" : "register", title: since ? `set by item ${since}` : "as the burst found it" },
        element("span", { class: "register-name" }, `r${number}`), `${isNew ? "\u25b8" : " "}${word}`);
    });
    this.registers.replaceChildren(...cells);
  }

  /** The words that changed, the last one first. */
  showWords() {
    const known = Object.entries(this.burst.words).map(([address, history]) => [address, at(history, this.turn)]).filter(([, entry]) => entry !== null);
    known.sort(([, one], [, other]) => other[0] - one[0]);
    const rows = known.slice(0, MOST_WORDS).map(([address, [since, word]]) =>
      element("span", { class: since === this.turn ? "word new" : "word", title: `${this.burst.areas[address]}, set by item ${since}` }, `${since === this.turn ? "\u25b8" : " "}[${address}] = ${word}`));
    const areas = new Set(known.map(([address]) => this.burst.areas[address]));
    if (known.length > MOST_WORDS) rows.push(`.. ${known.length} words`);
    if (known.length) rows.push(element("span", { class: "none" }, ` ${[...areas].join(", ")}`));
    this.words.replaceChildren(...(known.length ? rows : [element("span", { class: "none" }, "none so far")]));
  }

  /** The line of the text of the selected instruction, or of the next one after a selected fault. */
  lineOf(turn) {
    const items = this.burst.items;
    const item = items[turn - 1]?.[0] ? items[turn - 1] : items.slice(Math.max(turn - 1, 0)).find((each) => each[0]) ?? items.findLast((each) => each[0]);
    if (!item) return -1;
    return this.lines ? (this.part.source.words[item[1]]?.[0] ?? 0) - 1 : this.addresses.indexOf(item[1]);
  }

  showSource() {
    this.line = this.lineOf(this.turn);
    if (this.line >= 0) this.source.show(this.line);
    else this.source.draw();
  }

  sourceRow(index) {
    const chosen = this.burst !== null && index === this.line ? "chosen" : "";
    const address = this.addresses[index];
    const text = this.lines ? this.lines[index] : this.wordText(address);
    return element("div", { class: `row line ${chosen}` }, element("span", { class: "cell number" }, String(this.lines ? index + 1 : address)), element("span", { class: "cell effect" }, text));
  }

  wordText(address) {
    const [, text, names] = this.part.source.words[address];
    return names.map((name) => `${name}: `).join("") + text;
  }

  /** Draws everything at once, for print. */
  draw(most) {
    if (this.burst === null) return;
    this.items.draw(most);
    this.source.draw(most);
  }
}
