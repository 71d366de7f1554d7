/** A map of one burst, drawn by the server: each cell is a fault that was tried, and a click adds the fault. */

import { element } from "./elements.js";

const SIDE = { ArrowLeft: -1, ArrowRight: 1 };
const DOWN = { ArrowUp: -1, ArrowDown: 1 };

export class DrawnMap {
  /** `addFault` is called with the fault of the chosen cell, and with its part. */
  constructor(addFault) {
    this.addFault = addFault;
    this.part = 0;
    this.rows = [];
    this.here = [0, 0];
    this.cellWords = element("p", { class: "cell-words", "aria-live": "polite" });
    this.drawing = element("div", { class: "map-drawing", tabindex: 0, role: "application", "aria-label": "map: arrows go from cell to cell, Enter adds the fault of the cell",
      onkeydown: (press) => this.pressed(press), onclick: (click) => this.clicked(click), onfocus: () => this.showCell() });
    this.holder = element("section", { class: "map", hidden: true },
      element("h2", {}, "Map ", element("button", { type: "button", class: "close-map", onclick: () => this.clear() }, "close")),
      element("p", { class: "none" }, "Each cell is the fault before that instruction; its colour shows the outcome. A click on a cell, or Enter, adds its fault."),
      this.drawing, this.cellWords);
  }

  /** Shows a map. Nothing in it is run or loaded. */
  take(svg, part) {
    this.part = part;
    const read = new DOMParser().parseFromString(svg, "image/svg+xml").documentElement;
    const drawn = document.importNode(read, true);
    this.drawing.replaceChildren(drawn);
    this.holder.hidden = false;
    this.rows = rowsOf(drawn);
    this.here = [0, 0];
    this.cellWords.textContent = "";
  }

  clear() {
    this.holder.hidden = true;
    this.drawing.replaceChildren();
    this.rows = [];
  }

  clicked(click) {
    const fault = faultOf(click.target.closest("rect"));
    if (fault) this.addFault(fault, this.part);
  }

  /** The arrows go from cell to cell, and Enter adds the fault; other keys are those of the page. */
  pressed(press) {
    if (press.ctrlKey || press.altKey || press.metaKey || !this.rows.length) return;
    const [row, column] = this.here;
    if (press.key in SIDE) this.here = [row, column + SIDE[press.key]];
    else if (press.key in DOWN) this.here = [row + DOWN[press.key], column];
    else if (press.key === "Enter") this.addFault(faultOf(this.cell), this.part);
    else return;
    press.preventDefault();
    press.stopPropagation();
    this.showCell();
  }

  get cell() {
    const [row, column] = this.here;
    return this.rows[row][column];
  }

  /** Shows the chosen cell, with the outcome of its fault in words. */
  showCell() {
    if (!this.rows.length) return;
    const row = Math.max(0, Math.min(this.here[0], this.rows.length - 1));
    this.here = [row, Math.max(0, Math.min(this.here[1], this.rows[row].length - 1))];
    for (const each of this.drawing.querySelectorAll(".chosen-cell")) each.classList.remove("chosen-cell");
    this.cell.classList.add("chosen-cell");
    this.cellWords.textContent = titleOf(this.cell).split("\n").filter(Boolean).join(" \u00b7 ");
  }
}

function titleOf(cell) {
  return cell?.querySelector("title")?.textContent ?? "";
}

/** The fault of a cell, with which its title begins; null for what is not a cell. */
function faultOf(cell) {
  const first = titleOf(cell).split("\n")[0];
  return first.startsWith("{") ? JSON.parse(first) : null;
}

/** The cells of a drawing in rows, from left to right. */
function rowsOf(drawn) {
  const rows = new Map();
  for (const cell of drawn.querySelectorAll("rect")) {
    if (!faultOf(cell)) continue;
    const y = cell.getAttribute("y");
    rows.set(y, [...(rows.get(y) ?? []), cell]);
  }
  return [...rows.values()];
}
