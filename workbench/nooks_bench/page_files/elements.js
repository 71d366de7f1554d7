/** Elements of the page and shapes of its drawings. Texts are set as text, so that nothing in a scenario is markup. */

const SVG = "http://www.w3.org/2000/svg";

function filled(made, attributes, children) {
  for (const [name, value] of Object.entries(attributes)) {
    if (name.startsWith("on")) made.addEventListener(name.slice(2), value);
    else if (value !== false && value !== undefined) made.setAttribute(name, value === true ? "" : String(value));
  }
  made.append(...children.filter((child) => child !== null && child !== ""));
  return made;
}

/** Makes an element with attributes; one whose name begins with `on` is a listener. */
export function element(tag, attributes = {}, ...children) {
  return filled(document.createElement(tag), attributes, children);
}

/** Makes a shape of a drawing, with a title that is shown under the pointer. */
export function shape(tag, attributes = {}, title = "", ...children) {
  const made = filled(document.createElementNS(SVG, tag), attributes, children);
  if (title) made.prepend(filled(document.createElementNS(SVG, "title"), {}, [title]));
  return made;
}

/** The address of an event in this page, and of an item of its burst. */
export function addressOf(part, event, turn = 0) {
  return `#p${part}e${event}` + (turn ? `t${turn}` : "");
}

/** A text in which each `event 15` is a link to that event. */
export function linked(text, part) {
  const pieces = [];
  let end = 0;
  for (const found of text.matchAll(/\bevents? (\d+)(?: to (\d+))?/g)) {
    pieces.push(text.slice(end, found.index));
    const numbers = found[0].split(/(\d+)/);
    for (const piece of numbers) {
      pieces.push(/^\d+$/.test(piece) ? element("a", { href: addressOf(part, piece) }, piece) : piece);
    }
    end = found.index + found[0].length;
  }
  return [...pieces, text.slice(end)];
}

/**
 * A long list that makes its visible rows only. All rows have the same height.
 */
export class LongList {
  constructor(name, rowHeight, drawRow) {
    this.rowHeight = rowHeight;
    this.drawRow = drawRow;
    this.count = 0;
    this.printing = false;
    this.rows = element("div", { class: "rows" });
    this.space = element("div", { class: "space" }, this.rows);
    this.holder = element("div", { class: `long ${name}`, tabindex: 0, onscroll: () => this.draw() }, this.space);
  }

  /** Sets the number of rows. */
  resize(count) {
    this.count = count;
    this.space.style.height = `${count * this.rowHeight}px`;
  }

  /** Makes the visible rows, or for print all rows up to `most`. */
  draw(most = 0) {
    const high = this.holder.clientHeight || 300;
    let first = Math.max(0, Math.floor(this.holder.scrollTop / this.rowHeight) - 2);
    let last = Math.min(this.count, first + Math.ceil(high / this.rowHeight) + 4);
    if (most > 0) [first, last] = this.printed(first, most);
    this.rows.style.top = `${first * this.rowHeight}px`;
    const made = [];
    for (let index = first; index < last; index += 1) made.push(this.drawRow(index));
    this.rows.replaceChildren(...made);
  }

  printed(first, most) {
    if (this.count <= most) return [0, this.count];
    const start = Math.max(0, Math.min(first - most / 2, this.count - most));
    return [Math.floor(start), Math.floor(start) + most];
  }

  /** Scrolls so that a row is visible, with some rows around it, and draws. */
  show(index) {
    const top = index * this.rowHeight;
    const high = this.holder.clientHeight || 300;
    const margin = high / 3;
    if (top - margin < this.holder.scrollTop) this.holder.scrollTop = Math.max(0, top - margin);
    if (top + this.rowHeight + margin > this.holder.scrollTop + high) {
      this.holder.scrollTop = top + this.rowHeight + margin - high;
    }
    this.draw();
  }
}
