/** The outcomes of all orders of the steps, each a schedule to open. */

import { element } from "./elements.js";

export class OrderList {
  /** `open` is called with the chosen schedule. */
  constructor(open) {
    this.open = open;
    this.words = element("p", {});
    this.list = element("ol", { class: "outcomes" });
    this.holder = element("section", { class: "orders", hidden: true }, element("h2", {}, "Orders"), this.words, this.list);
  }

  take({ rows, words }) {
    this.holder.hidden = false;
    this.words.textContent = `${words}. Each opens the shortest run that has it.`;
    this.list.replaceChildren(...rows.map((row) => this.row(row)));
  }

  row({ head, about, schedule, status }) {
    const choose = (click) => {
      for (const each of this.list.querySelectorAll("button")) each.setAttribute("aria-pressed", String(each === click.currentTarget));
      this.open(schedule);
    };
    return element("li", {}, element("button", { type: "button", class: `outcome status-${status}`, "aria-pressed": "false", onclick: choose },
      element("b", {}, head), ...about.map((line) => element("span", { class: "about" }, line))));
  }

  clear() {
    this.holder.hidden = true;
    this.list.replaceChildren();
  }
}
