/** The fault to add or to try: its kind, and the fields of that kind. */

import { element } from "./elements.js";

/** What each kind does, in words. */
const KIND_WORDS = {
  trap: "the driver stops",
  hang: "the driver never ends its burst",
  reg: "a register gets another word",
  poke: "a word of memory gets another value",
  code: "a word of its text gets another value",
};

/** The initial text of each field. */
const FIRST = { register: "8", address: "4096", value: "2" };

export class FaultForm {
  /** `kinds` has the fields of each kind, with the least and the greatest number of each field. */
  constructor(kinds) {
    this.fieldsOf = Object.fromEntries(Object.entries(kinds).map(([kind, fields]) => [kind, Object.keys(fields)]));
    const options = Object.keys(kinds).map((kind) => element("option", { value: kind }, kind in KIND_WORDS ? `${kind}: ${KIND_WORDS[kind]}` : kind));
    this.kinds = element("select", { "aria-label": "kind of fault", class: "kind", onchange: () => this.showFields() }, ...options);
    this.fields = {};
    this.labels = {};
    for (const [name, ends] of Object.entries(Object.assign({}, ...Object.values(kinds)))) {
      const about = `${name}, ${ends[0]} to ${ends[1]}; for a map also several, as 1-3,7`;
      this.fields[name] = element("input", { class: `field field-${name}`, "aria-label": about, title: about, value: FIRST[name] ?? String(ends[0]), autocomplete: "off" });
      this.labels[name] = element("label", {}, `${name} `, this.fields[name]);
    }
    this.showFields();
  }

  get kind() {
    return this.kinds.value;
  }

  /** Makes the elements of the form. */
  get elements() {
    return [this.kinds, ...Object.values(this.labels)];
  }

  showFields() {
    for (const [name, label] of Object.entries(this.labels)) label.hidden = !this.fieldsOf[this.kind].includes(name);
  }

  /** The texts of the fields, as a map takes them. */
  get written() {
    return Object.fromEntries(this.fieldsOf[this.kind].map((name) => [name, this.fields[name].value.trim()]));
  }

  /** The name of a field that does not have a single number, if there is one. */
  get several() {
    return Object.entries(this.written).find(([, value]) => !/^\d+$/.test(value))?.[0];
  }

  /** The fault before an instruction of a burst. */
  before(turn, burst) {
    const numbers = Object.entries(this.written).map(([name, value]) => [name, Number(value)]);
    return { burst, after: turn - 1, kind: this.kind, ...Object.fromEntries(numbers) };
  }
}
