// What is selected, as a form: its values, its inputs with their priorities, and what may happen to it in the run.
import { made } from "./tables.js";
import { inputsOf, isDown } from "./desk_words.js";

/** A labelled field of a form. */
function field(words, input) {
  const label = made("label", "", words);
  label.append(input);
  return label;
}

/** A number that is edited; `onChange` gets it. */
function number(value, least, most, onChange) {
  const input = made("input");
  Object.assign(input, {type: "number", min: least, max: most, value});
  input.addEventListener("change", () => { if (input.value !== "") onChange(Number(input.value)); });
  return input;
}

/** A choice of words; "" stands for none. */
function choice(words, value, onChange) {
  const select = made("select");
  for (const word of words) {
    const option = select.appendChild(made("option", "", word || "none"));
    option.value = word;
  }
  select.value = value ?? "";
  select.addEventListener("change", () => onChange(select.value || null));
  return select;
}

function button(words, onClick, name) {
  const node = made("button", name ?? "", words);
  node.type = "button";
  node.addEventListener("click", onClick);
  return node;
}

export class Panel {
  /** `desk` has the network, the run, and what edits and selects. */
  constructor(desk, part) {
    this.desk = desk;
    this.part = part;
  }

  get network() { return this.desk.network; }

  set(section, name, key, value) { this.desk.edit({kind: "value", section, name, key, value}); }

  /** Shows what is selected. */
  show(thing) {
    this.part("chosen-head").textContent = thing ? `${thing.kind} ${thing.name}` : "Nothing is selected";
    const none = "Click an element, a link or a source, or take one of the tables below.";
    this.part("chosen").textContent = thing ? "" : none;
    const nodes = !thing ? [] : {element: () => this.element(thing.name), link: () => this.link(thing.name), source: () => this.source(thing.name)}[thing.kind]();
    const focused = this.part("form").contains(document.activeElement) ? document.activeElement.dataset.key : null;
    this.part("form").replaceChildren(...nodes);
    this.part("commands").replaceChildren(...(thing ? this.commands(thing) : []));
    if (focused) this.part("form").querySelector(`[data-key="${CSS.escape(focused)}"]`)?.focus();
    this.tell(thing);
  }

  /** Says what the selected element shows at the run's moment. */
  tell(thing) {
    if (thing?.kind !== "element" || !this.desk.run) return;
    const place = this.network.elements.findIndex(one => one.name === thing.name);
    if (place >= 0) this.part("chosen").textContent = this.desk.run.sentence(place);
  }

  get levels() { return this.network.levels.map(level => level.name); }

  element(name) {
    const place = this.network.elements.findIndex(one => one.name === name), its = this.network.elements[place];
    if (!its) return [];
    const below = this.levels.slice(0, -1), set = (key, value) => this.set("element", name, key, value);
    const inputs = made("div", "inputs");
    for (const one of inputsOf(this.network)[place]) {
      const box = number(one.priority, 0, 255, value => this.set(one.section, one.row, one.key, value));
      box.dataset.key = one.name;
      inputs.append(field(`${one.name} from ${one.from}, priority`, box));
    }
    return [
      field("own clock", this.keyed("own", choice(below, this.network.levels[its.own].name, value => set("own", value)))),
      field("floor", this.keyed("floor", choice(["", ...below], its.floor, value => set("floor", value)))),
      field("hold-off, ms", this.keyed("holdoff", number(its.holdoff, 300, 1800, value => set("holdoff", value)))),
      field("wait-to-restore, minutes", this.keyed("wtr", number(its.wtr, 0, 12, value => set("wtr", value)))),
      inputs,
      button("Link from here..", () => this.desk.openAdd("link", name)),
      button("Source here..", () => this.desk.openAdd("source", name)),
      this.goes("element", name),
    ];
  }

  keyed(key, node) { node.dataset.key = key; return node; }

  goes(section, name) {
    return button("Take it away", () => this.desk.edit({kind: "take-away", section, name}));
  }

  link(name) {
    const found = [];
    for (const line of this.network.lines.filter(one => one.link === name)) {
      const into = this.network.elements[line.receiver].name;
      const box = number(line.priority, 0, 255, value => this.set("link", name, line.key, value));
      const delay = number(line.delay, 1, 2000, value => this.set("link", name, line.key.replace("priority", "delay"), value));
      const port = this.desk.ports[line.name] ? `, port ${this.desk.ports[line.name]}` : "";
      found.push(field(`priority at ${into}${port}`, this.keyed(line.name, box)));
      found.push(field(`delay into ${into}, ms`, this.keyed(`delay ${line.name}`, delay)));
    }
    return found.length ? [...found, this.goes("link", name)] : [];
  }

  source(name) {
    const its = this.network.sources.find(one => one.name === name);
    if (!its) return [];
    const set = (key, value) => this.set("source", name, key, value);
    return [
      field("level", this.keyed("level", choice(this.levels, this.network.levels[its.level].name, value => set("level", value)))),
      field(`priority at ${this.network.elements[its.at].name}`, this.keyed("priority", number(its.priority, 0, 255, value => set("priority", value)))),
      this.goes("source", name),
    ];
  }

  /** What may happen to a thing in the run. */
  commands(thing) {
    const say = (what, target, value = "") => button(`${what}${value ? ` ${value}` : ""}${target === thing.name ? "" : ` ${target}`}`, () => this.desk.happen([[what, target, value]]));
    const fails = button(isDown(this.desk.run, thing) ? "Repair it" : "Let it fail", () => this.desk.failOrMend(thing));
    fails.id = "fail";
    if (thing.kind === "element") return [fails, say("clear", thing.name)];
    const lines = thing.kind === "source" ? [thing.name] : this.network.lines.filter(line => line.link === thing.name).map(line => line.name);
    const group = made("details");
    group.append(made("summary", "", "Commands of an operator, and messages"));
    for (const line of lines) {
      const row = group.appendChild(made("p"));
      for (const what of ["lockout", "unlock", "forced", "manual", "clear-wtr", ...(thing.kind === "link" ? ["esmc-off", "esmc-on"] : [])]) row.append(say(what, line));
    }
    if (thing.kind === "source") {
      const level = choice(this.levels, this.network.levels[this.network.sources.find(one => one.name === thing.name)?.level ?? 0].name, value => this.desk.happen([["level", thing.name, value]]));
      group.append(field("its level becomes", level));
    }
    return [fails, group];
  }
}
