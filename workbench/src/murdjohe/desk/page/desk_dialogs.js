// Windows over the desk: tables, what is added, Save, orders, all failures, and that the plan has changed meanwhile.
import { drawStrip, made } from "./tables.js";
import { packed, posted } from "./desk_talk.js";
import { plural } from "./desk_words.js";

export class Dialogs {
  constructor(desk, part) {
    this.desk = desk;
    this.part = part;
    const click = (name, work) => part(name).addEventListener("click", work);
    click("tables-open", () => this.open("tables"));
    click("tables-take", () => this.takeTables());
    click("add-open", () => this.openAdd("element", null));
    click("add-take", () => this.add());
    click("save-open", () => this.openSave());
    click("orders-open", () => this.openOrders());
    click("failures-open", () => this.openFailures());
    part("add-kind").addEventListener("change", () => this.fitAdd());
    for (const button of document.querySelectorAll("[data-save]")) button.addEventListener("click", () => this.save(button.dataset.save));
    desk.openAdd = (kind, name) => this.openAdd(kind, name);
    for (const form of document.querySelectorAll("dialog form")) form.addEventListener("keydown", event => this.entered(event, form));
  }

  /** Enter in a field does what the first button of its dialog does. */
  entered(event, form) {
    if (event.key !== "Enter" || event.target.tagName !== "INPUT" || event.target.type === "file") return;
    event.preventDefault();
    (event.target.closest("p").querySelector("button") ?? form.querySelector("button[type=button]"))?.click();
  }

  open(name) {
    for (const node of this.part(name).querySelectorAll(".wrong")) node.textContent = "";
    if (!this.part(name).open) this.part(name).showModal();
  }

  wrong(name, words) { this.part(name).querySelector(".wrong").textContent = words; }

  async takeTables() {
    const tables = {};
    for (const kind of ["element", "link", "source"]) {
      const [file] = this.part(`table-${kind}`).files;
      if (file) tables[kind] = await packed(file);
    }
    try {
      const made = await posted("/tables", {on: this.desk.number, option: this.part("table-option").value, tables});
      this.part("tables").close();
      if (made.said.length) this.desk.tell(made.said.join("; "));
    } catch (fault) { this.wrong("tables", fault.message); }
  }

  /** Opens what adds to the plan, an element being known. */
  openAdd(kind, name) {
    this.part("add-kind").value = kind;
    const names = this.desk.network.elements.map(element => element.name);
    this.part("names").replaceChildren(...names.map(one => { const option = made("option"); option.value = one; return option; }));
    this.part("add-level").replaceChildren(...this.desk.network.levels.map(level => made("option", "", level.name)));
    this.part("add-level").value = this.desk.network.option === "II" ? "QL-PRS" : "QL-PRC";
    this.part("add-name").value = "";
    const chosen = name ?? (this.desk.thing?.kind === "element" ? this.desk.thing.name : "");
    for (const field of ["add-a", "add-at"]) this.part(field).value = chosen;
    this.part("add-b").value = "";
    this.fitAdd();
    this.open("add");
    this.part("add-name").focus();
  }

  fitAdd() {
    const kind = this.part("add-kind").value;
    for (const node of this.part("add").querySelectorAll("[data-of]")) node.hidden = node.dataset.of !== kind;
  }

  rowOf(section) {
    const value = name => this.part(name).value.trim();
    if (section === "element") return {name: value("add-name")};
    if (section === "link") return {name: value("add-name"), a: value("add-a"), b: value("add-b")};
    return {name: value("add-name"), at: value("add-at"), level: value("add-level")};
  }

  /** Adds what the dialog says; an element stands where the picture was clicked last, if nothing was there. */
  async add() {
    const section = this.part("add-kind").value, row = this.rowOf(section);
    try {
      await posted("/edit", {on: this.desk.number, edit: {kind: "add", section, row}, place: this.spot});
      this.spot = undefined;
      this.wrong("add", "");
      this.part("add-name").value = "";
      this.part("add-name").focus();
      this.desk.thing = {kind: section, name: row.name};
    } catch (fault) {
      if (fault.since) { this.part("add").close(); this.conflict(fault.since, () => this.desk.edit({kind: "add", section, row}, this.spot)); }
      else this.wrong("add", fault.message);
    }
  }

  openSave() {
    const name = this.desk.name, base = name.split("/").pop().replace(/\.toml$/, "");
    const values = {plan: name, events: this.desk.eventFile ?? `${base}-events.csv`, orders: `${base}-orders.csv`, page: `${base}.html`, ports: `${base}.ports.csv`};
    this.part("save-ports-part").hidden = !Object.keys(this.desk.ports).length;
    for (const [kind, value] of Object.entries(values)) if (!this.part(`save-${kind}`).value) this.part(`save-${kind}`).value = value;
    this.part("save-said").textContent = "";
    this.open("save");
  }

  async save(what) {
    this.wrong("save", "");
    const over = this.part("save-over").checked, word = this.part(`save-${what}`).value.trim();
    try {
      this.part("save-said").textContent = (await posted("/save", {on: this.desk.number, what, word, over})).said;
    } catch (fault) { this.part("save-said").textContent = ""; this.wrong("save", fault.message); }
  }

  async openOrders() {
    this.part("orders-text").textContent = "";
    this.open("orders");
    try { this.part("orders-text").textContent = (await posted("/orders", {on: this.desk.number})).text; }
    catch (fault) { this.part("orders-text").textContent = fault.message; }
  }

  async openFailures() {
    this.part("failures-said").textContent = "each failure runs alone ..";
    this.part("cases").replaceChildren();
    this.open("failures");
    try {
      const {cases} = await posted("/cases", {on: this.desk.number});
      const lost = cases.filter(one => one.lost).length;
      this.part("failures-said").textContent = `${plural(cases.length, "failure")}; ${lost ? plural(lost, "one") : "none"} leave${lost === 1 ? "s" : ""} elements without a source at the end`.replace("ones", "of them");
      this.part("cases").replaceChildren(...cases.map(one => this.caseRow(one)));
    } catch (fault) { this.part("failures-said").textContent = fault.message; }
  }

  caseRow(one) {
    const row = made("tr"), button = row.appendChild(made("td")).appendChild(made("button", "name", one.name));
    button.type = "button";
    button.addEventListener("click", () => {
      this.part("failures").close();
      this.desk.edit({kind: "events", at: one.at, rows: one.rows, by: `${one.kind} ${one.name} fails`});
    });
    for (const text of [one.kind, String(one.lost), one.settled ? "yes" : "no"]) row.append(made("td", "", text));
    const strip = row.appendChild(made("td", "strip")).appendChild(made("canvas"));
    strip.width = Math.max(300, Math.min(1000, this.desk.network.elements.length * 12));
    strip.height = 16;
    const names = this.desk.network.elements.filter((_, number) => !one.ended.fed[number]).map(element => element.name);
    strip.setAttribute("role", "img");
    strip.setAttribute("aria-label", names.length ? `without a source: ${names.slice(0, 20).join(", ")}` : "all follow a source");
    strip.title = strip.getAttribute("aria-label");
    drawStrip(strip, this.desk.network, one.ended);
    return row;
  }

  /** Says that an edit wasn't made, since the plan has changed; it is made by wish on the newest one. */
  async conflict(since, again) {
    this.part("conflict-since").replaceChildren(...(since ?? []).map(words => made("li", "", words)));
    await this.desk.load();
    this.open("conflict");
    this.part("again").onclick = () => { this.part("conflict").close(); again(); };
  }
}
