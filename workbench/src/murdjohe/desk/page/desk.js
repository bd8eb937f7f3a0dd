// The desk: the plan and its run, verdicts, what is selected, and what the commands would do, for one person.
import { Run, clock } from "./model.js";
import { List, made } from "./tables.js";
import { DeskPicture } from "./desk_picture.js";
import { Panel } from "./desk_panel.js";
import { Dialogs } from "./desk_dialogs.js";
import { failing, gapWords, inputsOf, isDown, millisecond, patched, plural, verdictWords } from "./desk_words.js";
import { got, listen, posted } from "./desk_talk.js";

/** The place in the document of a name. */
const part = name => document.getElementById(name);

const NAMES = ["loop", "agree", "protected", "chains"];
const NO_CHANGES = {at: [], element: [], mode: [], input: [], level: [], state: []};
const SMALL = 400;  // elements up to which the tables are filled at once
const MOST_ROWS = 500;  // rows of a table that are made; a filter finds the others

class Desk {
  constructor() {
    this.number = -1;
    this.region = null;
    this.thing = null;
    this.said = {};
    this.saidOf = -1;
    this.times = [];
    this.panel = new Panel(this, part);
    this.dialogs = new Dialogs(this, part);
    this.list = new List(part("list"), at => this.goTo(this.run.moments.indexOf(at)));
    this.listen();
    listen((kind, data) => this.told(kind, data), () => this.load(), () => this.lost());
  }

  /** Takes all that the server has: the newest plan, what was said of it, and its run. */
  async load() {
    if (location.search) history.replaceState(null, "", "/");
    const state = await got(`/state${this.region === null ? "" : `?region=${this.region}`}`);
    this.isMap = state.region === -1;
    this.network = state.network;
    this.lineNumbers = new Map(this.network.lines.map((line, number) => [line.name, number]));
    this.elementNumbers = new Map(this.network.elements.map((element, number) => [element.name, number]));
    this.eventFile = state.eventFile;
    this.ports = state.ports;
    this.start = state.start;
    this.head = state;
    this.take(state);
    const view = this.picture && this.drawn === `${this.region}` ? this.picture.view : null;
    this.drawn = `${this.region}`;
    this.picture = new DeskPicture(part("picture"), this.network);
    if (view) this.picture.view = view;
    this.colour();
    part("size").textContent = [["elements", "element"], ["links", "link"], ["sources", "source"]].map(([key, one]) => plural(state.size[key], one)).join(", ");
    this.runOf = -1;
    this.rows = null;
    if (this.thing && !this.isThere(this.thing)) this.thing = null;
    this.stand(NO_CHANGES, [], 0);
    this.fillKeys();
    for (const verdict of state.said) this.keep(verdict);
    this.judged();
    this.fillTables();
    this.greet(state);
    document.body.dataset.ready = "yes";
  }

  greet(state) {
    part("all-regions").hidden = this.region === null;
    document.body.classList.toggle("map", this.isMap);
    if (state.found && !this.isGreeted) {
      const other = state.otherBase ? " The file on disk has changed since: Save asks before it writes over it." : "";
      this.tell(`What wasn't saved was found again: ${plural(state.found, "change")}.${other}`);
    } else if (this.isMap) {
      this.tell(`${plural(state.size.elements, "element")}: each box is a region, called by its first element; a click opens it.`);
    } else if (this.region !== null) {
      this.tell("A region with the elements beside it; what these take from elsewhere is shown as a source beyond them. The verdicts are of the whole plan.");
    } else if (!this.isGreeted) {
      this.tell(this.network.elements.length ? "" : "The desk is empty: take tables of an inventory, or add elements.");
    }
    this.isGreeted = true;
  }

  /** Takes what is known of the newest state besides the network. */
  take(head) {
    this.number = head.number;
    this.name = head.name;
    document.title = `${head.saved ? "" : "• "}${head.name}`;
    part("title").textContent = `${head.name}${head.saved ? "" : " (not saved)"}`;
    for (const name of ["undo", "redo"]) {
      part(name).disabled = head[name] === null;
      part(name).title = head[name] ?? "";
    }
    part("log").replaceChildren(...head.log.map(words => made("li", "", words)));
    this.fillEvents(head.events);
    if (head.draftFault) this.tell(head.draftFault, true);
  }

  /** What the server tells: a change, a verdict, or that something was saved. */
  told(kind, data) {
    if (kind === "verdict") this.verdict(data);
    if (kind === "saved") this.take({...this.head, saved: data.saved});
    if (kind === "change") this.changed(data);
  }

  changed(data) {
    this.head = data;
    if (data.structure || this.isMap) { this.load().then(() => this.tell(data.words)); return; }
    this.take(data);
    for (const row of data.rows) patched(this.network, row);
    this.judged();
    this.picture.baseKey = null;
    this.propose(null);
    this.fillTablesLater();
    this.show();
    this.tell(data.words);
  }

  /** Keeps a verdict on the newest state that was heard of; one of an older state is dropped. Says whether it was kept. */
  keep({number, name, said}) {
    if (number > this.saidOf) { this.saidOf = number; this.said = {}; }
    if (number === this.saidOf) this.said[name] = said;
    return number === this.saidOf;
  }

  /** Takes a verdict; one on a state that isn't shown yet waits. */
  verdict(verdict) {
    if (!this.keep(verdict) || verdict.number !== this.number) return;
    this.shown(verdict.name);
    const left = NAMES.filter(one => !this.said[one]);
    if (left.length || !this.asked || !NAMES.includes(verdict.name)) return;
    this.times.push(performance.now() - this.asked);
    this.asked = null;
  }

  /** Shows all verdicts that there are on the state that is shown. */
  judged() {
    if (this.saidOf < this.number) { this.saidOf = this.number; this.said = {}; }
    for (const name of NAMES) this.stripe(name);
    for (const name of Object.keys(this.said)) this.shown(name);
  }

  /** Shows a verdict: in the strip and the picture, the run, or the elements that failures cut off. */
  shown(name) {
    if (name === "run") {
      if (this.said.run.fault) this.tell(this.said.run.fault, true); else this.fetchRun(this.number);
      return;
    }
    if (NAMES.includes(name)) this.stripe(name);
    if (this.picture) this.paint();
  }

  stripe(name) {
    const [state, words, premise] = verdictWords(name, this.said[name], this.network.elements.length);
    part(name).textContent = words;
    part(name).dataset.state = state;
    part(name).title = premise ?? "";
  }

  async fetchRun(number) {
    if (this.isMap) return;
    try {
      const found = await got(`/run?on=${number}${this.region === null ? "" : `&region=${this.region}`}`);
      if (found.number !== this.number) return;
      this.stand(found.changes, found.events, found.until, found);
      this.runOf = found.number;
    } catch (fault) { if (fault.status !== 404) this.tell(fault.message, true); }
  }

  /** Stands at a run, at its end, or where one stood before. */
  stand(changes, events, until, found) {
    const before = this.run, isAtEnd = !before || before.moment === before.moments.length - 1;
    this.run = new Run(this.network, changes, events, until);
    if (this.isMap) this.run.isFed = () => true;
    part("slider").max = this.run.moments.length - 1;
    this.list.fill(this.run, this.start);
    const rest = !found ? "" : found.stopped !== null ? "stopped: more than 200,000 changes" : found.settled ? "settled" : "not settled";
    part("rest").textContent = found?.left ? `${rest}; ${plural(found.left, "later change")} not shown` : rest;
    const same = isAtEnd ? -1 : this.run.moments.findLastIndex(at => at <= before.at);
    this.goTo(same < 0 ? this.run.moments.length - 1 : same);
    this.show();
  }

  goTo(moment) {
    this.run.goTo(moment);
    const text = clock(this.run.at, this.start);
    part("slider").value = this.run.moment;
    part("slider").setAttribute("aria-valuetext", text);
    part("time").textContent = text;
    if (document.activeElement !== part("at")) part("at").value = text;
    this.paint();
    this.list.follow();
    this.updateRows();
    this.panel.tell(this.thing);
    this.askWhy();
  }

  /** What the picture shows besides the run. */
  mark() {
    const names = this.lineNumbers, place = this.elementNumbers;
    const numbers = (list, map) => new Set(list.map(name => map.get(name)).filter(number => number !== undefined));
    const gap = this.gapShown?.on === this.number ? this.gapShown : null;
    this.picture.marks = {
      ring: numbers(this.said.loop?.ring ?? this.said.agree?.clash ?? [], names),
      words: this.said.loop?.ring ? "may LOOP" : "may oscillate",
      cut: this.isMap ? this.cutRegions() : numbers(this.cutNames(), place),
      now: this.isMap ? new Set() : numbers(gap?.elements ?? [], place),
      failed: gap ? {kind: gap.kind, name: gap.name} : null,
      changes: new Map((this.proposal?.rows ?? []).map(([name, , value]) => [name, value])),
      link: this.thing?.kind === "link" ? this.thing.name : null,
      source: this.thing?.kind === "source" ? this.network.sources.findIndex(one => one.name === this.thing.name) : -1,
    };
  }

  /** The elements that failures cut off: all of them, and the first of each failure until the server has found all. */
  cutNames() {
    return this.said.cut?.elements ?? (this.said.protected?.gaps ?? []).map(([, , , first]) => first);
  }

  /** The boxes of the map whose regions have elements that failures cut off. */
  cutRegions() {
    const cut = new Set(this.said.cut?.regions ?? []);
    return new Set(this.network.regions.map(([region], place) => cut.has(region) ? place : -1).filter(place => place >= 0));
  }

  /** Whether the network that is shown has a thing. */
  isThere({kind, name}) {
    const {elements, lines, sources} = this.network;
    if (kind === "link") return lines.some(one => one.link === name);
    return (kind === "element" ? elements : sources).some(one => one.name === name);
  }

  /** The number of the selected element, or -1. */
  get selected() {
    return this.thing?.kind === "element" ? this.elementNumbers.get(this.thing.name) ?? -1 : -1;
  }

  /** Paints with the next frame, however often it is asked. */
  paint() {
    if (this.isPainting) return;
    this.isPainting = true;
    requestAnimationFrame(() => {
      this.isPainting = false;
      const start = performance.now();
      this.mark();
      this.picture.draw(this.run, this.selected);
      this.frame = performance.now() - start;
    });
  }

  show() {
    this.panel.show(this.thing);
    this.paint();
  }

  /** Selects an element, a link or a source, or nothing. */
  select(thing) {
    if (this.isMap && thing) { this.open(thing); return; }
    this.thing = thing;
    this.gapShown = null;
    if (thing?.kind === "element" && this.selected >= 0) this.picture.reveal(this.selected);
    for (const row of document.querySelectorAll("tr[data-name]")) row.classList.toggle("selected", thing !== null && row.dataset.name === `${thing.kind} ${thing.name}`);
    this.show();
    this.askWhy();
  }

  /** Opens the region that a box of the map stands for, or in which an element lies. */
  async open(thing) {
    const place = this.network.elements.findIndex(one => one.name === thing.name);
    if (thing.kind !== "element" || place < 0) return;
    this.region = this.network.regions[place][0];
    this.thing = null;
    await this.load();
  }

  async find(name) {
    const {region} = await posted("/find", {name});
    this.region = region;
    await this.load();
    this.select({kind: "element", name});
  }

  thingOf(hit) {
    if (!hit) return null;
    if (hit.kind === "element") return {kind: "element", name: this.network.elements[hit.number].name};
    if (hit.kind === "source") return {kind: "source", name: this.network.sources[hit.number].name};
    return {kind: "link", name: this.network.lines[hit.number].link};
  }

  /** Asks the server to do something; what it refuses is told. */
  async ask(path, data) {
    this.asked = performance.now();
    try {
      return await posted(path, {on: this.number, ...data});
    } catch (fault) {
      if (fault.status === 409) this.dialogs.conflict(fault.since, () => this.ask(path, data));
      this.tell(fault.message, true);
      this.show();
      return null;
    }
  }

  edit(edit, place) { return this.ask("/edit", {edit, place}); }

  /** Lets something happen at the time that is asked for. */
  happen(rows, by = "") {
    const at = millisecond(part("at").value, this.start);
    if (at === null) { this.tell("at: it is no time of the run, as 60000, 20m or 00:05:00", true); return null; }
    return this.edit({kind: "events", at, rows, by});
  }

  /** Lets a thing fail, or mends it where it is down. */
  failOrMend(thing) {
    const what = isDown(this.run, thing) ? "up" : "down";
    const words = thing.kind === "element" ? `element ${thing.name} ${what === "up" ? "is back" : "fails"}` : "";
    return this.happen(failing(this.network, thing, what), words);
  }

  /** Has a command say what it would change. */
  async propose(by) {
    this.proposal = null;
    part("proposal").hidden = true;
    if (!by) return;
    this.tell(`${by} works ..`);
    const found = await this.ask("/propose", {by});
    this.asked = null;
    if (found && found.on === this.number) this.showProposal(by, found.sets, 0);
  }

  /** Shows one of the sets of priorities that a command found. */
  showProposal(by, sets, place) {
    const found = this.proposal = sets[place], many = sets.length > 1 ? ` (${place + 1} of ${sets.length})` : "";
    part("proposal-head").textContent = `What ${by} would change${many}`;
    part("proposal-said").replaceChildren(...found.said.map(words => made("p", "", words)));
    const row = ([name, old, value]) => made("li", "", `${name}: ${value || "none"}, which was ${old || "none"}`);
    part("proposal-rows").replaceChildren(...found.rows.map(row));
    part("take").disabled = !found.rows.length;
    part("other").hidden = sets.length < 2;
    part("other").onclick = () => this.showProposal(by, sets, (place + 1) % sets.length);
    part("proposal").hidden = false;
    part("proposal").focus();
    this.tell(found.said[0]);
    this.show();
  }

  async takeProposal() {
    const edit = this.proposal.edit;
    this.propose(null);
    await this.edit(edit);
  }

  /** Asks why the selected element takes what it takes now, where that is open. */
  askWhy() {
    clearTimeout(this.whyTimer);
    if (!part("why-part").open) return;
    if (this.thing?.kind !== "element") { part("why").textContent = "Select an element."; return; }
    const asked = {on: this.number, element: this.thing.name, at: this.run.at};
    this.whyTimer = setTimeout(async () => {
      try { part("why").textContent = (await posted("/why", asked)).text.join("\n"); }
      catch (fault) { part("why").textContent = fault.message; }
    }, 150);
  }

  tell(words, isWrong = false) {
    part("said").textContent = words;
    part("said").classList.toggle("loop", isWrong);
  }

  lost() {
    document.body.dataset.ready = "no";
    this.tell("The server doesn't answer. Nothing is lost: what was done is in the draft. Start `murdjohe desk` again, and open the address that it prints.", true);
  }

  /** What the colours of levels mean. */
  fillKeys() {
    for (const node of document.querySelectorAll("#keys .level")) node.remove();
    const keys = this.network.levels.filter(level => level.isUsed && !this.isMap).map(level => {
      const key = made("span", "key level", level.name);
      key.style.background = level.colour;
      key.style.color = level.ink;
      return key;
    });
    part("keys").prepend(...keys);
  }

  fillEvents(events) {
    part("drop-events").hidden = !events.length;
    part("events").replaceChildren(...events.map(event => {
      const row = made("li", "", `${clock(event.at, this.start)} ${event.text} `), drop = row.appendChild(made("button", "", "drop"));
      drop.setAttribute("aria-label", `drop ${event.text}`);
      drop.addEventListener("click", () => this.edit({kind: "drop-event", number: event.number}));
      return row;
    }));
  }

  /** Fills the tables: at once, or those of a large plan once nothing changes for a while. */
  fillTablesLater() {
    clearTimeout(this.tablesTimer);
    if (this.network.elements.length <= SMALL) this.fillTables(); else this.tablesTimer = setTimeout(() => this.fillTables(), 600);
  }

  /** The tables of elements, links and sources, as far as their names pass the filter. */
  fillTables() {
    const filter = part("filter").value.trim().toLowerCase(), inputs = inputsOf(this.network);
    const fits = name => name.toLowerCase().includes(filter);
    const elements = this.network.elements.map((element, number) => [element, number]).filter(([element]) => fits(element.name));
    this.rows = elements.slice(0, MOST_ROWS).map(([element, number]) => this.elementRow(element, number, inputs[number]));
    part("elements").replaceChildren(...this.rows.map(([row]) => row));
    const links = new Map();
    for (const line of this.network.lines) if (fits(line.link)) links.set(line.link, [...(links.get(line.link) ?? []), line]);
    const rows = [...links].slice(0, MOST_ROWS).map(([name, lines]) => this.linkRow(name, lines));
    const sources = this.network.sources.filter(one => fits(one.name)).slice(0, MOST_ROWS).map(one => this.sourceRow(one));
    part("links").replaceChildren(...sources, ...rows);
    this.updateRows();
  }

  row(kind, name, cells) {
    const row = made("tr"), button = row.appendChild(made("td")).appendChild(made("button", "name", name));
    row.dataset.name = `${kind} ${name}`;
    button.addEventListener("click", () => this.select({kind, name}));
    for (const text of cells) row.append(made("td", "", text));
    return row;
  }

  elementRow(element, number, inputs) {
    const said = inputs.filter(one => one.priority).map(one => `${one.name} ${one.priority}`).join(", ");
    return [this.row("element", element.name, [" ", " ", this.isMap ? "" : said || "none"]), number];
  }

  linkRow(name, lines) {
    const names = this.network.elements.map(one => one.name), [first] = lines;
    const said = lines.map(line => `${line.priority || "none"} at ${names[line.receiver]}`).join(", ");
    return this.row("link", name, [names[first.sender], names[first.receiver], said]);
  }

  sourceRow(source) {
    return this.row("source", source.name, [this.network.levels[source.level].name, this.network.elements[source.at].name, String(source.priority || "none")]);
  }

  /** Writes into the table of elements what each shows now. */
  updateRows() {
    if (!this.rows || this.isMap) return;
    for (const [row, number] of this.rows) {
      const level = this.network.levels[this.run.level[number]], [, shown, input] = row.children;
      shown.textContent = `${level.name}${this.run.isFed(number) ? "" : ", no source"}`;
      shown.style.background = level.colour;
      shown.style.color = level.ink;
      input.textContent = this.run.inputName(this.run.input[number]);
    }
  }

  colour(isLight = false) {
    this.picture.colour(!isLight && matchMedia("(prefers-color-scheme: dark)").matches);
  }

  listen() {
    for (const by of ["nominate", "protect", "repair"]) part(by).addEventListener("click", () => this.propose(by));
    part("undo").addEventListener("click", () => this.ask("/undo", {}));
    part("redo").addEventListener("click", () => this.ask("/redo", {}));
    part("take").addEventListener("click", () => this.takeProposal());
    part("leave").addEventListener("click", () => { this.propose(null); this.show(); });
    part("drop-events").addEventListener("click", () => this.edit({kind: "drop-events"}));
    part("all-regions").addEventListener("click", () => { this.region = null; this.thing = null; this.load(); });
    part("why-part").addEventListener("toggle", () => this.askWhy());
    part("filter").addEventListener("change", () => this.filtered());
    part("protected").addEventListener("click", () => this.showGap());
    part("loop").addEventListener("click", () => this.showRing());
    part("agree").addEventListener("click", () => this.showClash());
    part("slider").addEventListener("input", event => this.goTo(Number(event.target.value)));
    part("earlier").addEventListener("click", () => this.goTo(this.run.moment - 1));
    part("later").addEventListener("click", () => this.goTo(this.run.moment + 1));
    for (const radio of document.querySelectorAll("[name=clicks]")) radio.addEventListener("change", () => part("picture").classList.toggle("fails", this.isFailing));
    document.addEventListener("keydown", event => this.key(event));
    window.addEventListener("resize", () => { this.picture.resize(); this.picture.baseKey = null; this.paint(); });
    window.addEventListener("beforeprint", () => this.printed(true));
    window.addEventListener("afterprint", () => this.printed(false));
    matchMedia("(prefers-color-scheme: dark)").addEventListener("change", () => { this.colour(); this.paint(); });
    this.listenToPicture(part("picture"));
    this.listenToBadge(part("badge"));
  }

  printed(isLight) {
    this.colour(isLight);
    this.mark();
    this.picture.draw(this.run, this.selected);
  }

  async filtered() {
    const name = part("filter").value.trim();
    if (this.isMap && name) {
      try { await this.find(name); } catch (fault) { this.tell(fault.message, true); }
    } else this.fillTables();
  }

  /** Shows the next failure that cuts elements off, and all of these; the first of them is selected. */
  async showGap() {
    const {gaps = [], count} = this.said.protected ?? {}, on = this.number;
    if (!gaps.length) return;
    const place = this.gap = ((this.gap ?? -1) + 1) % gaps.length, gap = gaps[place], [kind, name, , first] = gap;
    if (!this.isMap && this.elementNumbers.has(first)) this.select({kind: "element", name: first});
    const which = ` (${place + 1} of ${gaps.length < count ? `the first ${gaps.length} of ` : ""}${count.toLocaleString("en")})`;
    this.tell(gapWords(gap) + which);
    try {
      const {elements} = await posted("/gap", {on, place});
      if (on !== this.number || place !== this.gap) return;
      this.gapShown = {on, kind, name, elements};
      this.tell(gapWords(gap, elements) + which);
      this.paint();
    } catch (fault) { if (on === this.number) this.tell(fault.message, true); }
  }

  /** Selects the first link of the ring. */
  showRing() {
    const [line] = this.said.loop?.ring ?? [];
    if (line) this.select({kind: "link", name: line.split(">")[0]});
  }

  /** Selects the first link of those that may oscillate, and says what ends it. */
  showClash() {
    const {clash, remedy} = this.said.agree ?? {};
    if (!clash) return;
    this.select({kind: "link", name: clash[0].split(">")[0]});
    this.tell(remedy);
  }

  get isFailing() { return document.querySelector("[name=clicks]:checked").value === "fail"; }

  key(event) {
    const isText = ["INPUT", "SELECT", "TEXTAREA"].includes(event.target.tagName) && event.target.type !== "radio";
    if ((event.ctrlKey || event.metaKey) && !isText && event.key.toLowerCase() === "z") { this.ask(event.shiftKey ? "/redo" : "/undo", {}); event.preventDefault(); return; }
    if ((event.ctrlKey || event.metaKey) && !isText && event.key.toLowerCase() === "y") { this.ask("/redo", {}); event.preventDefault(); return; }
    if (event.ctrlKey || event.altKey || event.metaKey || event.target !== part("picture")) return;
    const ways = {ArrowLeft: [-1, 0], ArrowRight: [1, 0], ArrowUp: [0, -1], ArrowDown: [0, 1]}, zooms = {"+": 1.3, "-": 1 / 1.3};
    if (event.key in ways) { this.move(...ways[event.key]); event.preventDefault(); }
    if (event.key === "Enter") (part("form").querySelector("input, select") ?? part("filter")).focus();
    if (event.key === "Escape") this.select(null);
    if (event.key === "f" && this.thing) this.failOrMend(this.thing);
    if (event.key in zooms) { this.picture.zoomBy(zooms[event.key], this.picture.width / 2, this.picture.height / 2); this.paint(); }
    if (event.key === "0") { this.picture.view = {x: 0, y: 0, zoom: 1}; this.paint(); }
  }

  /** Selects the nearest element in a direction. */
  move(across, up) {
    if (!this.network.elements.length) return;
    const number = this.selected < 0 ? 0 : this.picture.besides(this.selected, across, up);
    if (number >= 0 && !this.isMap) this.select(this.thingOf({kind: "element", number}));
  }

  /** What a click on the picture does. */
  click(x, y) {
    const hit = this.picture.hitAt(x, y);
    if (!hit) this.dialogs.spot = this.picture.sheetAt(x, y);
    if (hit?.kind === "badge" && !this.isFailing) { this.openBadge(hit.number); return; }
    const thing = this.thingOf(hit);
    if (thing && this.isFailing) this.failOrMend(thing);
    this.select(thing);
  }

  /** Edits a priority where it stands. */
  openBadge(number) {
    const line = this.network.lines[number], input = part("badge"), [x, y] = this.picture.badgeSpot(number);
    this.select({kind: "link", name: line.link});
    input.hidden = false;
    input.value = line.priority;
    input.setAttribute("aria-label", `Priority of ${line.name}`);
    input.style.left = `${Math.max(0, Math.min(x - 30, this.picture.width - 80))}px`;
    input.style.top = `${Math.max(0, y - 14)}px`;
    input.dataset.line = line.name;
    input.focus();
    input.select();
  }

  listenToBadge(input) {
    const close = () => { input.hidden = true; part("picture").focus(); };
    input.addEventListener("keydown", event => {
      if (event.key === "Escape") close();
      if (event.key !== "Enter") return;
      const line = this.network.lines.find(one => one.name === input.dataset.line), value = Number(input.value);
      close();
      if (line && value !== line.priority) this.edit({kind: "value", section: "link", name: line.link, key: line.key, value});
    });
    input.addEventListener("blur", () => { input.hidden = true; });
  }

  listenToPicture(canvas) {
    let grip = null, moved = false;
    canvas.addEventListener("click", event => { if (!moved) this.click(event.offsetX, event.offsetY); });
    canvas.addEventListener("wheel", event => {
      event.preventDefault();
      this.picture.zoomBy(event.deltaY < 0 ? 1.15 : 1 / 1.15, event.offsetX, event.offsetY);
      this.paint();
    }, {passive: false});
    canvas.addEventListener("pointerdown", event => { grip = [event.offsetX, event.offsetY]; moved = false; });
    window.addEventListener("pointerup", () => { grip = null; });
    canvas.addEventListener("pointermove", event => {
      if (!grip) { this.hover(canvas, event); return; }
      const [x, y] = [event.offsetX - grip[0], event.offsetY - grip[1]];
      if (!moved && Math.hypot(x, y) <= 4) return;
      moved = true;
      grip = [event.offsetX, event.offsetY];
      this.picture.view = {...this.picture.view, x: this.picture.view.x + x, y: this.picture.view.y + y};
      this.paint();
    });
  }

  hover(canvas, event) {
    const thing = this.picture?.spots ? this.thingOf(this.picture.hitAt(event.offsetX, event.offsetY)) : null;
    const number = thing?.kind === "element" ? this.network.elements.findIndex(one => one.name === thing.name) : -1;
    canvas.title = number >= 0 && !this.isMap ? this.run.sentence(number) : thing ? `${thing.kind} ${thing.name}` : "";
  }
}

window.desk = new Desk();
