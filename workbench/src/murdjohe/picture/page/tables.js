// The list of events and changes, the table of elements, and the table and map of cases.
import { STATES, clock, lastUpTo } from "./model.js";

const ROW = 22;  // the height of a row of the list, in dots

/** An element of the page with a class and a text. */
export function made(kind, className, text) {
  const node = document.createElement(kind);
  if (className) node.className = className;
  if (text !== undefined) node.textContent = text;
  return node;
}

/** Events and changes in one list; an event comes before what it does. */
export function rowsOf(run) {
  const rows = run.events.map(event => ({at: event.at, event}));
  for (let number = 0; number < run.changes.at.length; number++) rows.push({at: run.changes.at[number], change: number});
  const kept = rows.map((row, number) => [row, number]);
  kept.sort(([a, m], [b, n]) => a.at - b.at || (a.event ? 0 : 1) - (b.event ? 0 : 1) || m - n);
  return kept.map(([row]) => row);
}

/** A row of the list in words. */
export function rowText(run, row) {
  if (row.event) return `* ${row.event.text}`;
  const its = run.changes, number = row.change, names = run.network.elements;
  const level = run.network.levels[its.level[number]].name;
  return `${names[its.element[number]].name}: ${run.inputName(its.input[number])}, ${level}, ${STATES[its.state[number]]}`;
}

/** The list, of which only the rows that are seen are made, so that any number of them moves. */
export class List {
  constructor(frame, onMoment) {
    this.frame = frame;
    this.onMoment = onMoment;
    this.sheet = frame.appendChild(made("div", "sheet"));
    frame.addEventListener("scroll", () => this.paint());
    frame.addEventListener("click", event => {
      const row = event.target.closest("[data-at]");
      if (row) this.onMoment(Number(row.dataset.at));
    });
  }

  fill(run, start) {
    this.run = run;
    this.start = start;
    this.rows = rowsOf(run);
    this.times = this.rows.map(row => row.at);
    this.sheet.style.height = `${this.rows.length * ROW}px`;
  }

  /** Moves to what happens at the run's moment. */
  follow() {
    const last = lastUpTo(this.times, this.run.at), middle = (last + 0.5) * ROW - this.frame.clientHeight / 2;
    this.frame.scrollTop = Math.max(0, middle);
    this.paint();
  }

  paint() {
    const first = Math.max(0, Math.floor(this.frame.scrollTop / ROW) - 2);
    const count = Math.ceil(this.frame.clientHeight / ROW) + 4;
    const nodes = this.rows.slice(first, first + count).map((row, place) => {
      const node = made("div", "row", `${clock(row.at, this.start)}  ${rowText(this.run, row)}`);
      node.title = node.textContent;
      node.style.top = `${(first + place) * ROW}px`;
      node.dataset.at = row.at;
      if (row.event) node.classList.add(row.event.why ? "rejected" : "event");
      if (row.at === this.run.at) node.classList.add("now");
      return node;
    });
    this.sheet.replaceChildren(...nodes);
  }
}

/** The table of elements, with what each went without. */
export function elementRows(network, losses, start, onSelect) {
  const seconds = span => span ? `${(span / 1000).toFixed(3)} s` : "";
  return network.elements.map((element, number) => {
    const row = made("tr"), loss = losses[number];
    const cell = text => {
      const node = row.appendChild(made("td", "", text));
      node.setAttribute("role", "cell");
      return node;
    };
    row.setAttribute("role", "row");
    const name = cell();
    const button = name.appendChild(made("button", "name", element.name));
    button.addEventListener("click", () => onSelect(number));
    const worst = loss.below ? loss.worst : "", first = loss.since === null ? "" : clock(loss.since, start);
    for (const text of [" ", " ", loss.best, seconds(loss.below), worst, seconds(loss.unfed), first]) cell(text);
    if (loss.below || loss.unfed) row.classList.add("lost");
    return row;
  });
}

/** Writes what each element shows now into its row; only what is another than the row has is touched. */
export function updateElements(run, rows) {
  rows.forEach((row, number) => {
    const key = run.level[number] * 3 + run.state[number];
    if (row.shownKey === key && row.shownInput === run.input[number]) return;
    const level = run.network.levels[run.level[number]], [, shown, input] = row.children;
    shown.firstChild.data = `${level.name} ${STATES[run.state[number]]}`;
    shown.style.background = level.colour;
    shown.style.color = level.ink;
    input.firstChild.data = run.inputName(run.input[number]);
    row.shownKey = key;
    row.shownInput = run.input[number];
  });
}

/** A strip of a case: each element in the colour of its level at the end, red at its foot where it follows no source. */
export function drawStrip(canvas, network, ended) {
  const pen = canvas.getContext("2d"), count = network.elements.length, width = canvas.width / count;
  ended.level.forEach((level, number) => {
    pen.fillStyle = network.levels[level].colour;
    pen.fillRect(number * width, 0, Math.ceil(width), canvas.height);
    if (ended.fed[number]) return;
    pen.fillStyle = network.signs.loop;
    pen.fillRect(number * width, canvas.height - 4, Math.ceil(width), 4);
  });
}

/** The rows of the cases, each with a button that shows it and a strip of all elements. */
export function caseRows(network, cases, onCase) {
  return cases.map((one, number) => {
    const row = made("tr"), button = row.appendChild(made("td")).appendChild(made("button", "name", one.name));
    button.addEventListener("click", () => onCase(number, -1));
    for (const text of one.row) row.appendChild(made("td", "", text));
    const strip = row.appendChild(made("td", "strip")).appendChild(made("canvas"));
    strip.width = Math.max(300, Math.min(1000, network.elements.length * 12));
    strip.height = 16;
    const under = event => Math.floor(event.offsetX / strip.clientWidth * network.elements.length);
    strip.addEventListener("click", event => onCase(number, under(event)));
    strip.addEventListener("mousemove", event => {
      const number = under(event), element = network.elements[number];
      const fed = one.ended.fed[number] ? "" : ", no source";
      if (element) strip.title = `${element.name}: ${network.levels[one.ended.level[number]].name}${fed}`;
    });
    drawStrip(strip, network, one.ended);
    return row;
  });
}
