// A run of a network: what each element shows in a millisecond, whence it has its timing, and which walks are closed.
// Inputs are numbers: lines first, in the order of the plan, then sources; -1 is none.

// words: made of docs/rows.toml by docs/row_tables
export const MODES = ["auto", "forced", "manual"];
export const STATES = ["locked", "holdover", "freerun"];
export const ENDS = ["source", "own", "loop"];
// end
export const SOURCE = 0, OWN = 1, LOOP = 2;

/** The place of the last of some rising numbers that isn't above a limit; -1 where there is none. */
export function lastUpTo(numbers, limit) {
  let low = 0, high = numbers.length;
  while (low < high) {
    const middle = (low + high) >> 1;
    if (numbers[middle] <= limit) low = middle + 1; else high = middle;
  }
  return low - 1;
}

/** Milliseconds as hours, minutes and seconds, from a time of day on. */
export function clock(at, start = 0) {
  const time = (at + start) % 86400000;
  const two = number => String(number).padStart(2, "0");
  const rest = String(time % 1000).padStart(3, "0");
  const seconds = Math.floor(time / 1000);
  return `${two(Math.floor(seconds / 3600))}:${two(Math.floor(seconds / 60) % 60)}:${two(seconds % 60)}.${rest}`;
}

/** Whence each element has its timing: over how many lines, and where that ends. */
export function tracesOf(network, taken) {
  const count = network.elements.length;
  const kind = new Int8Array(count).fill(-1), end = new Int32Array(count), hops = new Int32Array(count);
  const met = new Int32Array(count).fill(-1);
  for (let first = 0; first < count; first++) {
    const way = [];
    let here = first;
    while (kind[here] < 0 && met[here] !== first && taken[here] >= 0 && taken[here] < network.lines.length) {
      met[here] = first;
      way.push(here);
      here = network.lines[taken[here]].sender;
    }
    if (kind[here] < 0 && met[here] === first) {
      const round = way.splice(way.indexOf(here));
      for (const one of round) { kind[one] = LOOP; end[one] = one; hops[one] = round.length; }
    } else if (kind[here] < 0) {
      kind[here] = taken[here] >= 0 ? SOURCE : OWN;
      end[here] = taken[here] >= 0 ? taken[here] - network.lines.length : here;
    }
    for (const one of way.reverse()) {
      const behind = network.lines[taken[one]].sender;
      kind[one] = kind[behind]; end[one] = end[behind]; hops[one] = hops[behind] + 1;
    }
  }
  return {kind, end, hops};
}

/** The lines of all closed walks, each with whether it is of a pair: two elements on one link or bundle. */
export function closedLines(network, taken, traces) {
  const found = new Map();
  for (let element = 0; element < network.elements.length; element++) {
    if (traces.kind[element] !== LOOP || traces.end[element] !== element) continue;
    const line = network.lines[taken[element]];
    const before = network.lines[taken[line.sender]];
    found.set(taken[element], traces.hops[element] === 2 && line.bundle === before.bundle);
  }
  return found;
}

/** A run of a network by its changes and events, which stands at one of its moments. */
export class Run {
  constructor(network, changes, events, until) {
    this.network = network;
    this.changes = changes;
    this.events = events;
    this.until = until;
    this.moments = [...new Set([0, ...changes.at, ...events.map(event => event.at), until])].sort((a, b) => a - b);
    this.before = this.changesBefore();
    const count = network.elements.length;
    this.mode = new Int8Array(count);
    this.input = new Int32Array(count).fill(-1);
    this.level = Int32Array.from(network.elements, element => element.own);
    this.state = new Int8Array(count).fill(2);
    this.place = -1;
    this.goTo(0);
  }

  /** For each change the one of its element before it, or -1. */
  changesBefore() {
    const last = new Int32Array(this.network.elements.length).fill(-1);
    return Int32Array.from(this.changes.at, (_, number) => {
      const element = this.changes.element[number], before = last[element];
      last[element] = number;
      return before;
    });
  }

  /** Lets an element show what a change says; what it shows at first for -1. */
  show(element, change) {
    const its = this.changes;
    this.mode[element] = change < 0 ? 0 : its.mode[change];
    this.input[element] = change < 0 ? -1 : its.input[change];
    this.level[element] = change < 0 ? this.network.elements[element].own : its.level[change];
    this.state[element] = change < 0 ? 2 : its.state[change];
  }

  /** Goes to a moment: changes up to it are applied, later ones taken back. */
  goTo(moment) {
    this.moment = Math.max(0, Math.min(moment, this.moments.length - 1));
    this.at = this.moments[this.moment];
    const wanted = lastUpTo(this.changes.at, this.at);
    while (this.place < wanted) { this.place++; this.show(this.changes.element[this.place], this.place); }
    while (this.place > wanted) {
      this.show(this.changes.element[this.place], this.before[this.place]);
      this.place--;
    }
    this.traces = tracesOf(this.network, this.input);
    this.closed = closedLines(this.network, this.input, this.traces);
    this.down = this.downNow();
  }

  /** The inputs that are down, by the events up to now. */
  downNow() {
    const down = new Set();
    for (const event of this.events) {
      if (event.at > this.at) break;
      for (const input of event.inputs) {
        if (event.what === "down") down.add(input);
        if (event.what === "up") down.delete(input);
      }
    }
    return down;
  }

  /** The name of an input. */
  inputName(input) {
    const {lines, sources} = this.network;
    if (input < 0) return "none";
    return input < lines.length ? lines[input].name : sources[input - lines.length].name;
  }

  /** Whether an element follows a source. */
  isFed(element) { return this.traces.kind[element] === SOURCE; }

  /** The way of an element's timing: its lines, and in words where they begin. */
  wayOf(element) {
    const lines = [];
    let here = element;
    const met = new Set();
    while (!met.has(here) && this.input[here] >= 0 && this.input[here] < this.network.lines.length) {
      met.add(here);
      lines.push(this.input[here]);
      here = this.network.lines[this.input[here]].sender;
    }
    if (met.has(here)) return {lines, end: `a timing loop through ${this.network.elements[here].name}`};
    if (this.input[here] < 0) return {lines, end: `the own clock of ${this.network.elements[here].name}`};
    return {lines, end: `the source ${this.inputName(this.input[here])}`};
  }

  /** What an element shows now, in a sentence. */
  sentence(element) {
    const its = this.network.elements[element];
    const mode = this.mode[element] ? `, ${MODES[this.mode[element]]} switch` : "";
    const input = this.input[element] < 0 ? "takes nothing" : `takes ${this.inputName(this.input[element])}`;
    const {lines, end} = this.wayOf(element);
    const way = lines.length ? `over ${lines.length} line${lines.length > 1 ? "s" : ""} from ${end}` : `from ${end}`;
    const level = this.network.levels[this.level[element]].name;
    return `${its.name}: ${level}, ${STATES[this.state[element]]}${mode}; ${input}, timing ${way}`;
  }
}
