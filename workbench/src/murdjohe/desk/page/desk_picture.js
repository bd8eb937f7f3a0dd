// The plan on a canvas: what the page of a run draws, and besides the priorities at the ends of links, possible loops, inputs that may
// oscillate and cut-off elements.
import { Picture } from "./picture.js";

const WHITE = "#ffffff", VEIL = "#ffffffd0", BLUE = "#0050d0";
const DARK = {paper: "#16181c", veil: "#16181cd0", blue: "#8ab4ff", dark: "#e8e8e8", grey: "#9a9a9a", pale: "#4d5157", loop: "#ff5c5c", cut: "#ff9d42"};
const LIGHT = {paper: WHITE, veil: VEIL, blue: BLUE, cut: "#e07000"};
const NEAR = 7;  // dots from a link that are still a click on it
const APART = 9;  // dots between links that join the same two elements
const BADGE = 8;  // the radius of a priority

/** How far a point is from a way, and which share of it is nearest. */
export function distance([x, y], [[a, b], [c, d]]) {
  const across = c - a, up = d - b, length = across * across + up * up || 1;
  const share = Math.max(0, Math.min(1, ((x - a) * across + (y - b) * up) / length));
  return Math.hypot(x - a - share * across, y - b - share * up);
}

export class DeskPicture extends Picture {
  constructor(canvas, network) {
    super(canvas, network);
    this.light = network.signs;
    this.marks = {ring: new Set(), words: "", cut: new Set(), now: new Set(), failed: null, changes: new Map(), link: null, source: -1};
    this.colour(false);
    this.shiftCables();
  }

  /** Takes the colours of a dark or a light screen. */
  colour(isDark) {
    this.tones = isDark ? DARK : LIGHT;
    this.signs = isDark ? {...this.light, dark: DARK.dark, grey: DARK.grey, pale: DARK.pale, loop: DARK.loop} : this.light;
    this.baseKey = null;
  }

  /** Links that join the same two elements stand side by side. */
  shiftCables() {
    const pairs = new Map();
    for (const cable of this.cables) {
      const key = [cable.sender, cable.receiver].sort((a, b) => a - b).join(" ");
      if (!pairs.has(key)) pairs.set(key, []);
      pairs.get(key).push(cable);
    }
    for (const together of pairs.values()) {
      together.forEach((cable, place) => {
        const side = cable.sender < cable.receiver ? 1 : -1;
        cable.shift = side * (place - (together.length - 1) / 2) * APART;
      });
    }
  }

  /** Where a cable runs from box to box. */
  wayOf(cable) {
    const a = this.spots[cable.sender], b = this.spots[cable.receiver];
    const across = b[0] - a[0], up = b[1] - a[1], length = Math.hypot(across, up) || 1;
    const [x, y] = [-up / length * cable.shift, across / length * cable.shift];
    const shifted = ([u, v]) => [u + x, v + y];
    return [shifted(this.leaving(a, b)), shifted(this.leaving(b, a))];
  }

  /** Draws the cables to a canvas that is kept as long as the view and the plan are the same. */
  drawBase() {
    const key = JSON.stringify([this.view, this.canvas.width, this.canvas.height]);
    if (this.baseKey === key) return;
    this.baseKey = key;
    this.base ??= document.createElement("canvas");
    this.base.width = this.canvas.width;
    this.base.height = this.canvas.height;
    const pen = this.base.getContext("2d");
    pen.setTransform(this.dots, 0, 0, this.dots, 0, 0);
    pen.fillStyle = this.tones.paper;
    pen.fillRect(0, 0, this.width, this.height);
    this.size = this.boxSize;
    this.thick = Math.min(2.2, 1.05 + this.size[1] / 12);
    this.spots = this.network.elements.map(element => this.spot(element));
    this.strokes = new Map();
    this.heads = new Map();
    for (const cable of this.cables) {
      [cable.start, cable.end] = cable.path = this.wayOf(cable);
      if (cable.lines.length > 2) this.stroke(cable.path, this.signs.pale, 8, []);
      const isWanted = cable.lines.some(line => this.network.lines[line].priority);
      this.stroke(cable.path, isWanted ? this.signs.grey : this.signs.pale, 1, []);
    }
    this.drawStrokes(pen);
  }

  stroke(path, colour, width, dashes) {
    const tone = colour === WHITE ? this.tones.paper : colour === BLUE ? this.tones.blue : colour;
    super.stroke(path, tone, width, dashes);
  }

  text(x, y, words, size, colour, paper, isBold) {
    super.text(x, y, words, size, colour, paper === VEIL ? this.tones.veil : paper, isBold);
  }

  addCable(run, cable, way) {
    const {start, end} = cable;
    if (this.isOutside(start, end)) return;
    if (!this.strokes.size) this.addHalo();
    super.addCable(run, cable, way);
    if (!this.marks.ring.size && !this.hasBadges) return;
    for (const number of cable.lines) {
      const line = this.network.lines[number];
      const [from, to] = line.sender === cable.sender ? [start, end] : [end, start];
      if (this.marks.ring.has(number)) {
        this.arrow([from, to], this.signs.loop, 4);
        if (number === this.labelled && this.size[1] > 9) this.words.push([(from[0] + to[0]) / 2, (from[1] + to[1]) / 2 - 11, this.marks.words, 11, this.signs.loop, VEIL, true]);
      }
      if (this.hasBadges) this.addBadge(number);
    }
  }

  /** The selected link, and the link or bundle whose failure is looked at, under all else that is drawn. */
  addHalo() {
    const {link, failed} = this.marks, lines = this.network.lines;
    for (const cable of link === null && !failed ? [] : this.cables) {
      if (link !== null && cable.lines.some(line => lines[line].link === link)) this.stroke(cable.path, this.tones.blue, 7, []);
      if (failed && cable.lines.some(line => failed.name === {link: lines[line].link, bundle: lines[line].bundleName}[failed.kind])) this.stroke(cable.path, this.tones.cut, 9, []);
    }
  }

  /** Whether a way lies beside the canvas. */
  isOutside([a, b], [c, d]) {
    const room = 40;
    return Math.max(a, c) < -room || Math.min(a, c) > this.width + room || Math.max(b, d) < -room || Math.min(b, d) > this.height + room;
  }

  /** Whether priorities are drawn: not where boxes are too small. */
  get hasBadges() { return !this.network.regions && this.size[1] > 13; }

  /** Where the priority of a line stands: near its end, those of a bundle one behind the other. */
  badgeSpot(number) {
    const line = this.network.lines[number];
    const cable = this.cableOf(line.bundle);
    const [to, from] = line.receiver === cable.receiver ? [cable.end, cable.start] : [cable.start, cable.end];
    const place = Math.floor(cable.lines.indexOf(number) / 2);
    const across = from[0] - to[0], up = from[1] - to[1], length = Math.hypot(across, up) || 1;
    const share = Math.min((15 + place * 17) / length, 0.45);
    return [to[0] + across * share, to[1] + up * share];
  }

  cableOf(bundle) {
    this.byBundle ??= new Map(this.cables.map(cable => [this.network.lines[cable.lines[0]].bundle, cable]));
    return this.byBundle.get(bundle);
  }

  addBadge(number) {
    const [x, y] = this.badgeSpot(number), priority = this.network.lines[number].priority;
    const change = this.marks.changes.get(this.network.lines[number].name);
    this.badges.push({x, y, number, words: change === undefined ? String(priority || "·") : `${priority || "·"}→${change || "·"}`, isNew: change !== undefined, priority});
  }

  draw(run, selected) {
    this.badges = [];
    this.labelled = this.longestOf(this.marks.ring);
    super.draw(run, selected);
    for (const badge of this.badges) this.drawBadge(badge);
    this.network.sources.forEach((source, number) => this.drawSourceBadge(source, number));
    for (const number of this.marks.cut) this.drawCut(number, this.marks.now.has(number));
    this.drawFailed();
  }

  /** The line of a ring between the two elements that are furthest apart, beside which there is room for words; -1 for none. */
  longestOf(ring) {
    let best = 0, found = -1;
    for (const number of ring) {
      const line = this.network.lines[number], a = this.spot(this.network.elements[line.sender]), b = this.spot(this.network.elements[line.receiver]);
      const length = Math.hypot(a[0] - b[0], a[1] - b[1]);
      if (length > best) { best = length; found = number; }
    }
    return found;
  }

  drawBadge({x, y, words, isNew, priority}) {
    const pen = this.context, half = Math.max(BADGE, words.length * 3.6 + 3);
    pen.beginPath();
    pen.roundRect(x - half, y - BADGE, 2 * half, 2 * BADGE, BADGE);
    pen.fillStyle = isNew ? this.tones.blue : this.tones.paper;
    pen.fill();
    pen.strokeStyle = isNew ? this.tones.blue : priority ? this.signs.dark : this.signs.pale;
    pen.lineWidth = 1;
    pen.stroke();
    this.text(x, y + 0.5, words, 11, isNew ? this.tones.paper : priority ? this.signs.dark : this.signs.grey, null, true);
  }

  /** Draws a ring round a source. */
  drawRound(source, colour) {
    const [x, y] = this.spot(source), [width, height] = this.size, pen = this.context;
    pen.strokeStyle = colour;
    pen.lineWidth = 3;
    pen.beginPath();
    pen.ellipse(x, y, width / 2 + 2, height / 2 + 2, 0, 0, Math.PI * 2);
    pen.stroke();
  }

  drawSourceBadge(source, number) {
    const [x, y] = this.spot(source), [width, height] = this.size;
    if (this.marks.source === number) this.drawRound(source, this.tones.blue);
    if (!this.hasBadges) return;
    const change = this.marks.changes.get(source.name);
    const words = change === undefined ? String(source.priority || "·") : `${source.priority || "·"}→${change || "·"}`;
    this.drawBadge({x: x + width / 2, y: y - height / 2, words, isNew: change !== undefined, priority: source.priority});
  }

  /** Draws that a failure cuts an element off: dashed, and whole by the failure that is looked at. */
  drawCut(number, isNow) {
    this.drawFrame(number, isNow ? [] : [5, 4], isNow ? 4 : 3);
  }

  drawFrame(number, dashes, thick) {
    const [x, y] = this.spots[number], [width, height] = this.size, pen = this.context;
    pen.setLineDash(dashes);
    pen.strokeStyle = this.tones.cut;
    pen.lineWidth = thick;
    pen.strokeRect(x - width / 2 - 4, y - height / 2 - 4, width + 8, height + 8);
    pen.setLineDash([]);
  }

  /** Draws the element or the source whose failure is looked at; a link or a bundle has its halo. */
  drawFailed() {
    const {kind, name} = this.marks.failed ?? {}, {elements, sources} = this.network;
    const source = kind === "source" ? sources.find(one => one.name === name) : undefined;
    if (source) this.drawRound(source, this.tones.cut);
    const place = kind === "element" ? elements.findIndex(one => one.name === name) : -1;
    if (place < 0) return;
    const [x, y] = this.spots[place], [width, height] = this.size, pen = this.context;
    pen.strokeStyle = this.tones.cut;
    pen.lineWidth = 4;
    for (const side of [1, -1]) {
      pen.beginPath();
      pen.moveTo(x - width / 2, y - side * height / 2);
      pen.lineTo(x + width / 2, y + side * height / 2);
      pen.stroke();
    }
  }

  /** What stands at a point of the canvas: a priority, an element, a source, a link, or nothing. */
  hitAt(x, y) {
    const badge = (this.badges ?? []).findLast(one => Math.hypot(one.x - x, one.y - y) <= BADGE + 2);
    if (badge) return {kind: "badge", number: badge.number};
    const element = this.elementAt(x, y);
    if (element >= 0) return {kind: "element", number: element};
    const [width, height] = this.boxSize.map(side => Math.max(side, 8));
    const source = this.network.sources.findIndex(one => {
      const [u, v] = this.spot(one);
      return Math.abs(u - x) <= width / 2 && Math.abs(v - y) <= height / 2;
    });
    if (source >= 0) return {kind: "source", number: source};
    let best = NEAR, found = null;
    for (const cable of this.cables) {
      const far = distance([x, y], [cable.start, cable.end]);
      if (far < best) { best = far; found = cable; }
    }
    return found ? {kind: "link", number: this.nearestLine(found, x, y)} : null;
  }

  /** The line of a cable whose end is nearer to a point. */
  nearestLine(cable, x, y) {
    const toEnd = Math.hypot(cable.end[0] - x, cable.end[1] - y) < Math.hypot(cable.start[0] - x, cable.start[1] - y);
    const wanted = toEnd ? cable.receiver : cable.sender;
    return cable.lines.find(line => this.network.lines[line].receiver === wanted) ?? cable.lines[0];
  }

  /** A place of the sheet at a point of the canvas. */
  sheetAt(px, py) {
    const {x, y, zoom} = this.view;
    return [((px - x) / zoom - this.left) / this.across, (this.height - this.low - (py - y) / zoom) / this.up];
  }

  /** Brings an element into the canvas. */
  reveal(number) {
    const [x, y] = this.spot(this.network.elements[number]);
    const isIn = x > 0 && y > 0 && x < this.width && y < this.height;
    if (!isIn) this.view = {...this.view, x: this.view.x + this.width / 2 - x, y: this.view.y + this.height / 2 - y};
  }

  /** The nearest element from one on in a direction, or -1. */
  besides(number, across, up) {
    const here = this.spot(this.network.elements[number]);
    let best = Infinity, found = -1;
    this.network.elements.forEach((element, other) => {
      const [x, y] = this.spot(element), along = (x - here[0]) * across + (y - here[1]) * up;
      const aside = Math.abs((x - here[0]) * up) + Math.abs((y - here[1]) * across);
      if (other !== number && along > 1 && along + 2 * aside < best) { best = along + 2 * aside; found = other; }
    });
    return found;
  }
}
