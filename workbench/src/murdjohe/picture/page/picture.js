// The network on a canvas: boxes coloured by level, what is taken as thick arrows, closed walks in red, cuts dashed.

const BLUE = "#0050d0", PAPER = "#ffffffd0";  // (all other colours come with the data)

/** A pattern of strokes for those who follow no source. */
function hatchOf(context, ink) {
  const tile = document.createElement("canvas");
  tile.width = tile.height = 7;
  const pen = tile.getContext("2d");
  pen.strokeStyle = ink;
  pen.lineWidth = 1.2;
  pen.beginPath();
  for (const shift of [-7, 0, 7]) { pen.moveTo(shift, 7); pen.lineTo(shift + 7, 0); }
  pen.stroke();
  return context.createPattern(tile, "repeat");
}

export class Picture {
  constructor(canvas, network) {
    this.canvas = canvas;
    this.context = canvas.getContext("2d");
    this.network = network;
    this.signs = network.signs;
    this.hatches = {"#000000": hatchOf(this.context, this.signs.dark), "#FFFFFF": hatchOf(this.context, "#ffffff")};
    this.view = {x: 0, y: 0, zoom: 1};
    this.box = network.box;
    this.cables = this.cablesOf();
    this.resize();
  }

  /** The lines of each bundle, so that a bundle is drawn as one cable. */
  cablesOf() {
    const found = new Map();
    this.network.lines.forEach((line, number) => {
      if (!found.has(line.bundle)) found.set(line.bundle, {lines: [], sender: line.sender, receiver: line.receiver, way: line.way ?? []});
      found.get(line.bundle).lines.push(number);
    });
    return [...found.values()];
  }

  /** Takes the size of the canvas from the page, for the dots of its screen. */
  resize() {
    const dots = window.devicePixelRatio || 1, frame = this.canvas.getBoundingClientRect();
    this.width = frame.width || 800;
    this.height = frame.height || 500;
    this.canvas.width = Math.round(this.width * dots);
    this.canvas.height = Math.round(this.height * dots);
    this.dots = dots;
    const room = 16;
    this.across = (this.width - 2 * room) / this.network.width;
    this.up = (this.height - 2 * room) / this.network.height;
    this.across = Math.min(this.across, this.up * 1.7);
    this.up = Math.min(this.up, this.across * 1.7);
    this.left = (this.width - this.network.width * this.across) / 2;
    this.low = (this.height - this.network.height * this.up) / 2;
  }

  /** Where a thing of the plan stands on the canvas. */
  spot(thing) {
    const {x, y, zoom} = this.view;
    return [(this.left + thing.x * this.across) * zoom + x, (this.height - this.low - thing.y * this.up) * zoom + y];
  }

  get boxSize() {
    const scale = Math.min(this.across, this.up) * this.view.zoom * this.network.scale;
    return [Math.min(this.box[0] * scale, 150), Math.min(this.box[1] * scale, 60)];
  }

  /** Zooms by a factor about a point of the canvas. */
  zoomBy(factor, x, y) {
    const zoom = Math.max(0.5, Math.min(60, this.view.zoom * factor)), by = zoom / this.view.zoom;
    this.view = {x: x - (x - this.view.x) * by, y: y - (y - this.view.y) * by, zoom};
  }

  /** The element at a point of the canvas, or -1. */
  elementAt(x, y) {
    const [width, height] = this.boxSize.map(side => Math.max(side, 8));
    return this.network.elements.findIndex(element => {
      const [u, v] = this.spot(element);
      return Math.abs(u - x) <= width / 2 && Math.abs(v - y) <= height / 2;
    });
  }

  /** Draws a run at its moment; the way of the selected element is blue. */
  draw(run, selected) {
    const pen = this.context;
    this.drawBase();
    pen.setTransform(1, 0, 0, 1, 0, 0);
    pen.drawImage(this.base, 0, 0);
    pen.setTransform(this.dots, 0, 0, this.dots, 0, 0);
    const way = new Set(selected < 0 ? [] : run.wayOf(selected).lines);
    this.strokes = new Map();
    this.heads = new Map();
    this.words = [];
    for (const cable of this.cables) this.addCable(run, cable, way);
    this.network.sources.forEach((source, number) => this.addSourceArrow(run, source, number));
    this.drawStrokes();
    this.network.sources.forEach((source, number) => this.drawSource(run, source, number));
    this.drawBoxes(run, selected);
    for (const words of this.words) this.text(...words);
  }

  /** Draws the cables as they are in every moment to a canvas that is kept, as long as the view is the same. */
  drawBase() {
    const key = JSON.stringify([this.view, this.canvas.width, this.canvas.height]);
    if (this.baseKey === key) return;
    this.baseKey = key;
    this.base = document.createElement("canvas");
    this.base.width = this.canvas.width;
    this.base.height = this.canvas.height;
    const pen = this.base.getContext("2d");
    pen.setTransform(this.dots, 0, 0, this.dots, 0, 0);
    pen.fillStyle = "#ffffff";
    pen.fillRect(0, 0, this.width, this.height);
    this.size = this.boxSize;
    this.thick = Math.min(2.2, 1.05 + this.size[1] / 12);
    this.spots = this.network.elements.map(element => this.spot(element));
    this.strokes = new Map();
    this.heads = new Map();
    for (const cable of this.cables) {
      const a = this.spots[cable.sender], b = this.spots[cable.receiver];
      cable.path = this.pathOf(cable, a, b);
      if (cable.lines.length > 2) this.stroke(cable.path, this.signs.pale, 8, []);
      const isWanted = cable.lines.some(line => this.network.lines[line].priority);
      this.stroke(cable.path, isWanted ? this.signs.grey : this.signs.pale, 1, []);
    }
    this.drawStrokes(pen);
  }

  /** Draws all strokes of one look at once, and then all heads of arrows. */
  drawStrokes(pen = this.context) {
    for (const {colour, width, dashes, ways} of this.strokes.values()) {
      pen.setLineDash(dashes);
      pen.strokeStyle = colour;
      pen.lineWidth = width;
      pen.beginPath();
      for (const [from, ...rest] of ways) { pen.moveTo(from[0], from[1]); for (const to of rest) pen.lineTo(to[0], to[1]); }
      pen.stroke();
    }
    pen.setLineDash([]);
    for (const [colour, heads] of this.heads) {
      pen.fillStyle = colour;
      pen.beginPath();
      for (const [to, left, right] of heads) {
        pen.moveTo(to[0], to[1]);
        pen.lineTo(left[0], left[1]);
        pen.lineTo(right[0], right[1]);
      }
      pen.fill();
    }
  }

  /** Where the way from one point to another leaves a box about the first. */
  leaving([x, y], [u, v]) {
    const [width, height] = this.size, across = u - x, up = v - y;
    const side = (half, way) => way ? (half + 1) / Math.abs(way) : 9;
    const share = Math.min(side(width / 2, across), side(height / 2, up), 0.45);
    return [x + across * share, y + up * share];
  }

  /** The points of a cable between two boxes: beside those that a straight one would go behind. */
  pathOf(cable, a, b) {
    const [width, height] = this.size, within = ([x, y], [u, v]) => Math.abs(x - u) <= width / 2 + 2 && Math.abs(y - v) <= height / 2 + 2;
    const inner = cable.way.map(([x, y]) => this.spot({x, y})).filter(point => !within(point, a) && !within(point, b));
    return [this.leaving(a, inner[0] ?? b), ...inner, this.leaving(b, inner.at(-1) ?? a)];
  }

  /** The point half way along a path. */
  middleOf(path) {
    let left = path.slice(1).reduce((sum, [x, y], place) => sum + Math.hypot(x - path[place][0], y - path[place][1]), 0) / 2;
    for (let place = 1; place < path.length; place++) {
      const [[x, y], [u, v]] = [path[place - 1], path[place]], length = Math.hypot(u - x, v - y) || 1;
      if (left <= length || place === path.length - 1) return [x + (u - x) * left / length, y + (v - y) * left / length];
      left -= length;
    }
  }

  addCable(run, cable, way) {
    const path = cable.path, lines = this.network.lines, middle = this.middleOf(path);
    const isDown = cable.lines.some(line => run.down.has(line));
    if (isDown) this.stroke(path, "#ffffff", 3, [3, 5]);
    for (const number of cable.lines) {
      const line = lines[number];
      const its = line.sender === cable.sender ? path : path.toReversed();
      if (run.closed.has(number)) this.addClosed(its, middle, run.closed.get(number));
      else if (run.input[line.receiver] === number && way.has(number)) this.arrow(its, BLUE, this.thick + 1.3);
      else if (run.input[line.receiver] === number) this.arrow(its, this.signs.dark, this.thick);
      else if (line.priority && this.size[1] > 9) this.arrow(its, this.signs.grey, 0.8);
    }
    if (isDown) this.words.push([...middle, "✕", 12, this.signs.dark, PAPER]);
    else if (this.size[1] > 22) {
      const first = lines[cable.lines[0]];
      const name = cable.lines.length > 2 ? `${first.bundleName}: ${cable.lines.length / 2} links` : first.link;
      this.words.push([...middle, name, 9, this.signs.grey, PAPER]);
    }
  }

  addClosed(path, middle, isPair) {
    const colour = isPair ? this.signs.pair : this.signs.loop;
    this.arrow(path, colour, 4);
    this.words.push([middle[0], middle[1] - 9, isPair ? "PAIR" : "LOOP", 11, colour, PAPER, true]);
  }

  /** Adds a stroke to those of its look. */
  stroke(path, colour, width, dashes) {
    const key = `${colour} ${width} ${dashes.length}`;
    if (!this.strokes.has(key)) this.strokes.set(key, {colour, width, dashes, ways: []});
    this.strokes.get(key).ways.push(path);
  }

  /** Adds an arrow: its stroke where it is thick, and its head. */
  arrow(path, colour, width) {
    const [from, to] = path.slice(-2);
    const across = to[0] - from[0], up = to[1] - from[1], length = Math.hypot(across, up) || 1;
    const size = Math.min(4 + width * 2, 4 + this.size[1] / 3), x = across / length * size, y = up / length * size;
    if (width > 1) this.stroke([...path.slice(0, -1), [to[0] - x * 0.7, to[1] - y * 0.7]], colour, width, []);
    if (!this.heads.has(colour)) this.heads.set(colour, []);
    const corner = side => [to[0] - x * 0.92 + side * y * 0.39, to[1] - y * 0.92 - side * x * 0.39];
    this.heads.get(colour).push([to, corner(-1), corner(1)]);
  }

  text(x, y, words, size, colour, paper, isBold) {
    const pen = this.context;
    pen.font = `${isBold ? "bold " : ""}${size}px sans-serif`;
    pen.textAlign = "center";
    pen.textBaseline = "middle";
    if (paper) {
      const width = pen.measureText(words).width;
      pen.fillStyle = paper;
      pen.fillRect(x - width / 2 - 1, y - size / 2, width + 2, size);
    }
    pen.fillStyle = colour;
    pen.fillText(words, x, y);
  }

  /** Draws all boxes, those of one colour at once, hatched where they follow no source. */
  drawBoxes(run, selected) {
    const pen = this.context, [width, height] = this.size, looks = new Map(), seen = [];
    this.spots.forEach(([x, y], number) => {
      if (x < -width || y < -height || x > this.width + width || y > this.height + height) return;
      const level = this.network.levels[run.level[number]];
      for (const look of run.isFed(number) ? [level.colour] : [level.colour, this.hatches[level.ink]]) {
        if (!looks.has(look)) looks.set(look, []);
        looks.get(look).push(number);
      }
      seen.push(number);
    });
    const rectangles = numbers => {
      pen.beginPath();
      for (const number of numbers) {
        const [x, y] = this.spots[number];
        pen.rect(x - width / 2, y - height / 2, width, height);
      }
    };
    const isHatch = ([look]) => typeof look !== "string", all = [...looks];
    for (const [look, numbers] of [...all.filter(one => !isHatch(one)), ...all.filter(isHatch)]) {
      pen.fillStyle = look;
      rectangles(numbers);
      pen.fill();
    }
    const chosen = seen.filter(number => number === selected);
    for (const [numbers, colour, stroke] of [[seen, this.signs.dark, 0.8], [chosen, BLUE, 3]]) {
      pen.strokeStyle = colour;
      pen.lineWidth = stroke;
      rectangles(numbers);
      pen.stroke();
    }
    if (height >= 7) for (const number of seen) this.drawNames(run, number);
  }

  drawNames(run, number) {
    const [x, y] = this.spots[number], [width, height] = this.size, element = this.network.elements[number];
    const level = this.network.levels[run.level[number]];
    const size = Math.min(height * 0.42, width / (0.62 * Math.max(element.name.length, 4)), 15);
    const paper = run.isFed(number) ? null : level.colour, isTall = height > 20;
    this.text(x, y - (isTall ? height * 0.2 : 0), element.name, size, level.ink, paper, true);
    if (isTall) this.text(x, y + height * 0.22, level.name, Math.min(size * 0.8, 11), level.ink, paper);
  }

  addSourceArrow(run, source, number) {
    const isTaken = run.input[source.at] === this.network.lines.length + number;
    const here = this.spot(source), there = this.spots[source.at];
    const [colour, width] = isTaken ? [this.signs.dark, this.thick] : [this.signs.grey, 0.8];
    if (source.priority) this.arrow([here, this.leaving(there, here)], colour, width);
  }

  drawSource(run, source, number) {
    const here = this.spot(source), pen = this.context;
    const [width, height] = this.size, input = this.network.lines.length + number;
    const isDown = run.down.has(input), isTaken = run.input[source.at] === input;
    const level = this.network.levels[isTaken ? run.level[source.at] : source.level];
    pen.fillStyle = level.colour;
    pen.strokeStyle = this.signs.dark;
    pen.setLineDash(isDown ? [4, 3] : []);
    pen.lineWidth = 1;
    pen.beginPath();
    pen.ellipse(here[0], here[1], width / 2, height / 2, 0, 0, Math.PI * 2);
    pen.fill();
    pen.stroke();
    pen.setLineDash([]);
    const size = Math.min(height * 0.4, width / (0.7 * Math.max(source.name.length, 4)), 13);
    if (height > 9) this.text(here[0], here[1], (isDown ? "✕ " : "") + source.name, size, level.ink);
  }
}
