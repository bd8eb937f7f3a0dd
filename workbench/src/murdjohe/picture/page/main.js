// The page: a slider over the moments of a run, keys, the picture, the list, the tables and what is selected.
import { Run, clock } from "./model.js";
import { Picture } from "./picture.js";
import { List, caseRows, elementRows, made, updateElements } from "./tables.js";

/** The place in the document of a name. */
const part = name => document.getElementById(name);

const PRINTED = 60;  // elements that are printed even where they lost nothing

class Page {
  constructor(data) {
    this.data = data;
    this.network = data.network;
    this.selected = -1;
    this.main = new Run(this.network, data.changes, data.events, data.until);
    this.picture = new Picture(part("picture"), this.network);
    this.list = new List(part("list"), at => this.goTo(this.run.moments.indexOf(at)));
    this.rows = elementRows(this.network, data.losses, data.start, number => this.select(number));
    part("elements").replaceChildren(...this.rows);
    part("elements").classList.toggle("many", this.rows.length > PRINTED);
    const printed = data.events.slice(0, PRINTED * 5);
    const text = event => `${clock(event.at, data.start)}  ${event.text}`;
    part("events").replaceChildren(...printed.map(event => made("li", "", text(event))));
    this.fillSummary();
    this.fillCases();
    this.fillKeys();
    this.listen();
    this.show(this.main, data.title, data.first);
  }

  /** Shows a run: the works, or a case. */
  show(run, title, moment) {
    this.run = run;
    part("title").textContent = title;
    part("slider").max = run.moments.length - 1;
    this.list.fill(run, this.data.start);
    part("back").hidden = run === this.main;
    this.goTo(moment);
  }

  goTo(moment) {
    this.run.goTo(moment);
    const text = clock(this.run.at, this.data.start);
    part("slider").value = this.run.moment;
    part("slider").setAttribute("aria-valuetext", text);
    part("time").textContent = text;
    part("place").textContent = `moment ${this.run.moment + 1} of ${this.run.moments.length}`;
    this.paint();
    this.list.follow();
    updateElements(this.run, this.rows);
    this.tell();
  }

  paint() { this.picture.draw(this.run, this.selected); }

  /** Says what happens now, to the eye and to a screen reader. */
  tell() {
    const now = this.list.rows.filter(row => row.at === this.run.at);
    const events = now.filter(row => row.event).map(row => row.event.text);
    const changed = now.filter(row => row.change !== undefined).length;
    const loops = [...this.run.closed.values()].filter(isPair => !isPair).length;
    const unfed = this.network.elements.filter((_, number) => !this.run.isFed(number)).length;
    const words = [...events, changed ? `${changed} element${changed > 1 ? "s" : ""} changed` : "nothing changed"];
    if (loops) words.push("a TIMING LOOP stands");
    words.push(unfed ? `${unfed} follow no source` : "all follow a source");
    part("said").textContent = words.join("; ");
    part("said").classList.toggle("loop", loops > 0);
    this.tellChosen();
  }

  /** Says what the selected element shows, and the lines by which its timing comes. */
  tellChosen() {
    const none = "Nothing is selected: click an element, or its name in the table.";
    const lines = this.selected < 0 ? [] : this.run.wayOf(this.selected).lines;
    part("chosen").textContent = this.selected < 0 ? none : this.run.sentence(this.selected);
    part("way").replaceChildren(...lines.map(line => made("li", "", this.run.inputName(line))));
  }

  select(number) {
    this.selected = number;
    this.rows.forEach((row, place) => row.classList.toggle("selected", place === number));
    this.paint();
    this.tell();
  }

  /** Shows a case of a cut, at its end. */
  showCase(number, element) {
    const one = this.data.cases[number];
    this.run = one.run ??= new Run(this.network, one.changes, one.events, one.until);
    this.selected = element;
    this.show(one.run, `${one.name} down alone`, one.run.moments.length - 1);
    this.select(element);
    part("picture").scrollIntoView({block: "nearest"});
  }

  /** The worst moments of the works, each with a button that goes there. */
  fillSummary() {
    part("worst").replaceChildren(...this.data.summary.map(one => {
      const row = made("li", one.isBad ? "bad" : ""), button = row.appendChild(made("button", "name moment", one.time));
      button.addEventListener("click", () => this.show(this.main, this.data.title, this.main.moments.indexOf(one.at)));
      row.append(` ${one.text}`);
      return row;
    }));
  }

  fillCases() {
    part("cases-part").hidden = !this.data.cases.length;
    const rows = caseRows(this.network, this.data.cases, (number, element) => this.showCase(number, element));
    part("cases").replaceChildren(...rows);
  }

  /** What the colours mean. */
  fillKeys() {
    const keys = this.network.levels.filter(level => level.isUsed).map(level => {
      const key = made("span", "key", level.name);
      key.style.background = level.colour;
      key.style.color = level.ink;
      return key;
    });
    part("keys").prepend(...keys);
  }

  listen() {
    part("slider").addEventListener("input", event => this.goTo(Number(event.target.value)));
    part("back").addEventListener("click", () => this.show(this.main, this.data.title, this.data.first));
    part("earlier").addEventListener("click", () => this.goTo(this.run.moment - 1));
    part("later").addEventListener("click", () => this.goTo(this.run.moment + 1));
    document.addEventListener("keydown", event => this.key(event));
    this.listenToPicture(part("picture"));
    window.addEventListener("resize", () => { this.picture.resize(); this.paint(); });
    window.addEventListener("beforeprint", () => this.paint());
  }

  key(event) {
    if (event.ctrlKey || event.altKey || event.metaKey || event.target.id === "slider") return;
    const last = this.run.moments.length - 1;
    const steps = {ArrowLeft: -1, ArrowRight: 1, Home: -last, End: last};
    if (event.key in steps) { this.goTo(this.run.moment + steps[event.key]); event.preventDefault(); }
    if (event.key === "Escape") this.select(-1);
    const zooms = {"+": 1.3, "-": 1 / 1.3};
    if (event.key in zooms) this.picture.zoomBy(zooms[event.key], this.picture.width / 2, this.picture.height / 2);
    if (event.key === "0") this.picture.view = {x: 0, y: 0, zoom: 1};
    if (event.key in zooms || event.key === "0") this.paint();
  }

  listenToPicture(canvas) {
    let grip = null;
    canvas.addEventListener("click", event => {
      if (!this.moved) this.select(this.picture.elementAt(event.offsetX, event.offsetY));
    });
    canvas.addEventListener("wheel", event => {
      event.preventDefault();
      this.picture.zoomBy(event.deltaY < 0 ? 1.15 : 1 / 1.15, event.offsetX, event.offsetY);
      this.paint();
    }, {passive: false});
    canvas.addEventListener("pointerdown", event => {
      grip = [event.offsetX, event.offsetY];
      this.moved = false;
    });
    canvas.addEventListener("pointerup", () => { grip = null; });
    canvas.addEventListener("pointermove", event => {
      if (grip) {
        const [x, y] = [event.offsetX - grip[0], event.offsetY - grip[1]];
        if (this.moved || Math.hypot(x, y) > 4) {
          this.moved = true;
          grip = [event.offsetX, event.offsetY];
          this.picture.view = {...this.picture.view, x: this.picture.view.x + x, y: this.picture.view.y + y};
          this.paint();
        }
      }
      const over = this.picture.elementAt(event.offsetX, event.offsetY);
      canvas.title = over < 0 ? "" : this.run.sentence(over);
    });
  }
}

window.page = new Page(JSON.parse(part("data").textContent));
