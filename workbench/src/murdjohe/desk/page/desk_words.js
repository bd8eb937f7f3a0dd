// Times as people write them, verdicts in words, and networks that get other values.
import { clock } from "./model.js";

const UNITS = {h: 3600000, m: 60000, s: 1000, ms: 1};

const DAY = 86400000;
const MOST_NAMES = 20;  // elements that a sentence names

/** The milliseconds of a time, as 60000, 20m, 1h30m, 00:05 or 00:05:00.250; null for any other word. With colons it is a time of day
 * where the run begins at one. */
export function millisecond(word, start = 0) {
  const text = word.trim();
  if (/^\d{1,8}$/.test(text)) return Number(text);
  const parts = /^(\d+):(\d\d)(?::(\d\d)(?:\.(\d{3}))?)?$/.exec(text);
  if (parts) {
    const [, hours, minutes, seconds = "0", rest = "0"] = parts;
    const time = ((Number(hours) * 60 + Number(minutes)) * 60 + Number(seconds)) * 1000 + Number(rest);
    const length = start ? (time - start + DAY) % DAY : time;
    return start && length > DAY / 2 ? null : length;  // (that is before the start)
  }
  if (!/^(\d+(h|ms|m|s))+$/.test(text)) return null;
  return [...text.matchAll(/(\d+)(h|ms|m|s)/g)].reduce((sum, [, number, unit]) => sum + Number(number) * UNITS[unit], 0);
}

/** A length of time in seconds. */
const seconds = length => `${(length / 1000).toFixed(3)} s`;

/** A number with what is counted. */
export const plural = (number, what) => `${number.toLocaleString("en")} ${what}${number === 1 ? "" : "s"}`;

const LOOP = "Whatever fails, comes back or is commanded. Two elements on a link or bundle that is nominated at both ends may take timing from each other for a short time.";
const AGREE = "Out of a network at rest, when only parts go down; the second time is for any event, and counts waits to restore. No switch is in force, and a source is better than every own clock.";
const PROTECTED = "Links, bundles, sources and elements, each alone. Who has no other way to a clock isn't counted.";
const CHAINS = "Over all faults and commands at once. G.803 allows 60 lines, and 20 since a filter.";

function loopWords(said) {
  if (said.fault) return ["bad", `refused: ${said.fault}`];
  if (said.ring) return ["bad", `a timing loop may form: ${said.ring.join(" → ")} → ${said.ring[0]}`];
  if (said.accepted) return ["good", "accepted: no timing loop can form", LOOP];
  return ["bad", `not accepted: ranks fall from ${(said.falls ?? []).join(" to ")}`];
}

function agreeWords(said) {
  if (said.skipped) return ["waits", `agree: not asked, ${said.skipped}`];
  if (said.clash) return ["bad", `may oscillate: ${said.clash.join(", ")}`, said.remedy];
  return ["good", `agreed: at rest ${seconds(said.failures)} after a failure, ${seconds(said.bound)} after any event`, AGREE];
}

function protectedWords(said) {
  if (!said.count) return ["good", "protected: no single failure cuts off an element that has a way left", PROTECTED];
  const rest = said.count > 1 ? `; ${plural(said.count - 1, "failure")} more` : "";
  return ["mind", `${gapWords(said.gaps[0])}${rest}`, PROTECTED];
}

/** Who is cut off by a failure, or without any: the first, or the names of all where they are known. */
export function gapWords([kind, name, number, first], elements = [first]) {
  const shown = elements.slice(0, MOST_NAMES), left = number - shown.length;
  const all = left > 0 ? `${shown.join(", ")} and ${left.toLocaleString("en")} more` : [shown.slice(0, -1).join(", "), shown.at(-1)].filter(Boolean).join(" and ");
  if (kind === "none") return `even without a failure ${all} ${number > 1 ? "have" : "has"} no nominated way to a clock, though a path is there`;
  return `${kind} ${name} cuts off ${all}, though a path remains`;
}

function chainWords(said) {
  if (said.skipped) return ["waits", `chains: not asked, ${said.skipped}`];
  const state = said.links > 60 || said.since > 20 ? "mind" : "good";
  return [state, `longest chain ${plural(said.links, "link")}${said.element ? ` into ${said.element}` : ""}, ${said.since} since a filter`, CHAINS];
}

const WORDS = {loop: loopWords, agree: agreeWords, protected: protectedWords, chains: chainWords};
const EMPTY = {loop: "no plan yet", agree: "no times", protected: "nothing that could fail", chains: "no chains"};

/** A verdict as the strip shows it: its state and words, and the premise. Of a plan without elements none is shown. */
export function verdictWords(name, said, elements) {
  if (!elements) return ["waits", EMPTY[name]];
  return said ? WORDS[name](said) : ["waits", `${name} ..`];
}

/** Gives a network the new values of a row. */
export function patched(network, row) {
  const level = name => network.levels.findIndex(one => one.name === name);
  if (row.section === "link") {
    for (const line of network.lines) {
      if (line.link !== row.name) continue;
      line.priority = row[line.key] ?? 0;
      line.delay = row[line.key.replace("priority", "delay")] ?? 1;
    }
  }
  if (row.section === "source") {
    const source = network.sources.find(one => one.name === row.name);
    if (source) Object.assign(source, {priority: row.priority ?? 1, level: level(row.level)});
  }
  if (row.section === "element") {
    const element = network.elements.find(one => one.name === row.name);
    const own = row.own ?? (network.option === "II" ? "QL-ST3" : "QL-SEC");
    if (element) Object.assign(element, {own: level(own), floor: row.floor ?? null, holdoff: row.holdoff ?? 300, wtr: row.wtr ?? 5});
  }
}

/** The inputs that each element has, nominated or not: lines and sources, in the order in which they are preferred. */
export function inputsOf(network) {
  const found = network.elements.map(() => []);
  network.sources.forEach(source => found[source.at].push({name: source.name, section: "source", row: source.name, key: "priority", priority: source.priority, from: "a clock here"}));
  network.lines.forEach(line => found[line.receiver].push({name: line.name, section: "link", row: line.link, key: line.key, priority: line.priority, from: network.elements[line.sender].name}));
  for (const inputs of found) inputs.sort((a, b) => (a.priority || 999) - (b.priority || 999));
  return found;
}

/** The lines and sources that a thing takes down with it, by their numbers as inputs. */
function inputsOfThing(network, thing) {
  const {lines, sources, elements} = network, found = [];
  const place = thing.kind === "element" ? elements.findIndex(one => one.name === thing.name) : -1;
  lines.forEach((line, number) => {
    const isIts = thing.kind === "element" ? line.sender === place || line.receiver === place : thing.kind === "link" && line.link === thing.name;
    if (isIts) found.push(number);
  });
  sources.forEach((source, number) => {
    if (thing.kind === "element" ? source.at === place : thing.kind === "source" && source.name === thing.name) found.push(lines.length + number);
  });
  return found;
}

/** Whether a thing is down at the run's moment, with all that belongs to it. */
export function isDown(run, thing) {
  const its = inputsOfThing(run.network, thing);
  return its.length > 0 && its.every(input => run.down.has(input));
}

/** The rows by which a thing fails or comes back: an element with all its links and sources. */
export function failing(network, thing, what) {
  if (thing.kind !== "element") return [[what, thing.name, ""]];
  const number = network.elements.findIndex(one => one.name === thing.name);
  const links = new Set(network.lines.filter(line => line.sender === number || line.receiver === number).map(line => line.link));
  const sources = network.sources.filter(source => source.at === number).map(source => source.name);
  return [...links, ...sources].map(name => [what, name, ""]);
}

export { clock };
