// Curves over the commands of a session: its accounts, residency and pauses, and a count in several worlds.

import { element, group, rect, text } from "./svg.mjs";

const LINES = ["var(--d-reference,#0072b2)", "var(--d-moved,#b84c00)", "#009e73", "#cc79a7"], BAND = "d-pale";
const DASHES = ["", "8 3", "3 3", "8 3 2 3"];
const TICKS = 4;

/** A round step, 1, 2 or 5 times a power of ten, so that about `count` of them fit into a range. */
export function roundStep(most, count = TICKS) {
  const rough = Math.max(1, most / count), power = 10 ** Math.floor(Math.log10(rough));
  return power * [1, 2, 5, 10].find(times => times * power >= rough);
}

const ticks = (most, step) => Array.from({ length: Math.floor(most / step) + 1 }, (_, at) => at * step);

/** A step line over the commands. */
function stepLine(values, across, down) {
  return values.map((value, at) => at === 0 ? `M${across(0)},${down(value)}` : `H${across(at)}V${down(value)}`).join("");
}

const bars = (values, across, down, width) => values.map((value, at) => value
  ? `M${across(at) - width / 2},${down(0)}V${down(value)}h${width}V${down(0)}z` : "").join("");

/** From which command to which a collection ran. */
function bands(rows) {
  const found = [];
  rows.forEach((row, at) => {
    if (!row.collects) return;
    const last = found[found.length - 1];
    if (last && last.to === at - 1) last.to = at;
    else found.push({ from: at, to: at });
  });
  return found;
}

/** One strip: {title, series: [{name, values, kind, dash}], top, height}. The name of a series with `dash` has a sample. */
function strip(plot, { title, series, top, height }) {
  const { left, width, font, rows, current } = plot, most = Math.max(1, ...series.flatMap(one => one.values)),
    step = roundStep(most, Math.max(2, Math.floor(height / (3 * font))));
  const high = Math.ceil(most / step) * step, across = at =>
    Math.round((left + at / Math.max(1, rows.length - 1) * width) * 10) / 10,
    down = value => Math.round((top + height - value / high * height) * 10) / 10;
  const pieces = bands(rows).map(({ from, to }) => rect(across(from), top, Math.max(2, across(to) - across(from)), height, BAND,
    { "stroke-width": 0 }));
  for (const tick of ticks(high, step)) {
    pieces.push(element("path", { d: `M${left},${down(tick)}h${width}`, class: "d-grid" }),
      text(left - 0.5 * font, down(tick) + 0.35 * font, tick, "quiet", { "text-anchor": "end" }));
  }
  series.forEach(({ name, values, kind, dash }, at) => {
    const colour = LINES[at % LINES.length], right = left + width + 0.8 * font, base = top + (1 + at * 1.4) * font,
      line = { fill: "none", style: `stroke:${colour}`, "stroke-width": 1.6, "stroke-dasharray": dash };
    if (kind === "bars") pieces.push(element("path", { d: bars(values, across, down, Math.max(1, width / rows.length * 0.8)),
      style: `fill:${colour}` }));
    else pieces.push(element("path", { d: stepLine(values, across, down), "data-series": name, ...line }));
    if (dash !== undefined) pieces.push(element("path", { d: `M${right},${base - 0.35 * font}h${2.4 * font}`, ...line }));
    pieces.push(text(right + (dash === undefined ? 0 : 3 * font), base, name, "", { style: `fill:${colour}` }));
  });
  pieces.push(element("path", { d: `M${across(current)},${top}v${height}`, class: "d-now" }),
    text(left, top - 0.5 * font, title, "head"));
  return group("strip", {}, ...pieces);
}

/** The command axis, with ticks at round numbers. */
function axis({ left, width, font, rows }, y) {
  const last = Math.max(1, rows.length - 1), step = roundStep(last, 8);
  return [...ticks(last, step).map(tick => text(left + tick / last * width, y + 1.2 * font, tick, "quiet",
    { "text-anchor": "middle" })), text(left + width / 2, y + 2.7 * font, "command", "", { "text-anchor": "middle" })];
}

/** Strips one below the other, {title, series, height}, over rows {collects}: {pieces, width, height}. They fill a height that
 * is given, if it is more than they need. */
function stripsOf(strips, rows, given) {
  const { font, width: wide, current, height } = { font: 12, width: 800, current: 0, height: 0, ...given }, left = 5 * font,
    width = Math.max(12 * font, wide - left - 14 * font), plot = { left, width, font, rows, current };
  const gap = 2.6 * font, own = strips.reduce((sum, one) => sum + one.height, 0), other = (strips.length - 1) * gap + 5.4 * font,
    stretch = Math.max(1, (height - other) / own);
  let top = 2 * font;
  const pieces = strips.map(one => {
    const tall = one.height * stretch, piece = strip(plot, { ...one, height: tall, top });
    top += tall + gap;
    return piece;
  });
  return { pieces: [...pieces, ...axis(plot, top - gap)], width: left + width + 14 * font, height: top - gap + 3.4 * font };
}

/** The curves of rows {charged: [..], reached, scanned, left, collects}, one for each step: {pieces, width, height}. */
export function plotOf(rows, areas, given = {}) {
  const font = given.font ?? 12, accounts = areas.map((name, area) => ({ name, values: rows.map(row => row.charged[area]) }));
  return stripsOf([{ title: "words charged", series: accounts, height: 9 * font },
    { title: "words reached (residency)", series: [{ name: "reached", values: rows.map(row => row.reached) }], height: 5 * font },
    { title: "units scanned (pause)", series: [{ name: "scanned", values: rows.map(row => row.scanned), kind: "bars" }],
      height: 5 * font }], rows, given);
}

/** A count after each command, a curve for each value of a size of the world: {title, size, values, rows}. */
export function chartOf({ title, size, values, rows }, given = {}) {
  const series = values.map((value, at) => ({ name: `${size} ${value}`, values: rows[at], dash: DASHES[at % DASHES.length] }));
  return stripsOf([{ title: `${title}, after each command`, series, height: 16 * (given.font ?? 12) }],
    rows[0].map(() => ({ collects: false })), given);
}

/** The units that a command scanned, from the machines around it: what was to scan and what was placed, less what remains. */
export function scanned(before, machine, command, rate) {
  if (!before) return 0;
  const [head, ...words] = command.split(" "), charge = chargeOf(head, words);
  if (before.phase !== "running" && machine.phase !== "running") return 0;
  const pays = head === "scavenge" ? Number(words[0]) : rate * charge;
  if (machine.phase === "running") return charge || head === "scavenge" ? pays : 0;
  const placed = machine.regions.reduce((sum, region) => sum +
    (region.old ? 0 : region.used - (before.at.get(region.number)?.used ?? 0)), 0);
  return Math.max(0, Math.min(pays, before.left + placed));
}

/** The charge of an allocation, if its arguments give it. */
function chargeOf(head, words) {
  if (head === "cons") return 2;
  if (head === "list") return 3 * (words.length - 2);
  return head === "make" ? Number(words[3]) + 1 : 0;
}
