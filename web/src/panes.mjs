// What a step shows: memory, objects, the map of the heap, accounts and pages.

import * as graph from "../draw/graph.mjs";
import { mapOf } from "../draw/map.mjs";
import * as memory from "../draw/memory.mjs";
import { objectsOf } from "../draw/objects.mjs";
import { chartOf, plotOf } from "../draw/plot.mjs";
import { swappedText } from "../draw/picture.mjs";
import { drawing } from "../draw/svg.mjs";
import { counted, phaseText } from "../draw/words.mjs";
import { at, element, fill, showDrawing } from "./dom.mjs";

const MOST_PAGES = 48, LEAST_SCALE = 0.62, NEARLY = 0.88;
export const MAP_FROM = 400;     // words from which the map of the heap is shown

/** The layouts that are tried, the widest first. */
const WAYS = [{ across: 4 }, { across: 3 }, { across: 2 }, { across: 1 }, { across: 1, stacked: true }];

/** A layout of a machine: {layout, pieces, width, height}. */
function laidOut(machine, before, view, way, planned) {
  const layout = memory.layoutOf(machine, before, { ...view, ...way, slots: planned?.slots });
  return { ...memory.piecesOf(layout, planned?.sizesOf(way) ?? layout.sizes) };
}

/** The layouts to try: no more regions side by side than there are. */
function ways(machine, planned) {
  const count = Math.max(1, planned?.slots.length ?? machine.regions.length);
  return WAYS.filter(way => way.across <= count);
}

/** The layout that fits a pane: the widest one, or, if it is scaled to its pane, the one with the largest letters. */
function fitting(machine, before, view, { width, height, fits, planned }) {
  let found = null, best = 0;
  for (const way of ways(machine, planned)) {
    const one = laidOut(machine, before, view, way, planned), scale = Math.min(width / one.width, height / one.height);
    if (!fits && one.width * NEARLY <= width) return one;
    if (!fits || scale > best) [found, best] = [one, scale];
  }
  return found;
}

/** What memory holds, in words for those who don't see it. */
export function told(machine, areas) {
  const regions = machine.regions.map(region =>
    `region ${region.number} of ${areas[region.area]}, level ${region.level}, ${region.old ? "old" : "live"}: ${counted(region.used, "word")}`);
  return `${phaseText(machine)}. ${regions.join("; ") || "Every region is free"}.`;
}

function drawMemory(holder, machine, before, options) {
  const view = { areas: options.areas, font: options.font, most: options.most };
  const { pieces, width, height } = fitting(machine, before, view, options);
  const svg = showDrawing(holder, drawing(width, height, "Memory", "", pieces, { inPage: true, font: options.font }),
    told(machine, options.areas));
  size(svg, width, options);
}

/** Scales a drawing to its pane: it may shrink to a least scale, and then its pane scrolls. */
function size(svg, width, { fits, width: pane }) {
  if (fits) {
    svg.setAttribute("width", "100%");
    svg.setAttribute("height", "100%");
  } else if (width > pane) {
    const scale = Math.max(LEAST_SCALE, pane / width);
    svg.setAttribute("height", Number(svg.getAttribute("height")) * scale);
    svg.setAttribute("width", width * scale);
  }
}

/** Memory, or memory before and after side by side. */
export function showMemory(machine, before, options) {
  at("phase").textContent = phaseText(machine);
  const after = element("div", { class: "drawn" });
  if (options.isBeside && before) {
    const was = element("div", { class: "drawn" }), half = { ...options, width: options.width / 2 - 12 };
    fill("regions", element("figure", {}, element("figcaption", {}, "before"), was),
      element("figure", {}, element("figcaption", {}, "after"), after));
    drawMemory(was, before, null, half);
    drawMemory(after, machine, before, half);
  } else {
    fill("regions", after);
    drawMemory(after, machine, before, options);
  }
}

/** The objects whose own words changed. */
function changedObjects(found, changed) {
  const is = new Set();
  for (const object of found.objects.values())
    for (let word = 0; word < object.words; word++) if (changed.has(object.address + word)) is.add(object.address);
  return is;
}

export function showGraph(machine, before, options) {
  const found = objectsOf(machine), changed = changedObjects(found, memory.changedAddresses(before, machine));
  const { pieces, width, height } = graph.piecesOf(graph.graphOf(found,
    { areas: options.areas, font: options.font, changed, most: options.mostObjects }));
  const said = `${counted(found.objects.size, "object")}, ${counted(found.roots.filter(root => root.to !== undefined).length, "register")} with a reference`;
  size(showDrawing(at("drawing"), drawing(width, height, "Objects", "", pieces, { inPage: true, font: options.font }), said),
    width, options);
  const isLarge = options.isLarge || wordsOf(machine) >= MAP_FROM;
  at("map").hidden = !isLarge;
  if (isLarge) showMap(machine, found, options);
}

/** How many words of the heap are used. */
export const wordsOf = machine => machine.regions.reduce((sum, region) => sum + region.used, 0);

function showMap(machine, found, options) {
  const { pieces, width, height } = mapOf(machine, found, { font: options.font, areas: options.areas, width: options.width });
  size(showDrawing(at("heap"), drawing(width, height, "The whole heap", "", pieces, { inPage: true, font: options.font }),
    "each word of the heap as a point, page by page"), width, options);
}

/** What the whole session shows: its charts, and the curves of its accounts, if there are any. */
export function showPlot(rows, charts, areas, options) {
  at("plot").hidden = !rows && !charts.length;
  const drawn = charts.map(chart => ({ name: chart.title, told: toldChart(chart), ...chartOf(chart, options) }));
  if (rows && !(charts.length && options.fits)) drawn.push({ name: "Accounts", ...plotOf(rows, areas, options),
    told: "accounts, residency and units scanned, over the commands" });
  fill("curves", ...drawn.map(({ name, told, pieces, width, height }) => {
    const holder = element("div", { class: "drawn" });
    size(showDrawing(holder, drawing(width, height, name, "", pieces, { inPage: true, font: options.font }), told), width, options);
    return holder;
  }));
}

/** A chart in words: its greatest counts, and where each curve ends. */
const toldChart = ({ title, size, values, rows }) => `${title}, after each command. ` + values.map((value, at) =>
  `${size} ${value}: at most ${Math.max(...rows[at])}, at the end ${rows[at][rows[at].length - 1]}`).join("; ");

// ------------------------------------------------------------------ accounts and pages

function accountBar(area, before, names) {
  const share = area.quota ? Math.min(100, 100 * area.charged / area.quota) : 0, name = names[area.number] ?? area.number;
  const changed = before && before.areas[area.number]?.charged !== area.charged;
  return element("div", { class: changed ? "account changed" : "account" },
    element("span", { class: "mono" }, `${name} ${area.charged} of ${area.quota}`),
    element("div", { class: "bar", role: "meter", "aria-label": `account of ${name}`, "aria-valuenow": area.charged,
      "aria-valuemin": 0, "aria-valuemax": area.quota }, element("div", { style: `width:${share}%` })));
}

function pageBox({ page, tagged }, before) {
  const was = before?.residents.find(one => one.page === page), changed = before && was?.tagged !== tagged;
  return element("span", { class: `page${tagged ? " tagged" : ""}${changed ? " changed" : ""}` },
    tagged ? `${page} tagged` : String(page));
}

export function showAccounts(machine, before, areas) {
  fill("accounts", ...machine.areas.map(area => accountBar(area, before, areas)));
}

export function showPages(machine, before) {
  const shown = machine.residents.slice(-MOST_PAGES), hidden = machine.residents.length - shown.length,
    out = machine.swapped.slice(0, MOST_PAGES);
  const was = new Set(before?.swapped.map(one => `${one.page} ${one.row}`));
  fill("pages", element("p", { class: "small" }, "in frames, least recently used first"),
    hidden ? element("span", { class: "small" }, `\u2026 ${hidden} more `) : null,
    ...shown.map(page => pageBox(page, before)), element("span", { class: "small" },
      ` ${counted(machine.frames - machine.residents.length, "frame")} free`),
    element("p", { class: "small" }, out.length ? "on the swap device, with the levels of their rows"
      : "none on the swap device"),
    ...out.map(page => element("span", { class: `page out${before && !was.has(`${page.page} ${page.row}`) ? " changed" : ""}` },
      swappedText(page))),
    machine.swapped.length > out.length ? element("span", { class: "small" },
      `\u2026 ${machine.swapped.length - out.length} more`) : null,
    element("p", { class: "small" }, `page calls: ${machine.writes} written, ${machine.reads} read`));
}
