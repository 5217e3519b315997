// Links, files and prints of what the page shows. A link has the session's text after `#`, so no server gets it.

import * as graph from "../draw/graph.mjs";
import * as memory from "../draw/memory.mjs";
import { objectsOf } from "../draw/objects.mjs";
import { picture } from "../draw/picture.mjs";
import { drawing } from "../draw/svg.mjs";
import { phaseText } from "../draw/words.mjs";
import { element, save, withCode } from "./dom.mjs";
import { events } from "./events.mjs";

/** What an address says: {text, name, step, view}. */
export function fromHash(hash) {
  const said = new URLSearchParams(hash.replace(/^#/, ""));
  return { text: said.get("text"), name: said.get("session"), step: Number.parseInt(said.get("step") ?? "0", 10) || 0,
    view: said.get("view") ?? "" };
}

/** The address of a step: by the name of a session of the page, or with the text. */
export function toHash({ name, text, step, view }) {
  const said = new URLSearchParams();
  if (name) said.set("session", name);
  else said.set("text", text);
  if (step) said.set("step", String(step));
  if (view) said.set("view", view);
  return "#" + said.toString();
}

/** A drawing of a moment for a file of its own: memory with accounts and pages, and the objects. */
export function fileDrawing(moment, areas) {
  return picture([moment],
    { areas, objects: true,
    told: `${moment.command ?? "before the first command"}: ${moment.reply.join("; ")}. ${phaseText(moment.machine)}.` });
}

export function saveSvg(moment, areas, name) {
  save(`${name}.svg`, new Blob([fileDrawing(moment, areas)], { type: "image/svg+xml" }));
}

/** Saves a PNG of twice the drawing's size. */
export function savePng(moment, areas, name) {
  const svg = fileDrawing(moment, areas), image = new Image(), scale = 2;
  return new Promise((resolve, reject) => {
    image.onload = () => {
      const canvas = element("canvas", { width: Math.ceil(image.width * scale), height: Math.ceil(image.height * scale) }),
        context = canvas.getContext("2d");
      context.scale(scale, scale);
      context.drawImage(image, 0, 0);
      canvas.toBlob(blob => { save(`${name}.png`, blob); resolve(); }, "image/png");
    };
    image.onerror = () => reject(new Error("the drawing can't be made a PNG"));
    image.src = "data:image/svg+xml;charset=utf-8," + encodeURIComponent(svg);
  });
}

/** A step as a page of the print. */
export function printPage({ number, last, command, reply, caption, machine, before, areas, rule, font }) {
  const layout = memory.layoutOf(machine, before, { areas, font }), drawn = memory.piecesOf(layout), found = objectsOf(machine),
    objects = graph.piecesOf(graph.graphOf(found, { areas, font }));
  const holder = (piece, title) => {
    const made = element("div", { class: "drawn" });
    made.innerHTML = drawing(piece.width, piece.height, title, "", piece.pieces, { inPage: true, font });
    return made;
  };
  return element("article", { class: "sheet" }, element("p", { class: "small" }, `step ${number} of ${last}`),
    ...caption.map(part => element("p", { class: "caption" }, ...withCode(part))),
    element("p", { class: "line" }, element("strong", {}, command ?? "before the first command"),
      reply.length ? ` \u2192 ${reply.slice(0, 12).join(" | ")}` : ""),
    element("p", {}, rule), element("ul", {}, ...events(before, machine,
      command?.split(" ")[0]).map(one => element("li", {}, one.text))),
    element("p", {}, phaseText(machine)), element("div", { class: "sheet-drawings" }, holder(drawn, "Memory"),
      holder(objects, "Objects")),
    element("p", { class: "small" }, machine.areas.map(area =>
      `${areas[area.number]}: ${area.charged} of ${area.quota}`).join("; ")));
}
