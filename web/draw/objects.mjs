// The objects that the words of a machine show, what refers to them, and its colour in a collection.

import { start, wordAt } from "./inside.mjs";
import { content, final, movedWords } from "./words.mjs";

/** How many words what begins at this place of a region has: an object, or the words of one that has moved, with their forward. */
function lengthAt(machine, region, place) {
  const word = region.words[place];
  if (word.tag === "header") return 1 + (word.payload & 2047);
  if (word.tag === "GC-FORWARD") return movedWords(machine, region, place);
  return word.code === "normal" && !word.isForward ? 2 : 1;
}

/** A field: the address of its word, its text, and the object to which it refers. */
function fieldAt(machine, address) {
  const word = wordAt(machine, address);
  return { at: address, text: word.isReference ? "" : content(word), to: word.isReference ? final(machine, word.to) : undefined,
    left: word.left };
}

/** The cdr that a cell's code gives: no word holds it. */
function cdrOfCode(machine, address, word) {
  return { at: null, text: "nil", to: word.code === "next" ? final(machine, address + 1) : undefined, left: false };
}

function bodyAt(machine, address) {
  const word = wordAt(machine, address);
  if (word.tag === "header") {
    const length = word.payload & 2047;
    return { kind: "block", code: word.payload >> 11, fields: Array.from({ length },
      (_, at) => fieldAt(machine, address + 1 + at)), words: length + 1 };
  }
  const isPair = word.code === "normal" && wordAt(machine, address + 1) !== undefined;
  const cdr = isPair ? fieldAt(machine, address + 1) : cdrOfCode(machine, address, word);
  return { kind: isPair ? "pair" : "cell", code: null, fields: [fieldAt(machine, address), cdr], words: isPair ? 2 : 1 };
}

/** White: not reached so far, in from-space. Grey: reached, and a word is to scan. Black: reached and scanned. */
function colourOf(machine, region, address, words) {
  if (machine.phase === "idle") return "";
  if (region.old) return "white";
  for (let at = 0; at < words; at++) if (wordAt(machine, address + at)?.left) return "grey";
  return "black";
}

function objectAt(machine, region, address) {
  const body = bodyAt(machine, address);
  return { address, area: region.area, level: region.level, old: region.old,
    colour: colourOf(machine, region, address, body.words), held: false, kind: body.kind, code: body.code, fields: body.fields,
    words: body.words };
}

/** The objects to which registers lead are held. */
function markHeld(objects, roots) {
  const work = roots.map(root => root.to).filter(to => to !== undefined);
  while (work.length) {
    const found = objects.get(work.pop());
    if (!found || found.held) continue;
    found.held = true;
    for (const field of found.fields) if (field.to !== undefined) work.push(field.to);
  }
}

/** The registers that aren't nil, and the objects by their addresses, reached or not. */
export function objectsOf(machine) {
  const objects = new Map();
  for (const region of machine.regions)
    for (let place = 0; place < region.words.length; place += lengthAt(machine, region, place)) {
      const word = region.words[place];
      if (!word.isForward && word.tag !== "null") objects.set(start(region) + place,
        objectAt(machine, region, start(region) + place));
    }
  const roots = machine.registers.map((word, number) => ({ number, text: content(word),
    to: word.isReference ? final(machine, word.to) : undefined, left: word.left, tag: word.tag }))
    .filter(root => root.tag !== "nil");
  for (const root of roots) if (root.to !== undefined && !objects.has(root.to)) addReferred(machine, objects, root.to);
  markHeld(objects, roots);
  return { objects, roots };
}

/** An object that a reference names, but that the walk over its region has taken for a part of another. */
function addReferred(machine, objects, address) {
  const region = machine.at.get(Math.floor(address / 4096));
  if (region && wordAt(machine, address)) objects.set(address, objectAt(machine, region, address));
}
