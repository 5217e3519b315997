// What lispm_inside writes, as values: the replies, and the machine after the last command (docs/FORMATS.md).

const FIRST = "lispm-inside 1";
const CODES = ["next", "nil", "normal", "second"];
const TAGS = ["null", "nil", "list", "block", "header", "HEADER-FORWARD", "GC-FORWARD"];
export const REGION = 4096;
export const PAGE = 256;

/** A word of 36 bits: its cdr code, its tag, and what the tag says. `to` is the address that a reference or a forward names. */
function wordOf(digits, left) {
  const value = parseInt(digits, 16), high = Math.floor(value / 0x100000000), low = value % 0x100000000, code = CODES[high >> 2];
  if ((high & 3) === 1) return { digits, code, left, tag: "number", number: low | 0, payload: undefined, isReference: false,
    isForward: false, to: undefined };
  const tag = TAGS[low >>> 28], payload = low & 0xfffffff, isReference = tag === "list" || tag === "block",
    isForward = tag === "HEADER-FORWARD" || tag === "GC-FORWARD";
  return { digits, code, left, tag, number: undefined, payload, isReference, isForward,
    to: isReference || isForward ? payload : undefined };
}

const isLeft = words => words[words.length - 1] === "left";

/** How each kind of line adds to the machine. */
const LINES = {
  space: (machine, words) => { machine.frames = Number(words[2]); machine.levels = Number(words[4]); },
  area: (machine, words) => machine.areas.push({ number: Number(words[1]), kind: words[2], quota: Number(words[4]),
    charged: Number(words[6]) }),
  phase: (machine, words) => { machine.phase = words[1]; machine.condemned = words[2] ?? ""; },
  left: (machine, words) => { machine.left = Number(words[1]); },
  next: (machine, words) => { machine.next = words[1] === "none" ? null : { kind: words[1], at: Number(words[2]) }; },
  moved: (machine, words) => { machine.moved = words[1] === "none" ? null : Number(words[1]); },
  register: (machine, words) => machine.registers.push(wordOf(words[2], isLeft(words))),
  region: (machine, words) => machine.regions.push({ number: Number(words[1]), area: Number(words[3]), level: Number(words[5]),
    old: words[6] === "old", used: Number(words[8]), mark: Number(words[10]), words: [] }),
  word: (machine, words) => machine.regions[machine.regions.length - 1].words.push(wordOf(words[2], isLeft(words))),
  page: (machine, words) => {
    if (words[2] === "resident") machine.residents.push({ page: Number(words[1]), tagged: words[4] === "yes" });
    else machine.swapped.push({ page: Number(words[1]), row: words[4] });
  },
  calls: (machine, words) => { machine.writes = Number(words[2]); machine.reads = Number(words[4]); },
};

/** The machine that these lines say. Word k of region n lies at address 4096 n + k. */
function machineOf(lines) {
  const machine = { areas: [], registers: [], regions: [], residents: [], swapped: [] };
  for (const line of lines) {
    const words = line.split(" ");
    LINES[words[0]]?.(machine, words);
  }
  machine.at = new Map(machine.regions.map(region => [region.number, region]));
  return machine;
}

/** The reply lines of an output, and the machine after them if the whole input was answered. */
export function split(output) {
  const lines = output.split("\n");
  if (lines[lines.length - 1] === "") lines.pop();
  const at = lines.indexOf(FIRST);
  return at < 0 ? { replies: lines, machine: null } : { replies: lines.slice(0, at), machine: machineOf(lines.slice(at)) };
}

/** The used word at an address, or undefined. */
export function wordAt(machine, address) {
  return machine.at.get(Math.floor(address / REGION))?.words[address % REGION];
}

/** The region in which an address lies, if that region isn't free. */
export const regionOf = (machine, address) => machine.at.get(Math.floor(address / REGION));

/** The first address of a region. */
export const start = region => region.number * REGION;
