// The word at which a line is refused, from the reason that the machine gives.

const REGISTER = "register", AREA = "area", VALUE = "value", NUMBER = "number", LEVELS = "levels", NAME = "name", KIND = "kind";

/** The kinds of the words after the first; `more` is the kind of all further ones. */
const COMMANDS = {
  set: [REGISTER, VALUE], move: [REGISTER, REGISTER], cons: [REGISTER, AREA, REGISTER, REGISTER], list: [REGISTER, AREA],
  make: [REGISTER, AREA, NUMBER, NUMBER], grow: [REGISTER, NUMBER], car: [REGISTER, REGISTER], cdr: [REGISTER, REGISTER],
  rplaca: [REGISTER, REGISTER], rplacd: [REGISTER, REGISTER], get: [REGISTER, REGISTER, NUMBER],
    put: [REGISTER, NUMBER, REGISTER],
  size: [REGISTER], eq: [REGISTER, REGISTER], flip: [LEVELS], scavenge: [NUMBER], reclaim: [], "page-out": [NUMBER], stats: [],
    dump: [], end: [],
};
const WORLD = {
  space: [NUMBER, NUMBER, NUMBER, NUMBER, NUMBER], area: [NAME, KIND, NUMBER], capacity: [], cons: [AREA, VALUE, VALUE],
    block: [AREA, NUMBER],
  run: [AREA], root: [REGISTER, VALUE], trace: [],
};
const MORE = { list: REGISTER, block: VALUE, run: VALUE, capacity: NUMBER };
const MOST = { list: 1026, block: 2049, run: 1025 };

const isNumber = word => /^(0|[1-9][0-9]*)$/.test(word);
const SPACE = [[5, 1024], [32, 4096], [1, 256], [1, 6], [0, 16]];

/** The least and the greatest number that may be at a place of a line. */
function range(head, place) {
  if (head === "space") return SPACE[place - 1];
  if (head === "area") return [0, 1048576];
  if (head === "capacity") return [0, 16777216];
  if ((head === "make" && place === 3) || (head === "block" && place === 2)) return [0, 65535];
  if (head === "make" || head === "grow") return [0, 2047];
  return [0, 4294967295];
}

/** The kind of the word at a place of a line. */
const kindAt = (kinds, head, place) => kinds[place - 1] ?? MORE[head];

/** A test for each reason that belongs to one word: whether the word at a place is wrong. */
function tests(reason, world, head) {
  const between = (word, [low, high]) => isNumber(word) && Number(word) >= low && Number(word) <= high;
  if (reason === "no register") return (word, kind) => kind === REGISTER && !between(word, [0, world.registers - 1]);
  if (reason === "no area") return (word, kind) => kind === AREA && !world.areas.includes(word);
  if (reason === "bad value") return (word, kind) => kind === VALUE && !/^(nil|0|-?[1-9][0-9]*|#(0|[1-9][0-9]*))$/.test(word) ||
    kind === VALUE && isTooGreat(word) || kind === VALUE && head === "set" && word.startsWith("#");
  if (reason === "bad number") return (word, kind, place) => kind === NUMBER && !between(word, range(head, place));
  if (reason === "bad levels") return (word, kind) => kind === LEVELS;
  if (reason === "bad name" || reason === "area twice") return (word, kind) => kind === NAME;
  if (reason === "bad kind") return (word, kind) => kind === KIND;
  if (reason === "register twice") return (word, kind) => kind === REGISTER;
  if (reason.startsWith("no object ")) return word => word === "#" + reason.slice(10);
  return null;
}

const isTooGreat = word => /^-?[0-9]+$/.test(word) && (Number(word) > 2147483647 || Number(word) < -2147483648);

/** The words of a line with their beginnings and ends. */
function pieces(line) {
  return [...line.matchAll(/[^ ]+/g)].map(found => ({ text: found[0], from: found.index, to: found.index + found[0].length }));
}

/** The span of the first thing that makes a line not well formed. */
function badSpan(line) {
  const at = line === "" ? 0 : line.search(/^ | $| {2}|[^ -~]/);
  return { from: Math.max(0, at), to: Math.max(0, at) + (line.slice(at, at + 2) === "  " ? 2 : 1) };
}

/** The span of a line that its refusal is about: {from, to}. `world` is {registers, areas}. */
export function spanOf(line, reason, world, isTrace) {
  const words = pieces(line), head = words[0]?.text ?? "", whole = { from: 0, to: Math.max(1, line.length) };
  if (reason === "bad line") return badSpan(line);
  if (/expected$|^not a world$|^unknown command$|^unexpected line$/.test(reason)) return words[0]
    ? { from: words[0].from, to: words[0].to } : whole;
  const kinds = (isTrace ? COMMANDS : WORLD)[head] ?? [];
  if (reason.startsWith("too many ") && MOST[head]) return words[MOST[head] + 1] ?? whole;
  if (reason === "wrong count") return kinds.length + 1 < words.length && !MORE[head] ? words[kinds.length + 1]
    : { from: line.length, to: line.length + 1 };
  const isWrong = tests(reason, world, head);
  const found = isWrong && words.find((word, place) => place > 0 && isWrong(word.text, kindAt(kinds, head, place), place));
  return found ? { from: found.from, to: found.to } : whole;
}

const SENTENCES = {
  "bad line": "A line has words with single spaces between, and no other characters than those of ASCII.",
  "unknown command": "The first word is no command.",
  "wrong count": "The line has too many words or too few.",
  "bad number": "The number isn't spelled as numbers are, or it is out of its range.",
  "no area": "The world has no area of this name.",
  "no register": "The world has no register of this number.",
  "bad value": "A value is nil or a number from -2147483648 to 2147483647.",
  "bad levels": "Levels are numbers in ascending order with single commas between, or `full`.",
  "no end": "The text ends before the line `end`.",
  "space too small": "The areas so far need more regions than the world has.",
};

/** What a reason means, if that isn't plain. */
export const sentenceOf = reason => SENTENCES[reason] ?? "";
