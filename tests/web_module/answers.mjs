// Answers calls of web/machine.mjs, one a line of standard input: {"call", "given", "input"}, the input in base64. Writes a
// line for each: {"status", "output"}. The calls: run, inside, session (all lines of the input, one by one), split (the
// answer to each line), full (a run in a memory that has no room), heap.
import { createInterface } from "node:readline";
import { readFileSync } from "node:fs";
import { load } from "../../web/machine.mjs";

const machine = await load();
const module = await WebAssembly.compile(readFileSync(new URL("../../web/lispm.wasm", import.meta.url)));

const linesOf = (input) => {
  const pieces = input.toString("latin1").split("\n");
  return (pieces[pieces.length - 1] === "" ? pieces.slice(0, -1) : pieces).map((piece) => Buffer.from(piece, "latin1"));
};

// The answer to each line, and to the end of the input.
function split(input) {
  const session = machine.session();
  const answers = linesOf(input).map((line) => session.line(line));
  answers.push(session.end());
  session.close();
  return answers;
}

function session(input) {
  const answers = split(input);
  return { status: answers[answers.length - 1].status, output: Buffer.concat(answers.map(({ output }) => output)) };
}

// A run after all of the memory was taken.
function full(input) {
  const { exports } = new WebAssembly.Instance(module);
  const put = (bytes) => {
    const at = exports.host_room(BigInt(bytes.length));
    new Uint8Array(exports.memory.buffer).set(bytes, Number(at));
    return [at, BigInt(bytes.length)];
  };
  const given = put(Buffer.from("replay\0")), text = put(input), output = put(new Uint8Array(1000)), needed = put(new Uint8Array(8));
  for (let size = 1n << 31n; size >= 16n; size /= 2n) while (exports.host_room(size) !== 0n);
  const status = exports.lispm_raw_main(...given, ...text, ...output, needed[0]) & 255;
  const count = new DataView(exports.memory.buffer).getUint32(Number(needed[0]), true);
  return { status, output: new Uint8Array(exports.memory.buffer, Number(output[0]), count) };
}

// Takes and frees blocks of random sizes, each full of a byte of its own, and looks whether each keeps its bytes.
function heap() {
  const { exports } = new WebAssembly.Instance(module), blocks = [];
  let state = 1;
  const draw = (below) => (state = (Math.imul(state, 1664525) + 1013904223) >>> 0) % below;
  const bytes = ({ at, size }) => new Uint8Array(exports.memory.buffer, Number(at), size);
  const isKept = (block) => bytes(block).every((byte) => byte === block.byte);
  for (let count = 0; count < 20000; count++) {
    const size = draw(1 << (1 + draw(14))), block = { at: exports.host_room(BigInt(size)), size, byte: count & 255 };
    if (block.at % 16n !== 0n) return { status: 1, output: Buffer.from("an address isn't a multiple of 16") };
    bytes(block).fill(block.byte);
    blocks.push(block);
    if (blocks.length > 100) {
      const [freed] = blocks.splice(draw(blocks.length), 1);
      if (!isKept(freed)) return { status: 1, output: Buffer.from(`block of ${freed.size} bytes has changed`) };
      exports.host_free(freed.at);
    }
  }
  return { status: 0, output: Buffer.from("20000 blocks") };
}

const CALLS = {
  run: (given, input) => machine.run(given, input),
  inside: (given, input) => machine.inside(given, input),
  session: (_, input) => session(input),
  full: (_, input) => full(input),
  heap,
};
const shown = ({ status, output }) => ({ status, output: Buffer.from(output).toString("base64") });

for await (const line of createInterface({ input: process.stdin })) {
  const { call, given, input } = JSON.parse(line), bytes = Buffer.from(input, "base64");
  const answer = call === "split" ? split(bytes).map(shown) : shown(CALLS[call](given, bytes));
  process.stdout.write(`${JSON.stringify(answer)}\n`);
}
