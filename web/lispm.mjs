#!/usr/bin/env node
// The programs lispm and lispm_inside on node, by the module lispm.wasm. USAGE says how it is started.
import { openSync, readFileSync, readSync, statSync, writeSync } from "node:fs";
import { load } from "./machine.mjs";

const USAGE = `usage: node web/lispm.mjs MODE [OPTION ..] [FILE]

  replay                        runs an input: a world and a trace of commands
  inside [--fail N]             the same, and writes the machine after the replies; the N-th page call fails
  print                         writes a world file as S-expressions
  compile                       writes the world that S-expressions describe, as a dump
  why --object K                why object K of a world file is held
  census                        counts the objects of a world file, and those that are reached
  exercise --number N --count K runs K commands that are generated from N, and counts the replies

  --help, -h, --version, -V

If no FILE is named, standard input is read. It writes what the programs lispm and lispm_inside write, and ends with their status (see bin/lispm --help); 69 if node
is older than 18 or web/lispm.wasm isn't there, 70 if the module stopped.
`;

// Statuses: standard output failed, standard input failed, the arguments were refused; no module, the module stopped.
const DONE = 0, WRITE_FAILED = 1, READ_FAILED = 3, USAGE_STATUS = 7, MISSING = 69, STOPPED = 70;
// A line that is longer is refused, whatever follows.
const LONGEST = 32769;
const FEED = 10;
const OLDEST = 18;

class WriteFailed extends Error {}
class ReadFailed extends Error {}

const pause = () => Atomics.wait(new Int32Array(new SharedArrayBuffer(4)), 0, 0, 1);

// Calls until it isn't to be tried again later: standard input and output may be pipes that don't wait.
function waiting(call) {
  for (;;) {
    try {
      return call();
    } catch (error) {
      if (error.code !== "EAGAIN") throw error;
      pause();
    }
  }
}

function write(bytes) {
  try {
    for (let at = 0; at < bytes.length; ) at += waiting(() => writeSync(1, bytes, at));
  } catch (error) {
    throw new WriteFailed(error.message);
  }
}

// The next bytes of the input, none at its end. They are valid up to the next call. The input is standard input, unless a
// file is named.
const chunk = new Uint8Array(1 << 16);
let source = 0;
function read() {
  try {
    return chunk.subarray(0, waiting(() => readSync(source, chunk)));
  } catch (error) {
    if (error.code === "EOF") return chunk.subarray(0, 0);
    throw new ReadFailed(error.message);
  }
}

function joined(parts) {
  const all = new Uint8Array(parts.reduce((sum, part) => sum + part.length, 0));
  parts.reduce((at, part) => (all.set(part, at), at + part.length), 0);
  return all;
}

function readAll() {
  const parts = [];
  for (let bytes = read(); bytes.length > 0; bytes = read()) parts.push(bytes.slice());
  return joined(parts);
}

function answered({ status, output }) {
  write(output);
  return status;
}

// Answers each line as it is read. What is written waits for the end of the bytes that were read together.
class Replay {
  constructor(session) {
    this.session = session;
    this.rest = new Uint8Array(0);
    this.replies = [];
    this.status = DONE;
  }

  line(text) {
    const { status, output } = this.session.line(text);
    this.status = status;
    this.replies.push(output);
  }

  flush() {
    write(joined(this.replies.splice(0)));
  }

  // Answers the lines that end in these bytes, and keeps the rest for later.
  take(bytes) {
    let from = 0;
    for (let to = bytes.indexOf(FEED); to >= 0 && this.status === DONE; to = bytes.indexOf(FEED, from)) {
      const text = bytes.subarray(from, to);
      this.rest = joined([this.rest, text]);
      this.lineOfRest();
      from = to + 1;
    }
    if (this.status === DONE) this.rest = joined([this.rest, bytes.subarray(from)]);
    if (this.rest.length >= LONGEST) this.lineOfRest();
    this.flush();
  }

  lineOfRest() {
    this.line(this.rest);
    this.rest = new Uint8Array(0);
  }

  end() {
    if (this.rest.length > 0) this.lineOfRest();
    this.flush();
    return this.status === DONE ? answered(this.session.end()) : this.status;
  }
}

function replay(machine) {
  const run = new Replay(machine.session());
  for (let bytes = read(); bytes.length > 0; bytes = read()) {
    run.take(bytes);
    if (run.status !== DONE) return run.status;
  }
  return run.end();
}

const say = (text) => process.stderr.write(`lispm.mjs: ${text}\n`);
const textAnswer = (status, text) => answered({ status, output: new TextEncoder().encode(text) });

// Another mode than replay: `call` runs it on an input. Refused arguments, and an exercise, which reads nothing, are
// answered before anything is read.
function whole(call, given) {
  const first = call("");
  if (first.status === USAGE_STATUS) say("the arguments were refused; see node web/lispm.mjs --help");
  return answered(first.status === USAGE_STATUS || given.includes("exercise") ? first : call(readAll()));
}

function isFile(path) {
  try {
    return statSync(path).isFile();
  } catch {
    return false;
  }
}

// The arguments without the file that the last one names: it is read then. The value of an option is no file.
function withoutFile(given) {
  const last = given[given.length - 1];
  if (given.length < 2 || /^--[^=]*$/.test(given[given.length - 2]) || !isFile(last)) return given;
  try {
    source = openSync(last);
  } catch (error) {
    throw new ReadFailed(error.message);
  }
  return given.slice(0, -1);
}

function answer(machine, all) {
  const given = withoutFile(all), [mode, ...others] = given;
  if (mode === "replay" && others.length === 0) return replay(machine);
  if (mode === "inside") return whole((input) => machine.inside(others, input), others);
  return whole((input) => machine.run(given, input), given);
}

function version(machine) {
  const build = readFileSync(new URL("BUILD", import.meta.url), "latin1");
  return textAnswer(DONE, `lispm ${machine.version()}, compiled for WebAssembly\n${build}`);
}

// The status of a call, also if standard input or output fails, or the module stops.
function guarded(call) {
  try {
    return call();
  } catch (error) {
    if (error instanceof WriteFailed) return WRITE_FAILED;
    if (error instanceof ReadFailed) return guarded(() => textAnswer(READ_FAILED, "error: read failed\n"));
    say(`the module stopped: ${error.message}`);
    return STOPPED;
  }
}

async function main(given) {
  const [first] = given;
  if (first === "--help" || first === "-h" || first === "help") return guarded(() => textAnswer(DONE, USAGE));
  if (parseInt(process.versions.node) < OLDEST) {
    say(`needs node ${OLDEST} or later, and this is node ${process.versions.node}`);
    return MISSING;
  }
  try {
    const machine = await load();
    const isVersion = first === "--version" || first === "-V";
    return guarded(() => (isVersion ? version(machine) : answer(machine, given)));
  } catch (error) {
    say(`web/lispm.wasm can't be loaded: ${error.message}`);
    return MISSING;
  }
}

main(process.argv.slice(2)).then((status) => {
  process.exitCode = status;
});
