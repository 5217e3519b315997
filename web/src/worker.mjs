// Runs the machine in a worker, so that the page answers keys while a long session runs. The page may end it at any time.
//
// It gets {id, kind, ..} and posts {id, ..}: `replay` with lines (replies arrive in pieces), `inside` with an input, `run` with
// arguments and an input. The first message has the module's bytes.

import { load } from "../machine.mjs";

const PIECE = 5000;     // lines whose replies are posted together
const decoder = new TextDecoder("latin1");
let machine = null;

const linesOf = output => {
  const lines = decoder.decode(output).split("\n");
  if (lines[lines.length - 1] === "") lines.pop();
  return lines;
};

/** Answers line by line. `first` is the number of the first line. */
function replay({ id, lines }) {
  const session = machine.session();
  let replies = [], from = 0;
  const post = more => postMessage({ id, from, replies, ...more });
  for (let at = 0; at < lines.length; at++) {
    const { status, output } = session.line(lines[at]);
    replies.push(output.length ? linesOf(output) : []);
    if (status !== 0 || at + 1 === lines.length) {
      const end = status === 0 ? session.end() : null;
      session.close();
      return post({ done: true, status: status || (end?.status ?? 0), refused: status ? at : -1,
        ending: end ? linesOf(end.output) : [] });
    }
    if (replies.length === PIECE) {
      post({ done: false });
      from = at + 1;
      replies = [];
    }
  }
  session.close();
  return post({ done: true, status: 2, refused: -1, ending: [] });
}

/** The sum of the numbers on the line of lispm_inside that begins with `head`; null if there is none. */
function sum({ id, input, head }) {
  const found = new RegExp(`^${head} (.*)$`, "m").exec(decoder.decode(machine.inside([], input).output));
  postMessage({ id, sum: found && found[1].split(" ").reduce((sum, word) => sum + (Number(word) || 0), 0) });
}

const KINDS = {
  replay, sum,
  inside: ({ id, input, given }) => { const { status, output } = machine.inside(given ?? [],
    input); postMessage({ id, status, output: decoder.decode(output) }); },
  run: ({ id, input, given }) => { const { status, output } = machine.run(given,
    input); postMessage({ id, status, output: decoder.decode(output) }); },
  version: ({ id }) => postMessage({ id, version: machine.version() }),
};

async function start({ bytes }) {
  try {
    machine = await load(bytes);
    machine.version();
    postMessage({ ready: true });
  } catch (fault) {
    machine = null;
    postMessage({ ready: false, cause: String(fault?.message ?? fault) });
  }
}

addEventListener("message", ({ data }) => {
  if (data.bytes) return start(data);
  try {
    KINDS[data.kind](data);
  } catch (fault) {
    postMessage({ id: data.id, failed: String(fault?.message ?? fault), done: true });
  }
});
