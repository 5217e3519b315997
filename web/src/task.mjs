// Exercises: a world and a trace in which the reader supplies commands or predicts replies (tools/lib/tour/tasks.py has the
// form of their files). An answer is run, and judged by what is replied.

const BETWEEN = " | ", YOURS = "your commands";

/** A line: its text, the required reply (`?` if it is to be predicted), and whether it is a comment. */
function itemOf(line) {
  if (line.startsWith(";")) return { text: line.slice(1).trim(), beside: null, isComment: true };
  const found = /^(.*?) +; (.*)$/.exec(line);
  return found ? { text: found[1], beside: found[2], isComment: false } : { text: line, beside: null, isComment: false };
}

/** An exercise: its text, and its lines from the first one of the world on. */
export function read(text) {
  const items = text.replace(/\n$/, "").split("\n").map(itemOf), first = items.findIndex(item => !item.isComment);
  return { text: items.slice(0, first).map(item => item.text).join(" "), items: items.slice(first) };
}

const comments = (task, start) => task.items.filter(item => item.isComment &&
  item.text.startsWith(start)).map(item => item.text.slice(start.length).trim());

/** The reader says replies, and writes no commands. */
export const isPrediction = task => comments(task, YOURS).length === 0;

const IN_WORDS = "that is:";

/** What the machine must show: patterns of its lines, each with what it means in words if the exercise says that. */
function patternsOf(task) {
  const found = [];
  for (const { text, isComment } of task.items) {
    const read = isComment && /^machine(?:, ([0-9]+) times)?: (.*)$/.exec(text);
    if (read) found.push({ times: read[1], pattern: read[2],
      words: `the machine has ${read[1] === undefined ? "a line" : `${read[1]} lines`} ${read[2]}`, isOpen: true });
    else if (isComment && text.startsWith(IN_WORDS) &&
      found[found.length - 1]?.isOpen) found[found.length - 1].words = text.slice(IN_WORDS.length).trim();
    if (!read && found.length) found[found.length - 1].isOpen = false;
  }
  return found;
}

/** What the reader has to keep to, in words. */
export const conditions = task => [...comments(task, "at most ").map(words => `at most ${words}`),
  ...comments(task, "only ").map(words => `only these commands: ${words}`),
  ...comments(task, "without ").map(words => `without ${words}`), ...patternsOf(task).map(one => one.words)];

/** The lines for the reader, with a place for the commands. */
export const shownLines = task => task.items.filter(item => !item.isComment || item.text === YOURS)
  .map(item => item.isComment ? `; ${YOURS}` : item.beside === null ? item.text
    : `${item.text.padEnd(24)} ${item.beside === "?" ? "; ?" : item.beside}`);

/** What the reader predicts: the replies of commands, and the rest of lines of the machine, in words if the exercise has them. */
export function asked(task) {
  const found = task.items.filter(item => !item.isComment && item.beside === "?").map(item => item.text);
  task.items.forEach(({ text, isComment }, at) => {
    if (!isComment || !text.startsWith("machine ?:")) return;
    const next = task.items[at + 1]?.text ?? "";
    found.push(next.startsWith(IN_WORDS) ? next.slice(IN_WORDS.length).trim() : text.slice("machine ?:".length).trim());
  });
  return found;
}

const answerLines = answer => answer.split("\n").map(line => line.trim()).filter(line => line && !line.startsWith(";"));

function filled(task, yours) {
  return task.items.flatMap(item => item.isComment ? (item.text === YOURS ? yours.map(text => ({ text, beside: null })) : [])
    : [item]);
}

function brokenRules(task, yours) {
  const wrong = [];
  for (const said of comments(task, "at most ")) if (yours.length > parseInt(said,
    10)) wrong.push(`There are ${yours.length} commands; at most ${said}.`);
  for (const [start, isWrong] of [["without ", (head, list) => list.includes(head)],
    ["only ", (head, list) => !list.includes(head)]])
    for (const said of comments(task, start))
      for (const line of yours) if (isWrong(line.split(" ")[0],
        said.split(", "))) wrong.push(`${start[0].toUpperCase()}${start.slice(1)}${said}: \`${line}\` isn't allowed.`);
  return wrong;
}

/** A pattern with `?` and `*`, as the shell has them. */
const asPattern = pattern => new RegExp("^" + pattern.replace(/[.+^${}()|[\]\\]/g, "\\$&").replaceAll("*", ".*").replaceAll("?",
  ".") + "$");

function wrongPatterns(task, machine) {
  return patternsOf(task).flatMap(({ times, pattern, words }) => {
    const count = machine.filter(line => asPattern(pattern).test(line)).length;
    return (times === undefined ? count > 0 : count === Number(times)) ? [] : [`Not so: ${words}.`];
  });
}

const sameWords = (one, other) => one.trim().split(/\s+/).join(" ") === other.trim().split(/\s+/).join(" ");

/** The replies of a filled input by its items, and the machine's lines; or the refusal. */
async function runOf(items, engine) {
  const lines = items.map(item => item.text), { replies, refused } = await wholeReplay(lines, engine);
  if (refused) return { refused };
  const { output } = await engine.inside(lines.join("\n") + "\n"), all = output.split("\n");
  return { replies, machine: all.slice(all.indexOf("lispm-inside 1")) };
}

async function wholeReplay(lines, engine) {
  const answer = await engine.replay(lines), replies = answer.replies;
  if (answer.refused >= 0) return { refused: { line: lines[answer.refused], reason: (replies[answer.refused] ?? []).join(" ") } };
  return answer.status ? { refused: { line: "", reason: answer.ending.join(" ") } } : { replies };
}

/** Judges an answer: {wrong: sentences, lines: the replies}. The answer is right if `wrong` is empty. */
export async function check(task, answer, engine) {
  const given = answerLines(answer), items = filled(task, isPrediction(task) ? [] : given);
  const { refused, replies, machine } = await runOf(items, engine);
  if (refused) return { wrong: [`The machine refuses \`${refused.line}\`: ${refused.reason.replace(/^error line [0-9]+: /, "")}.`], lines: [] };
  return isPrediction(task) ? judgeTold(task, items, replies, machine, given)
    : judgeCommands(task, items, replies, machine, given);
}

function judgeTold(task, items, replies, machine, given) {
  const wanted = items.map((item, at) => ({ text: item.text, beside: item.beside,
    reply: replies[at].join(BETWEEN) })).filter(item => item.beside === "?");
  for (const begin of comments(task, "machine ?:")) wanted.push({ text: begin,
    reply: machine.find(line => line.startsWith(begin + " "))?.slice(begin.length) ?? "" });
  const lines = wanted.map(({ text, reply }, at) => ({ text, reply: reply.trim(), said: given[at] ?? "",
    isRight: sameWords(given[at] ?? "", reply) }));
  const right = lines.filter(line => line.isRight).length,
    wrong = right < lines.length ? [`${right} of ${lines.length} right.`] : [];
  if (given.length > wanted.length) wrong.push(`There are ${given.length} answers, and ${wanted.length} are required.`);
  return { wrong, lines };
}

function judgeCommands(task, items, replies, machine, given) {
  const wrong = brokenRules(task, given), lines = [];
  items.forEach((item, at) => {
    if (!replies[at].length) return;
    const reply = replies[at].join(BETWEEN), isRight = item.beside === null || item.beside === reply;
    lines.push({ text: item.text, reply, isRight });
    if (!isRight) wrong.push(`\`${item.text}\` answers ${reply}, and ${item.beside} is wanted.`);
  });
  return { wrong: [...wrong, ...wrongPatterns(task, machine)], lines };
}
