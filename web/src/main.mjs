// The page: a session, its replies, and what each step shows.

import { split } from "../draw/inside.mjs";
import * as memory from "../draw/memory.mjs";
import { objectsOf } from "../draw/objects.mjs";
import { scanned } from "../draw/plot.mjs";
import { style } from "../draw/svg.mjs";
import { counted } from "./charts.mjs";
import { at, element, fill, letterSize } from "./dom.mjs";
import { Editor } from "./editor.mjs";
import { Engine } from "./engine.mjs";
import { showLesson } from "./lesson.mjs";
import * as panes from "./panes.mjs";
import { sentenceOf, spanOf } from "./refused.mjs";
import { OPENING, sentences } from "./rules.mjs";
import { Quiz, saidOfDump, showCaption, showCommand, showDumped, showQuestion, showRule } from "./said.mjs";
import { common, commandAt, parse, prefix } from "./session.mjs";
import * as share from "./share.mjs";

const LONG = 2000;          // commands from which a change waits a while before it is run
const WAIT = 400;           // milliseconds from the last key until it is run
const PAUSE = 300;          // milliseconds from a change until all steps are looked at
const LONGEST_LINK = 60000;  // characters of a session up to which a link has it
const MOST_SLOTS = 4;       // regions of a session up to which each has a place of its own in the drawing
const TALL = 1.9;           // width by height of a drawing, below which it is beside the objects in the lecture view
const LEAST_PLOTTED = 12;   // steps from which the curves are shown
const MOST_PLANNED = 260;   // steps whose sizes are looked at before, so that nothing moves from step to step
const LECTURE_LETTER = 0.025;    // height of a letter of the curves in the lecture view, by the view's height
const FITTING = [1, 0.9, 0.8, 0.7, 0.6, 0.5];    // sizes of the letters of a step's texts
const KEPT = 300;           // machines that are kept

const library = JSON.parse(at("library").textContent);
const engine = new Engine(at("worker").textContent, at("module").textContent);
const page = { session: parse(""), replies: [], step: 0, last: -1, name: "", machines: new Map(), refusal: null, quiz: null,
  planned: null, rows: null, charts: [], isBeside: false, isEdit: false, isLongRun: false, isLecture: false,
  isCurves: false, run: 0, shown: 0 };
let editor, waiting, planning;

// ------------------------------------------------------------------ runs

const repliesOf = number => number ? page.replies[page.session.commands[number - 1].place] ?? [] : [];

/** Takes a text, and shows a step of it: its number, or a function of the session. What its first commands showed is kept. */
function setText(text, wanted) {
  const session = parse(text), step = typeof wanted === "function" ? wanted(session) : wanted,
    same = common(page.session, session);
  session.inputs.forEach((input, place) => { input.place = place; });
  for (const number of page.machines.keys()) if (number > same) page.machines.delete(number);
  page.session = session;
  page.isEdit = typeof wanted === "function";
  page.quiz = null;
  page.planned = null;
  page.rows = null;
  page.charts = [];
  page.isLarge = false;
  document.body.classList.remove("large");
  delete document.body.dataset.planned;
  delete document.body.dataset.charted;
  at("quiz").setAttribute("aria-pressed", "false");
  editor.set(text);
  clearTimeout(waiting);
  if (session.commands.length > LONG) waiting = setTimeout(() => run(step), WAIT);
  else return run(step);
}

/** Runs the session, and shows a step of it. */
async function run(step) {
  const mine = ++page.run, lines = page.session.inputs.map(input => input.text);
  if (page.isLongRun) engine.stop();
  page.isLongRun = lines.length > LONG;
  page.replies = [];
  at("stop").hidden = lines.length <= LONG;
  at("progress").textContent = lines.length > LONG ? "running" : "";
  try {
    const answer = await engine.replay(lines.length ? lines : [""],
      piece => { if (mine === page.run) takePiece(piece, lines.length); });
    if (mine === page.run) {
      page.isLongRun = false;
      await finish(answer, step);
    }
  } catch (fault) {
    if (mine === page.run) stopped(String(fault.message));
  }
}

function takePiece(piece, count) {
  for (const one of piece.replies) page.replies.push(one);
  at("progress").textContent = `${page.replies.length} of ${count} lines`;
}

function stopped(cause) {
  page.isLongRun = false;
  at("stop").hidden = true;
  at("progress").textContent = cause === "stopped" ? `stopped after ${page.replies.length} lines` : cause;
  page.last = Math.max(0, page.session.commands.filter(input => page.replies[input.place]?.length).length);
  editor.showReplies(page.session, page.replies);
  show(Math.min(page.step, page.last));
}

/** The whole session has been answered, or a line was refused. */
function finish(answer, step) {
  for (const one of answer.replies) page.replies.push(one);
  at("stop").hidden = true;
  at("progress").textContent = "";
  page.refusal = refusalOf(answer);
  page.last = lastStep(answer);
  editor.showReplies(page.session, page.replies, isHidden);
  at("slider").max = Math.max(0, page.last);
  clearTimeout(planning);
  planning = setTimeout(() => plan().then(makeCharts), page.isEdit ? PAUSE : 0);
  return show(Math.max(0, Math.min(page.last, step ?? page.step)));
}

/** The last step that can be shown: that before the refused command; none if the world is refused. */
function lastStep(answer) {
  const { header, commands, inputs } = page.session;
  if (!header.length || (answer.refused >= 0 && answer.refused < header.length)) return -1;
  const command = inputs[answer.refused]?.command;
  return command === undefined ? commands.length : command - 1;
}

/** The refused line, its word, and why: from the error line of the replies, or of the end. */
function refusalOf(answer) {
  const told = answer.refused >= 0 ? page.replies[answer.refused] : answer.ending;
  const found = /^error line [0-9]+: (.*)$/.exec((told ?? [])[0] ?? "");
  if (!found) return null;
  const input = page.session.inputs[answer.refused], reason = found[1];
  if (!input) return { line: page.session.lines.length, from: 0, to: 1, reason };
  const registers = Number(page.session.header[1]?.text.split(" ")[3]) || 0;
  return { line: input.at, ...spanOf(input.text, reason, { registers, areas: page.session.areas }, Boolean(input.command)),
    reason };
}

/** The machine after a command. */
async function machineAt(number) {
  if (number < 0) return null;
  if (!page.machines.has(number)) {
    const session = page.session, { output } = await engine.inside(prefix(session, number)), { machine } = split(output);
    if (session !== page.session || !machine) return machine;
    if (page.machines.size >= KEPT) page.machines.delete(page.machines.keys().next().value);
    page.machines.set(number, machine);
  }
  return page.machines.get(number);
}

/** Looks at all steps of a short session, so that the drawing has the same size and places at each. */
async function plan() {
  const session = page.session, last = page.last;
  if (last < 1 || last > MOST_PLANNED) return;
  const machines = [];
  for (let number = 0; number <= last; number++) {
    const machine = await machineAt(number).catch(() => null);
    if (page.session !== session || !machine) return;
    machines.push(machine);
  }
  const slots = memory.slotsOf(machines), sizes = new Map();
  page.rows = last >= LEAST_PLOTTED ? machines.map((machine, number) => plotRow(machine, machines[number - 1], number)) : null;
  page.isLarge = machines.some(machine => panes.wordsOf(machine) >= panes.MAP_FROM);
  document.body.classList.toggle("large", page.isLarge);
  document.body.dataset.planned = String(page.run);
  if (slots.length > MOST_SLOTS || page.isLarge) return draw();
  const sizesOf = way => {
    const name = JSON.stringify(way);
    if (!sizes.has(name)) sizes.set(name, memory.mergeSizes(machines.map((machine, at) => memory.layoutOf(machine,
      machines[at - 1], { ...view(), ...way, slots }).sizes)));
    return sizes.get(name);
  };
  page.planned = { slots, sizesOf };
  document.body.dataset.shape = shapeOf(sizesOf({ across: Math.min(4, slots.length || 1) }));
  draw();
}

/** Makes the charts that the session's comments request. */
async function makeCharts() {
  const { session, run: mine, last } = page, found = [];
  for (const chart of session.charts) found.push(await counted(session, last, chart, engine,
    () => page.run === mine).catch(() => null));
  if (page.run !== mine || !found.some(Boolean)) return;
  page.charts = found.filter(Boolean);
  await draw();
  document.body.dataset.charted = String(mine);
}

/** Whether the drawing of all steps is wider than high enough to be above the objects in the lecture view. */
function shapeOf({ widths, heights }) {
  const total = map => [...map.values()].reduce((sum, one) => sum + one, 0);
  return total(widths) > TALL * total(heights) ? "wide" : "tall";
}

/** What the curves show of a step. */
function plotRow(machine, before, number) {
  let reached = 0;
  for (const object of objectsOf(machine).objects.values()) if (object.held) reached += object.words;
  return { charged: machine.areas.map(area => area.charged), reached, collects: machine.phase !== "idle", left: machine.left,
    scanned: number ? scanned(before, machine, page.session.commands[number - 1].text,
      Number(page.session.header[1].text.split(" ")[5])) : 0 };
}

// ------------------------------------------------------------------ what is shown

const view = () => ({ areas: page.session.areas, font: page.font, most: page.isLarge ? 12 : page.isLecture ? 14 : 24 });

/** Shows a step. */
function show(wanted) {
  page.step = Math.max(0, Math.min(Math.max(0, page.last), wanted));
  at("slider").value = page.step;
  at("place").textContent = page.last < 0 ? "no step" : `step ${page.step} of ${page.last}`;
  document.querySelector("main").dataset.place = at("place").textContent;
  for (const id of ["first", "back"]) at(id).setAttribute("aria-disabled", String(page.step === 0));
  for (const id of ["on", "last"]) at(id).setAttribute("aria-disabled", String(page.step >= page.last));
  const input = page.session.commands[page.step - 1];
  editor.mark(input ? input.at : -1, page.refusal);
  if (input && document.activeElement !== at("text")) editor.reveal(input.at);
  showSaid();
  remember();
  return draw();
}

function showSaid() {
  const input = page.session.commands[page.step - 1];
  fill("asked");
  showCaption(page.session, page.step);
  showCommand(input?.text, repliesOf(page.step));
  const { refusal } = page;
  at("refusal").hidden = !refusal;
  at("refusal").textContent = refusal ? `Line ${refusal.line + 1} is refused: ${refusal.reason}. ${sentenceOf(refusal.reason)}`
    : "";
}

const isAsking = () => Boolean(page.quiz?.asks(page.step));
const isHidden = input => Boolean(page.quiz && input.command >= page.step && page.quiz.asks(input.command));

/** Draws the machine of the step. While the quiz asks, the machine before the command is shown. Sizes are read before anything
 * is drawn, since reading one makes the browser lay out the page. */
async function draw() {
  const mine = ++page.shown, { step, session } = page, isAsked = isAsking();
  if (page.last < 0) return nothing();
  const number = isAsked ? step - 1 : step;
  const [machine, before, said] = await Promise.all([machineAt(number), machineAt(number - 1),
    saidOfDump(isAsked ? [] : session.marks[step], repliesOf(step), engine)]).catch(() => [null, null, ""]);
  if (mine !== page.shown || session !== page.session) return;
  if (!machine) return nothing();
  document.body.classList.toggle("curves", showsCurves());
  const wide = { memory: widthOf("memory"), graph: widthOf("graph") }, height = page.isLecture ? at("regions").clientHeight : 0,
    curves = plotSize(wide.graph);
  const options = { ...view(), fits: page.isLecture, isLarge: page.isLarge, planned: page.planned, isBeside: page.isBeside,
    mostObjects: page.isLecture ? 24 : 40 };
  if (!showsCurves()) {
    panes.showMemory(machine, before, { ...options, width: wide.memory, height });
    panes.showGraph(machine, before, { ...options, width: wide.graph });
  }
  panes.showPlot(page.rows, page.charts, session.areas, { ...options, ...curves, current: step });
  panes.showAccounts(machine, before, session.areas);
  panes.showPages(machine, before);
  const input = session.commands[step - 1];
  if (isAsked) showQuestion(input.text, given => answered(step, given));
  else showRule(input?.text, repliesOf(step)[0], before, machine);
  showDumped(said);
  fitSaid();
  document.body.dataset.drawn = `${page.run} ${step}`;
}

/** In the lecture view the texts of a step get smaller letters if they don't fit their pane. */
function fitSaid() {
  const pane = at("said");
  if (!page.isLecture) return pane.style.removeProperty("--fit");
  for (const size of FITTING) {
    pane.style.setProperty("--fit", size);
    if (pane.scrollHeight <= pane.clientHeight + 1) return;
  }
}

const widthOf = id => Math.max(200, at(id).clientWidth - 8);

const showsCurves = () => page.isLecture && page.isCurves && Boolean(page.rows || page.charts.length);

/** The size of the curves. If they have the lecture view for themselves, they fill it, with letters as large as the other ones. */
function plotSize(width) {
  if (!showsCurves()) return { fits: false, width };
  at("plot").hidden = false;
  const pane = at("curves"), scale = Math.max(1, document.querySelector("main").clientHeight * LECTURE_LETTER / page.font);
  return { fits: true, width: pane.clientWidth / scale, height: pane.clientHeight / scale };
}

function nothing() {
  at("phase").textContent = "";
  showDumped("");
  for (const id of ["regions", "drawing", "accounts", "pages", "events"]) fill(id);
  at("rule").textContent = page.refusal ? "" : "A session is a world, the line `trace`, commands, and `end`.";
  at("map").hidden = true;
  document.body.dataset.drawn = `${page.run} none`;
}

const viewName = () => page.isLecture ? page.isCurves ? "curves" : "lecture" : "";

/** Puts the step into the address. A browser may refuse that if it occurs often. */
function remember() {
  const own = page.session.text.length < LONGEST_LINK ? page.session.text : "";
  const address = share.toHash({ name: page.name, text: own, step: page.step, view: viewName() });
  try {
    history.replaceState(null, "", address);
  } catch {
    at("progress").textContent = "";
  }
}

// ------------------------------------------------------------------ the quiz

function toggleQuiz() {
  page.quiz = page.quiz ? null : new Quiz(page.session, repliesOf);
  at("quiz").setAttribute("aria-pressed", String(Boolean(page.quiz)));
  at("score").textContent = page.quiz ? "predict each reply" : "";
  show(page.quiz ? Math.max(1, page.step) : page.step);
  editor.showReplies(page.session, page.replies, isHidden);
}

function answered(step, given) {
  const reply = repliesOf(step)[0], isRight = page.quiz.answer(step, given, reply);
  at("score").textContent = `${isRight ? "right" : `no: ${reply}`} (${page.quiz.count})`;
  editor.showReplies(page.session, page.replies, isHidden);
  show(step);
  at("on").focus();
}

// ------------------------------------------------------------------ choices

const named = name => library.sessions.find(session => session.name === name);

function choose(name, step = 0) {
  const found = named(name);
  page.name = found ? name : "";
  at("choice").value = found ? name : "";
  showLesson(found?.see ? found : null, engine, text => { own(text); at("text").scrollIntoView({ block: "nearest" }); });
  document.title = found ? `${found.title}: lispm` : "lispm";
  if (found) return setText(found.text, step);
}

/** A text that isn't one of the page's own sessions. */
function own(text, step) {
  page.name = "";
  at("choice").value = "";
  return setText(text, step);
}

/** Begins or ends the lecture view, with memory and objects or with the curves of the whole session. */
function setLecture(is, isCurves = false) {
  page.isLecture = is;
  page.isCurves = isCurves;
  document.body.classList.toggle("lecture", is);
  at("lecture").setAttribute("aria-pressed", String(is));
  page.planned = null;
  remember();
  draw();
  plan();
}

function fillChoice() {
  const groups = new Map();
  for (const session of library.sessions) groups.set(session.group, [...(groups.get(session.group) ?? []), session]);
  fill("choice", element("option", { value: "" }, "your own session"), ...[...groups].map(([label, list]) =>
    element("optgroup", { label }, ...list.map(session => element("option", { value: session.name }, session.title)))));
}

async function openAddress() {
  const said = share.fromHash(location.hash);
  if (/^(lecture|curves)$/.test(said.view)) setLecture(true, said.view === "curves");
  if (said.text !== null && said.text !== "") return own(said.text, said.step);
  const first = document.body.dataset.session;
  return choose(named(said.name) ? said.name : named(first) ? first : library.sessions[0].name, said.step);
}

// ------------------------------------------------------------------ files and prints

async function moment() {
  return { number: page.step, command: page.session.commands[page.step - 1]?.text, reply: repliesOf(page.step),
    machine: await machineAt(page.step) };
}

const fileName = () => `${page.name.replace("/", "-") || "session"}-${page.step}`;

async function preparePrint() {
  const sheets = [], { session } = page;
  for (let number = 0; number <= Math.min(page.last, MOST_PLANNED); number++) {
    const [machine, before] = await Promise.all([machineAt(number), machineAt(number - 1)]),
      command = session.commands[number - 1]?.text;
    if (!machine) break;
    const reply = repliesOf(number), rule = command ? sentences(command.split(" ")[0], reply[0] ?? "",
      before?.phase === "running").join(" ") : OPENING;
    sheets.push(share.printPage({ number, last: page.last, command, reply, caption: session.captions[number] ?? [], machine,
      before, areas: session.areas, rule, font: page.font }));
  }
  fill("print", ...sheets);
}

async function printAll() {
  at("progress").textContent = "making the pages";
  await preparePrint();
  at("progress").textContent = "";
  window.print();
}

async function copyLink() {
  remember();
  const isLong = !page.name && page.session.text.length >= LONGEST_LINK;
  try {
    await navigator.clipboard.writeText(location.href);
    at("progress").textContent = isLong ? "the session is too long for a link" : "the link is copied";
  } catch {
    at("progress").textContent = isLong ? "the session is too long for a link" : "the link is the page's address";
  }
}

// ------------------------------------------------------------------ keys

const keys = { ArrowRight: () => page.step + 1, ArrowLeft: () => page.step - 1, PageDown: () => page.step + 1,
  PageUp: () => page.step - 1,
  " ": () => page.step + 1, Home: () => 0, End: () => page.last };

/** Keys step, unless the focused part of the page uses them itself. */
function onKey(event) {
  if (event.altKey || event.ctrlKey || event.metaKey) return;
  if (event.key === "Escape" && page.isLecture) return setLecture(false);
  if (event.key.toLowerCase() === "c" && page.isLecture && !event.target.closest?.("input")) return setLecture(true, !page.isCurves);
  const own = event.target.closest?.("textarea, input[type=text], select, input[type=range], a, [contenteditable]");
  const goes = keys[event.key], isButton = event.target.closest?.("button, summary") && event.key === " ";
  if (!goes || (own && !(own.id === "slider" && /^(Page| )/.test(event.key))) || (isButton && !page.isLecture)) return;
  event.preventDefault();
  show(goes());
}

function listen() {
  for (const [id, key] of [["first", "Home"], ["back", "ArrowLeft"], ["on", "ArrowRight"],
    ["last", "End"]]) at(id).addEventListener("click", () => show(keys[key]()));
  const actions = { lecture: () => setLecture(!page.isLecture), leave: () => setLecture(false), quiz: toggleQuiz, link: copyLink, print: printAll,
    stop: () => engine.stop(),
    svg: async () => share.saveSvg(await moment(), page.session.areas, fileName()),
      png: async () => share.savePng(await moment(), page.session.areas, fileName()),
    beside: () => { page.isBeside = !page.isBeside; at("beside").setAttribute("aria-pressed", String(page.isBeside)); draw(); },
      theme: nextTheme };
  for (const [id, action] of Object.entries(actions)) at(id === "print" ? "printing" : id).addEventListener("click", action);
  at("slider").addEventListener("input", () => show(Number(at("slider").value)));
  at("choice").addEventListener("change", () => choose(at("choice").value));
  document.addEventListener("keydown", onKey);
  window.addEventListener("hashchange", openAddress);
  let resizing;
  window.addEventListener("resize", () => { clearTimeout(resizing); resizing = setTimeout(resized, 60); });
}

/** Draws for a window of another size, whose letters may be larger. */
function resized() {
  const font = letterSize();
  if (font !== page.font) setFont(font);
  draw();
}

function setFont(font) {
  page.font = font;
  at("letters").textContent = style(true, font);
  editor.measure();
  page.planned = null;
  plan();
}

function nextTheme() {
  const root = document.documentElement, isDark = root.dataset.theme ? root.dataset.theme === "dark"
    : matchMedia("(prefers-color-scheme: dark)").matches;
  root.dataset.theme = isDark ? "light" : "dark";
}

async function begin() {
  document.head.append(element("style", { id: "letters" }));
  editor = new Editor(text => { page.name = ""; at("choice").value = ""; setText(text,
    session => commandAt(session, editor.caretLine())); },
    line => show(Math.min(page.last, commandAt(page.session, line))));
  setFont(letterSize());
  fillChoice();
  listen();
  const cause = await engine.ready;
  if (cause) {
    at("cannot").hidden = false;
    at("cannot").textContent = "This browser can't load the machine, which is WebAssembly in a worker; a newer one can.";
    at("cannot").title = cause;
    return;
  }
  at("version").textContent = (await engine.version()).version;
  await openAddress();
  document.body.dataset.ready = "yes";
}

begin();
