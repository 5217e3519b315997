// The texts of a step: its caption, the command, its reply, the rule, and the events. In a quiz the reader first predicts the reply.

import { events } from "./events.mjs";
import { OPENING, sentences } from "./rules.mjs";
import { at, element, fill, withCode } from "./dom.mjs";

const MOST_LINES = 40;
const LONG = 26;        // characters from which a command is written smaller in the lecture view

/** The comments before a command, or the nearest ones before those: {parts, isEarlier}. */
export function captionOf(session, step) {
  const ending = step === session.commands.length ? session.captions.ending ?? [] : [];
  let from = step;
  while (from > 0 && !session.captions[from]) from--;
  return { parts: [...session.captions[from] ?? [], ...ending], isEarlier: from < step && !ending.length };
}

/** The caption of a step. */
export function showCaption(session, step) {
  const { parts, isEarlier } = captionOf(session, step);
  fill("caption", ...parts.map(part => element("p", {}, ...withCode(part))));
  at("caption").className = isEarlier ? "earlier" : "";
}

export function showCommand(command, replies) {
  at("command").textContent = command ?? "before the first command";
  at("command").className = (command ?? "").length > LONG ? "long" : "";
  const shown = replies.slice(0, MOST_LINES), more = replies.length > MOST_LINES
    ? [`\u2026 ${replies.length - MOST_LINES} more lines`] : [];
  at("reply").textContent = [...shown, ...more].join("\n");
}

/** The rule and the events of a step. */
export function showRule(command, reply, before, machine) {
  const head = command?.split(" ")[0];
  const rules = command === undefined ? [OPENING] : sentences(head, reply ?? "", before?.phase === "running");
  at("rule").textContent = rules.join(" ");
  fill("events", ...events(before, machine, head).map(one => element("li", {}, one.text,
    one.rule ? element("span", { class: "why" }, ` ${one.rule}`) : "")));
}

/** The quiz: which commands have a question, and which questions have been answered. */
export class Quiz {
  constructor(session, replies) {
    this.answered = new Map();
    const marked = session.commands.filter(input => input.asked), all = marked.length ? marked : session.commands;
    this.asked = new Set(all.filter(input => replies(input.command).length === 1).map(input => input.command));
  }

  asks(command) {
    return this.asked.has(command) && !this.answered.has(command);
  }

  answer(command, given, reply) {
    this.answered.set(command, given.trim().split(/\s+/).join(" ") === reply);
    return this.answered.get(command);
  }

  get count() {
    const right = [...this.answered.values()].filter(Boolean).length;
    return `${right} of ${this.answered.size} right`;
  }
}

/** Shows the question about the reply to a command; `onAnswer` receives the reader's prediction. */
export function showQuestion(command, onAnswer) {
  at("command").textContent = command;
  at("reply").textContent = "";
  at("rule").textContent = "What does the machine reply?";
  fill("events");
  const field = element("input", { type: "text", autocomplete: "off", autocapitalize: "off", spellcheck: "false",
    "aria-label": `the reply to ${command}` });
  const form = element("form", { onsubmit: event => { event.preventDefault(); onAnswer(field.value); } }, field, " ",
    element("button", { type: "submit" }, "Answer"));
  fill("asked", form);
  field.focus();
}

/** What `lispm census` and `lispm why` write about a dump, if the session's comments request it. */
export async function saidOfDump(marks, dump, engine) {
  const said = [];
  for (const mark of marks ?? []) {
    const [mode, object] = mark.split(" "), { output } = await engine.run(object ? [mode, "--object", object] : [mode],
      dump.join("\n") + "\n");
    said.push(`$ lispm ${mode}${object ? ` --object ${object}` : ""} <DUMP\n${output}`);
  }
  return said.join("\n");
}

export function showDumped(text) {
  at("dumped").hidden = !text;
  at("dumped").textContent = text;
}
