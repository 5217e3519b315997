// A lesson: what is to be seen in it, and its exercises, which are judged by a run.

import { at, element, fill, withCode } from "./dom.mjs";
import * as tasks from "./task.mjs";

function resultOf(found) {
  const lines = found.lines.map(line => element("li", { class: line.isRight === false ? "wrong" : undefined },
    element("code", {}, `${line.text} `), `${line.reply}`,
    line.said !== undefined ? ` (${line.isRight ? "right" : `you said ${line.said || "nothing"}`})` : ""));
  const head = found.wrong.length ? element("p", { class: "verdict wrong" }, "Not yet. ", found.wrong.join(" "))
    : element("p", { class: "verdict right" }, "Right.");
  return [head, ...(lines.length ? [element("ul", { class: "came" }, ...lines)] : [])];
}

function taskPart(task, number, engine, onTry) {
  const isTold = tasks.isPrediction(task), asked = tasks.asked(task),
    result = element("div", { class: "result", role: "status" });
  const label = isTold ? `Your answers, a line each: ${asked.join("; ")}` : "Your commands, a line each";
  const area = element("textarea", { rows: isTold ? Math.min(8, asked.length + 1) : 4, spellcheck: "false",
    "aria-label": `exercise ${number}: ${label}`, id: `answer-${number}` });
  const check = async () => {
    try {
      result.replaceChildren(...resultOf(await tasks.check(task, area.value, engine)));
    } catch (fault) {
      result.replaceChildren(element("p", { class: "verdict wrong" }, String(fault.message)));
    }
  };
  const conditions = tasks.conditions(task);
  return element("section", { class: "task", "aria-label": `exercise ${number}` }, element("h3", {}, `Exercise ${number}`),
    element("p", {}, ...withCode(task.text)),
    conditions.length ? element("ul", { class: "conditions" }, ...conditions.map(words => element("li", {}, words))) : null,
    element("pre", {}, tasks.shownLines(task).join("\n")), element("p", { class: "small" }, label), area,
    element("p", {}, element("button", { type: "button", onclick: check }, "Check"), " ",
      isTold ? null : element("button", { type: "button", onclick: () =>
        onTry(tasks.shownLines(task).join("\n").replace("; your commands", area.value.trim()) + "\n") },
        "Show it step by step")), result);
}

/** Shows a lesson, or nothing. */
export function showLesson(lesson, engine, onTry) {
  at("lesson").hidden = !lesson;
  if (!lesson) return fill("lesson");
  const see = element("div", { class: "see" });
  see.innerHTML = lesson.see;
  fill("lesson", element("h2", {}, `What to see in lesson ${lesson.number}`), see, element("h2", {}, "Exercises"),
    ...lesson.tasks.map((text, at) => taskPart(tasks.read(text), at + 1, engine, onTry)));
}
