// A session as a value: its world, its commands, its comments, and the place of each line in the text.
//
// A line that begins with `;` is a comment, and what follows `;` on a line of a commented session is a remark; the machine
// reads neither. Comments before a command are its caption, except marks, which only say what the tour shows there.

import { chartOf } from "./charts.mjs";

const MARK = /^(picture|census|why [0-9]+|chart [a-z ]+, [a-z]+( [0-9]+)+)$/;
const REMARK = / *;.*$/;

const words = line => line.replace(/^;+ ?/, "").trim();

/** The parts of a text: `header` and `commands` with their lines from 0, `captions` by the command that they precede, what
 * `marks` request of a dump by the command that wrote it, and the `charts` that marks request. */
export function parse(text) {
  const lines = text.split("\n"), inputs = [], captions = {}, marks = {}, charts = [];
  if (lines[lines.length - 1] === "") lines.pop();
  let isTrace = false, isOver = false, comments = [], commands = 0;
  lines.forEach((line, at) => {
    if (line.startsWith(";") || (line.trim() === "" && lines.some(other => other.startsWith(";")))) {
      if (!MARK.test(words(line))) comments.push(words(line));
      else if (/^(census|why)/.test(words(line))) (marks[commands] ??= []).push(words(line));
      else charts.push(chartOf(words(line)));
      return;
    }
    const input = { at, text: line.includes(";") ? line.replace(REMARK, "") : line, asked: /; \?$/.test(line) };
    if (isTrace && !isOver && input.text !== "end") {
      input.command = ++commands;
      if (comments.length) captions[commands] = caption(comments);
      comments = [];
    } else if (input.text === "trace") {
      if (comments.length) captions[0] = caption(comments);
      comments = [];
    }
    if (isTrace && input.text === "end") isOver = true;
    if (input.text === "trace") isTrace = true;
    inputs.push(input);
  });
  if (comments.length) captions.ending = caption(comments);
  const header = inputs.slice(0, 1 + inputs.findIndex(input => input.text === "trace"));
  return { text, lines, inputs, header, commands: inputs.filter(input => input.command), captions, marks,
    charts: charts.filter(Boolean), areas: areasOf(header), isWhole: isOver };
}

/** Comments as paragraphs. */
const caption = comments => comments.join("\n").trim().split(/\n\s*\n/).map(part => part.replaceAll("\n", " ")).filter(Boolean);

const areasOf = header => header.map(input => input.text.split(" ")).filter(line => line[0] === "area" &&
  line.length > 1).map(line => line[1]);

/** The input up to a command, as lispm_inside reads it. */
export function prefix(session, number) {
  const kept = session.commands.slice(0, number);
  return [...session.header, ...kept].map(input => input.text).join("\n") + "\nend\n";
}

/** The command that the caret's line belongs to: the last one at or before it. */
export function commandAt(session, line) {
  let low = 0, high = session.commands.length;
  while (low < high) {
    const middle = (low + high) >> 1;
    if (session.commands[middle].at <= line) low = middle + 1;
    else high = middle;
  }
  return low;
}

/** How many commands two sessions have in common from their beginning; -1 if their worlds differ. */
export function common(one, other) {
  const text = inputs => inputs.map(input => input.text).join("\n");
  if (text(one.header) !== text(other.header)) return -1;
  let count = 0;
  while (count < one.commands.length && count < other.commands.length &&
    one.commands[count].text === other.commands[count].text) count++;
  return count;
}

/** A session as it is on a page of docs/, with an indent, replies beside its commands and blank lines, as a session to run. */
export function unpasted(text) {
  const indent = /^( *)lispm-world [12]\b/m.exec(text)?.[1];
  if (indent === undefined || (!indent && !/^[^\s;].*? {3,}[^\s;]/m.test(text))) return text;
  return text.split("\n").filter(line => line.startsWith(indent) || !line.trim()).map(line => line.slice(indent.length))
    .filter(line => !line.startsWith("  ")).map(line => line.startsWith(";") ? line : line.replace(/ {2,}\S.*$/, "").trimEnd() ||
      ";").join("\n").replace(/(\n;)*$/, "\n");
}
