// The editor: the session's text with its replies beside it, the line of the step, and the word at which a line is refused.

import { at, fill, element } from "./dom.mjs";
import { unpasted } from "./session.mjs";

const LINE = 1.45, COUNT = 20;      // the height of a line by that of a letter; letters of the probe

/** What is beside each line: the first line of its reply, and how many more there are. */
function replyLines(session, replies, hidden) {
  const beside = new Array(session.lines.length).fill("");
  session.inputs.forEach((input, place) => {
    const found = replies[place];
    if (!found?.length) return;
    beside[input.at] = hidden(input) ? "?" : found.length > 1 ? `${found[0]} \u2026 ${found.length - 1} more` : found[0];
  });
  return beside.join("\n");
}

export class Editor {
  /** `onText` gets a changed text, `onLine` the number of the line in which the caret is. */
  constructor(onText, onLine) {
    this.area = at("text");
    this.area.addEventListener("input", () => onText(this.area.value));
    this.area.addEventListener("paste", event => this.paste(event, onText));
    const moved = () => onLine(this.caretLine());
    this.area.addEventListener("keyup", event => { if (/^(Arrow|Page|Home|End)/.test(event.key)) moved(); });
    this.area.addEventListener("click", moved);
    this.area.addEventListener("scroll", () => this.follow());
    this.marks = { step: -1, refused: null };
  }

  /** A session from a page of docs/ is taken without its indent and its replies. */
  paste(event, onText) {
    const given = event.clipboardData?.getData("text/plain") ?? "", text = unpasted(given);
    if (text === given) return;
    event.preventDefault();
    this.area.setRangeText(text, this.area.selectionStart, this.area.selectionEnd, "end");
    onText(this.area.value);
  }

  caretLine() {
    return this.area.value.slice(0, this.area.selectionStart).split("\n").length - 1;
  }

  set(text) {
    if (this.area.value !== text) this.area.value = text;
  }

  /** Shows replies, except those that `hidden` names: the quiz has questions about them. */
  showReplies(session, replies, hidden = () => false) {
    at("editor").style.setProperty("--lines", String(session.lines.length + 1));
    at("replies").textContent = replyLines(session, replies, hidden) + "\n";
    this.follow();
  }

  /** Marks the line of the step, and the word of a refusal: {line, from, to}. */
  mark(step, refused) {
    this.marks = { step, refused };
    const boxes = [];
    if (step >= 0) boxes.push(element("div", { class: "mark step", style: `top:calc(var(--pad) + ${step} * var(--line))` }));
    if (refused) boxes.push(element("div", { class: "mark refused",
      style: `top:calc(var(--pad) + ${refused.line} * var(--line));left:calc(var(--pad) + ${refused.from} * var(--letter));width:calc(${Math.max(1, refused.to - refused.from)} * var(--letter))` }));
    fill("marks", ...boxes);
    this.follow();
  }

  /** Measures the letters that the browser really gives, for the heights of lines and the places of marks. */
  measure() {
    const probe = element("span", { style: "position:absolute;visibility:hidden;line-height:1" }, "0".repeat(COUNT));
    at("marks").append(probe);
    const { width, height } = probe.getBoundingClientRect();
    probe.remove();
    this.height = Math.round(LINE * height);
    at("editor").style.setProperty("--line", `${this.height}px`);
    at("editor").style.setProperty("--letter", `${width / COUNT}px`);
  }

  /** Scrolls the step's line into the editor. */
  reveal(step) {
    const { height } = this, top = step * height;
    if (top < this.area.scrollTop || top + 2 * height > this.area.scrollTop +
      this.area.clientHeight) this.area.scrollTop = Math.max(0, top - this.area.clientHeight / 2);
    this.follow();
  }

  /** Lets the replies and the marks scroll with the text. */
  follow() {
    at("replies").scrollTop = this.area.scrollTop;
    at("marks").style.transform = `translate(${-this.area.scrollLeft}px,${-this.area.scrollTop}px)`;
  }
}
