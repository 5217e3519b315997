// What the tests look at in the page, and do in it. It is there before the page's own scripts.
"use strict";

window.errors = [];
window.saved = [];
addEventListener("error", event => errors.push(String(event.message)));
addEventListener("unhandledrejection", event => errors.push(String(event.reason)));

// Files that the page saves.
const create = URL.createObjectURL.bind(URL);
URL.createObjectURL = blob => {
  if (/svg|png/.test(blob.type)) blob.arrayBuffer().then(data => saved.push({ type: blob.type, bytes: [...new Uint8Array(data)] }));
  return create(blob);
};

// Questions to the machine about a dump: the delay in milliseconds after which each is sent, and the number of answers so far.
window.asked = { wait: 0, answers: 0 };
const post = Worker.prototype.postMessage;
Worker.prototype.postMessage = function (data, ...more) {
  if (data.kind !== "run") return post.call(this, data, ...more);
  this.addEventListener("message", event => { if (event.data.id === data.id) asked.answers++; });
  setTimeout(() => post.call(this, data, ...more), asked.wait);
};

const at = id => document.getElementById(id);
const svg = () => document.querySelector("#regions svg");
const texts = selector => [...document.querySelectorAll(selector)].map(one => one.textContent);

window.look = {
  step: () => document.body.dataset.drawn,
  memory: () => new XMLSerializer().serializeToString(svg()),
  accounts: () => texts("#accounts .mono"),
  changed: () => [...document.querySelectorAll("#regions .word")].filter(one => one.querySelector(".d-changed")).map(one => one.dataset.address),
  sessions: () => [...document.querySelectorAll("#choice option")].map(one => one.value).filter(Boolean),

  // Parts of the page that have no name for a screen reader.
  nameless: () => [...document.querySelectorAll("button, input, select, textarea, section:not([hidden]):not(#side):not(#print)")]
    .filter(one => !(one.getAttribute("aria-label") || one.getAttribute("aria-labelledby") || one.textContent.trim() || one.labels?.length))
    .map(one => one.id || one.outerHTML),
  drawingsWithoutName: () => [...document.querySelectorAll("main svg")].filter(one => one.getAttribute("role") !== "img" || !one.getAttribute("aria-label")).length,

  // The mark of a refused word, in letters: where it begins, and how wide it is.
  refused: () => {
    const mark = document.querySelector(".mark.refused").getBoundingClientRect(), paper = at("paper").getBoundingClientRect();
    const letter = parseFloat(getComputedStyle(at("editor")).getPropertyValue("--letter")), pad = parseFloat(getComputedStyle(at("text")).paddingLeft);
    return [(mark.left - paper.left - pad) / letter, mark.width / letter];
  },

  // The curves of a chart by their names, read back with the scale on the left side: a value for each step.
  curves: () => {
    const drawing = document.querySelector("#curves svg"), all = selector => [...drawing.querySelectorAll(selector)];
    const number = (one, name) => Number(one.getAttribute(name));
    const grid = all("path.d-grid").map(one => Number(/^M[^,]*,([^h]*)/.exec(one.getAttribute("d"))[1]));
    const numbers = all('text.quiet[text-anchor="end"]').map(one => Number(one.textContent));
    const steps = all('text.quiet[text-anchor="middle"]').map(one => [Number(one.textContent), number(one, "x")]);
    const wide = (steps[steps.length - 1][1] - steps[0][1]) / steps[steps.length - 1][0];
    const valueOf = y => Math.round((grid[0] - y) / (grid[0] - grid[1]) * (numbers[1] - numbers[0]) * 10) / 10;
    return Object.fromEntries(all("path[data-series]").map(one => {
      const corners = [...one.getAttribute("d").matchAll(/(?:M([^,]*),|H([^V]*)V)([-0-9.]*)/g)];
      const values = corners.map(([, first, next, y]) => [Math.round((Number(first ?? next) - steps[0][1]) / wide), valueOf(Number(y))]);
      return [one.dataset.series, values];
    }));
  },
  // The height of the drawing's letters on the screen.
  letters: () => {
    const box = svg().viewBox.baseVal, shown = svg().getBoundingClientRect(), font = parseFloat(getComputedStyle(svg().querySelector("text.quiet")).fontSize);
    return font * Math.min(shown.width / box.width, shown.height / box.height);
  },
  // The size of the drawing, and the place of region 0 in it.
  place: () => {
    const whole = svg().getBoundingClientRect(), box = document.querySelector('#regions [data-region="0"] rect').getBoundingClientRect();
    return [whole.width, whole.height, box.left - whole.left, box.top - whole.top].map(Math.round);
  },
  // How much of its pane the drawn part of the first curves fills: its width and its height.
  filled: () => {
    const pane = at("curves").getBoundingClientRect(), shown = document.querySelector("#curves svg").getBoundingClientRect(), whole = document.querySelector("#curves svg").viewBox.baseVal,
      scale = Math.min(shown.width / whole.width, shown.height / whole.height);
    return [whole.width * scale / pane.width, whole.height * scale / pane.height];
  },
  // Texts of a step that don't fit their pane.
  cut: () => at("said").scrollHeight > at("said").clientHeight + 1 ? [look.step(), at("said").scrollHeight, at("said").clientHeight] : [],
  main: () => { const box = document.querySelector("main").getBoundingClientRect(); return [box.width, box.height]; },
  page: () => [document.documentElement.scrollWidth, document.documentElement.scrollHeight],
  sideways: () => at("regions").scrollWidth - at("regions").clientWidth,
  line: () => parseFloat(getComputedStyle(at("editor")).getPropertyValue("--line")),
  // Cells out of which a text runs.
  tooNarrow: () => [...document.querySelectorAll("#regions .word, #regions .register")].filter(cell => {
    const box = cell.querySelector("rect").getBoundingClientRect();
    return [...cell.querySelectorAll("text")].map(one => one.getBoundingClientRect()).some(text => text.left < box.left - 2 || text.right > box.right + 2);
  }).length,
  fetched: () => performance.getEntriesByType("resource").map(one => one.name).filter(name => !/^(blob|data):/.test(name)),

  select: line => {
    const area = at("text"), lines = area.value.split("\n"), from = lines.slice(0, line).join("\n").length + (line ? 1 : 0);
    area.focus();
    area.setSelectionRange(from, from + lines[line].length);
  },
  edit: text => {
    at("text").value = text;
    at("text").setSelectionRange(0, 0);
    at("text").dispatchEvent(new Event("input"));
  },
  // How many milliseconds it takes until a changed number shows.
  keystroke: number => new Promise(resolve => {
    const area = at("text"), before = look.step(), from = performance.now();
    area.value = area.value.replace(/set 5 [0-9]+/, `set 5 ${number}`);
    area.setSelectionRange(area.value.length, area.value.length);
    area.dispatchEvent(new Event("input"));
    const wait = () => look.step() === before ? setTimeout(wait, 1) : resolve(performance.now() - from);
    wait();
  }),
  answer: (task, text) => {
    const area = at(`answer-${task}`);
    area.value = text;
    area.closest("section").querySelector(".result").replaceChildren();
    area.closest("section").querySelector("button").click();
  },
  verdict: task => at(`answer-${task}`).closest("section").querySelector(".verdict")?.textContent,
  ask: text => {
    const field = document.querySelector("#asked input");
    field.value = text;
    field.form.requestSubmit();
  },
};
