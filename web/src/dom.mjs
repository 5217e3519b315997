// Small helpers over the document.

export const at = id => document.getElementById(id);

/** An element with its attributes and its children; attributes that are undefined or false are left out. */
export function element(name, attributes = {}, ...children) {
  const made = document.createElement(name);
  for (const [key, value] of Object.entries(attributes)) {
    if (value === undefined || value === false) continue;
    if (key.startsWith("on")) made.addEventListener(key.slice(2), value);
    else made.setAttribute(key, value === true ? "" : value);
  }
  made.append(...children.filter(child => child !== null && child !== undefined));
  return made;
}

/** A text whose parts between backquotes are code, as nodes. */
export const withCode = text => text.split("`").map((part, at) => at % 2 ? element("code", {}, part) : part);

export const fill = (id, ...children) => at(id).replaceChildren(...children.filter(child => child !== null &&
  child !== undefined));

/** Puts a drawing into an element. */
export function showDrawing(holder, svg, told) {
  holder.innerHTML = svg;
  if (told) holder.firstElementChild?.setAttribute("aria-label", told);
  return holder.firstElementChild;
}

/** A file for the reader to keep. */
export function save(name, blob) {
  const link = element("a", { href: URL.createObjectURL(blob), download: name });
  document.body.append(link);
  link.click();
  link.remove();
  setTimeout(() => URL.revokeObjectURL(link.href), 10000);
}

/** The size of a drawing's letters in pixels: 12, or more if the reader or a large window has larger letters. */
export function letterSize() {
  const probe = element("span", { style: "position:absolute;visibility:hidden;font:0.75rem monospace;line-height:1" }, "M");
  document.body.append(probe);
  const size = Math.max(12, parseFloat(getComputedStyle(probe).fontSize) || 12, probe.getBoundingClientRect().height);
  probe.remove();
  return size;
}
