// Small pieces of SVG as strings, its colours and its style.

const COLOURS = {
  ground: ["#ffffff", "#16181c"], ink: ["#000000", "#f2f2f2"], quiet: ["#555555", "#b4b4b4"], line: ["#767676", "#8c8c8c"],
  cell: ["#ffffff", "#24272d"], pale: ["#f0f0f0", "#31353d"], old: ["#d9d9d9", "#4a4f59"], left: ["#fbf2a0", "#5c5310"],
  forward: ["#fbe0c8", "#653a14"], reference: ["#0072b2", "#63b8ec"], moved: ["#b84c00", "#ff9a57"], root: ["#333333", "#d0d0d0"],
  changed: ["#cc4490", "#f39ac8"], white: ["#ffffff", "#ffffff"], grey: ["#bdbdbd", "#bdbdbd"], black: ["#1c1c1c", "#1c1c1c"],
  area0: ["#ffffff", "#24272d"], area1: ["#dceef9", "#123a52"], area2: ["#e2f2ec", "#12402f"], area3: ["#fbf3cf", "#4a3f10"],
  area4: ["#f9e2d2", "#54300f"], area5: ["#f3e1ec", "#4a2440"],
};
export const AREAS = 6;
const MONO = "ui-monospace,'DejaVu Sans Mono',Menlo,Consolas,monospace";

/** The style sheet's variables for a page: `light` or `dark`. */
export function variables(scheme) {
  const at = scheme === "dark" ? 1 : 0;
  return Object.entries(COLOURS).map(([name, pair]) => `--d-${name}:${pair[at]}`).join(";");
}

/** The style of a drawing. In a page colours are the page's variables; a drawing in a file of its own has them as numbers. */
export function style(isInPage, font) {
  const of = name => isInPage ? `var(--d-${name},${COLOURS[name][0]})` : COLOURS[name][0];
  const areas = Array.from({ length: AREAS }, (_, at) => `.d-area${at}{fill:${of("area" + at)}}`).join("");
  const arrows = ["reference", "moved", "root"].map(kind =>
    `.d-arrow.${kind}{stroke:${of(kind)}}.d-head.${kind}{fill:${of(kind)}}`).join("");
  return `.d text{font:${font}px ${MONO};fill:${of("ink")}}.d text.head{font-weight:bold}.d text.big{font-size:${font * 1.2}px;font-weight:bold}`
    + `.d text.quiet{fill:${of("quiet")}}.d text.pointer{fill:${of("moved")};font-weight:bold}`
    + `.d-ground{fill:${of("ground")}}.d-cell{fill:${of("cell")};stroke:${of("line")}}.d-pale{fill:${of("pale")};stroke:${of("line")}}`
    + `.d-left{fill:${of("left")};stroke:${of("line")}}.d-forward{fill:${of("forward")};stroke:${of("line")}}`
    + `.d-stale{fill:none;stroke:${of("line")}}.d text.stale{fill:${of("quiet")};text-decoration:line-through}`
    + `.d-next{fill:none;stroke:${of("moved")};stroke-width:2.5}.d-changed{fill:${of("changed")}}.d-old{stroke:${of("old")};stroke-width:3}`
    + `.d-frame{fill:${of("ground")};stroke:${of("line")}}.d-dashed{stroke-dasharray:4 3;stroke-width:2}.d-page{stroke:${of("ink")};stroke-width:1.5;stroke-dasharray:4 3}`
    + `.d-outline{fill:none;stroke:${of("changed")};stroke-width:3}`
    + `.d-box{stroke:${of("line")}}.d-box.white{fill:${of("white")}}.d-box.grey{fill:${of("grey")}}.d-box.black{fill:${of("black")}}`
    + `.d text.on-white,.d text.on-grey{fill:#000}.d text.on-black{fill:#fff}.d-box.unheld{fill:none;stroke-dasharray:4 3}.d text.unheld{fill:${of("quiet")}}`
    + `.d-arrow{fill:none;stroke-width:1.4;stroke-linejoin:round}.d-arrow.moved{stroke-width:2}.d-arrow.into-old{stroke-dasharray:6 3}`
    + `.d-grid{fill:none;stroke:${of("old")};stroke-width:1}.d-now{fill:none;stroke:${of("changed")};stroke-width:2}`
    + `.d-bar{fill:${of("reference")}}.d-tag{fill:${of("moved")}}` + areas + arrows;
}

/** Text that may be in an element or an attribute. */
export function escape(text) {
  return String(text).replaceAll("&", "&amp;").replaceAll("<", "&lt;").replaceAll(">", "&gt;").replaceAll('"', "&quot;");
}

/** Numbers are kept short. */
export const short = number => String(Math.round(number * 100) / 100);

/** An element; attributes that are undefined are left out. */
export function element(name, attributes, inner = "") {
  const said = Object.entries(attributes).filter(([, value]) => value !== undefined && value !== "")
    .map(([key, value]) => ` ${key}="${typeof value === "number" ? short(value) : escape(value)}"`).join("");
  return inner === "" ? `<${name}${said}/>` : `<${name}${said}>${inner}</${name}>`;
}

export const rect = (x, y, width, height, kind, more = {}) => element("rect", { x, y, width, height, class: kind, ...more });
export const text = (x, y, words, kind = "", more = {}) => element("text", { x, y, class: kind, ...more }, escape(words));
export const group = (kind, more, ...pieces) => element("g", { class: kind, ...more }, pieces.join(""));

const head = kind => element("marker", { id: `d-head-${kind}`, viewBox: "0 0 8 8", refX: 8, refY: 4, markerWidth: 8,
  markerHeight: 8,
  markerUnits: "userSpaceOnUse", orient: "auto" }, element("path", { d: "M0,0.5 L8,4 L0,7.5 z", class: `d-head ${kind}` }));
const hatching = `<pattern id="d-hatching" width="8" height="8" patternUnits="userSpaceOnUse" patternTransform="rotate(45)">`
  + `<line x1="0" y1="0" x2="0" y2="8" class="d-old"/></pattern>`;

/** A whole drawing: its pieces on a ground, with a title and a description for those who can't see it. A drawing in the page
 * has the page's style and arrow heads: a style of its own would make the browser style the whole page again. */
export function drawing(width, height, title, told, pieces, options = {}) {
  const { inPage = false, font = 12 } = options;
  const own = inPage ? {} : { xmlns: "http://www.w3.org/2000/svg" };
  const shared = inPage ? [] : [`<style>${style(false, font)}</style>`,
    element("defs", {}, hatching + ["reference", "moved", "root"].map(head).join(""))];
  const inner = [element("title", {}, escape(title)), told ? element("desc", {}, escape(told)) : "", ...shared,
    rect(0, 0, width, height, "d-ground"), ...pieces].filter(Boolean);
  return element("svg", { ...own, class: "d", width, height, viewBox: `0 0 ${short(width)} ${short(height)}`, role: "img" },
    inner.join("\n"));
}
