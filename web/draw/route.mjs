// Ways of arrows through a grid of boxes. No way runs through a box, and no two ways lie on one another.
//
// Boxes lie in columns and rows. Right of each column c is the gutter c, and the gutter -1 is left of the first column. Above
// each row r is the bus r, and one more bus is below the last row. Ways run in gutters and buses alone, each on a lane of its
// own there, except the short pieces from a box to the gutter or bus beside it.
//
// A port is the place at which a way begins or ends: {column, row, side, dx, dy}, with the distances from the left edge of its column and
// from the upper edge of its row; its side is left, right or bottom. A way is {from, to} and gets `channels`, which it passes in this order.

const ROW = 1e6;    // more than the height of a row, so that places in different rows are ordered before sizes are known
const gutter = index => ({ kind: "gutter", index });
const bus = index => ({ kind: "bus", index });

/** The gutter that a left or right port opens to. */
const gutterAt = port => port.side === "right" ? port.column : port.column - 1;

/** The order of a port, or of a channel, along an axis. */
const heightOf = part => part.kind === "bus" ? part.index * ROW : part.row * ROW + 1 + part.dy;
const widthOf = part => part.kind === "gutter" ? (part.index + 1) * ROW : part.column * ROW + 1 + part.dx;

/** Two ports that face each other at one height: the way is a straight line. */
const isStraight = (from, to) => from.side === "right" && to.side === "left" && from.row === to.row && from.dy === to.dy &&
  to.column === from.column + 1;

/** The channels between two ports. A way from the lower edge of a box goes along the bus below it. */
export function channels(from, to) {
  if (isStraight(from, to)) return [];
  if (to.side === "bottom") return channelsFromBelow(from, to);
  const last = gutterAt(to);
  if (from.side === "bottom") return [bus(from.row + 1), gutter(last)];
  const first = gutterAt(from);
  if (first === last) return [gutter(first)];
  return [gutter(first), bus(busBetween(from, to)), gutter(last)];
}

/** The channels of a way that arrives from below. */
function channelsFromBelow(from, to) {
  const last = bus(to.row + 1);
  if (from.side !== "bottom") return [gutter(gutterAt(from)), last];
  return from.row === to.row ? [last] : [bus(from.row + 1), gutter(to.column - 1), last];
}

/** The bus over which a way gets from one gutter to another: beside the lower one of the rows. */
const busBetween = (from, to) => from.row === to.row ? from.row : Math.max(from.row, to.row);

/** The span that a way takes of its channel number `at`. */
function span(way, at) {
  const before = at === 0 ? way.from : way.channels[at - 1];
  const behind = at === way.channels.length - 1 ? way.to : way.channels[at + 1];
  const order = way.channels[at].kind === "gutter" ? heightOf : widthOf;
  const [one, other] = [order(before), order(behind)];
  return { low: Math.min(one, other), high: Math.max(one, other) };
}

/** The first lane that is free over a span. */
function freeLane(lanes, { low, high }) {
  const found = lanes.findIndex(taken => taken.every(other => high < other.low || other.high < low));
  if (found >= 0) return found;
  lanes.push([]);
  return lanes.length - 1;
}

/** Gives each way its lanes, and says how many lanes each channel has: {gutter: Map, bus: Map}. Short spans are first. */
export function assignLanes(ways) {
  const counts = { gutter: new Map(), bus: new Map() }, uses = new Map();
  for (const way of ways) {
    way.channels = channels(way.from, way.to);
    way.lanes = [];
    way.channels.forEach((channel, at) => {
      const name = `${channel.kind} ${channel.index}`;
      if (!uses.has(name)) uses.set(name, []);
      uses.get(name).push({ way, at, channel, span: span(way, at) });
    });
  }
  for (const list of uses.values()) {
    const lanes = [];
    list.sort((one, other) => (one.span.high - one.span.low) - (other.span.high - other.span.low));
    for (const use of list) {
      const lane = freeLane(lanes, use.span);
      lanes[lane].push(use.span);
      use.way.lanes[use.at] = lane;
    }
    counts[list[0].channel.kind].set(list[0].channel.index, lanes.length);
  }
  return counts;
}

/** Merges counts of lanes: the greatest of each channel. */
export function mergeLanes(...all) {
  const merged = { gutter: new Map(), bus: new Map() };
  for (const counts of all)
    for (const kind of ["gutter", "bus"])
      for (const [index, count] of counts[kind]) merged[kind].set(index, Math.max(count, merged[kind].get(index) ?? 0));
  return merged;
}

/** The places of columns, rows and channels, from their sizes: lefts, tops, and the first lane of each gutter and bus. */
export function place(widths, heights, lanes, sizes) {
  const { lane, gutterPad, busPad, margin } = sizes;
  const along = (boxes, kind, first, pad) => {
    const starts = [], channelAt = new Map();
    let at = margin;
    for (let index = 0; index <= boxes.length; index++) {
      const count = lanes[kind].get(index + first) ?? 0;
      const side = index === 0 || index === boxes.length ? pad.outer : pad.inner;
      channelAt.set(index + first, at + side / 2);
      at += side + Math.max(0, count - 1) * lane + (count ? side / 2 : 0);
      if (index < boxes.length) {
        starts.push(at);
        at += boxes[index];
      }
    }
    return { starts, channelAt, end: at + margin };
  };
  const across = along(widths, "gutter", -1, gutterPad), down = along(heights, "bus", 0, busPad);
  return { lefts: across.starts, tops: down.starts, gutterAt: across.channelAt, busAt: down.channelAt,
    width: across.end, height: down.end, lane };
}

/** The way's path, as `M`, `H` and `V` alone. */
export function path(way, placed) {
  const pointOf = port => [placed.lefts[port.column] + port.dx, placed.tops[port.row] + port.dy];
  const [x1, y1] = pointOf(way.from), [x2, y2] = pointOf(way.to);
  const pieces = [`M${round(x1)},${round(y1)}`];
  way.channels.forEach(({ kind, index }, at) => {
    const start = (kind === "gutter" ? placed.gutterAt : placed.busAt).get(index);
    pieces.push((kind === "gutter" ? "H" : "V") + round(start + way.lanes[at] * placed.lane));
  });
  if (way.to.side === "bottom") pieces.push(`H${round(x2)}`, `V${round(y2)}`);
  else pieces.push(`V${round(y2)}`, `H${round(x2)}`);
  return pieces.join(" ");
}

const round = number => Math.round(number * 10) / 10;
