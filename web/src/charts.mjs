// Charts of a session: how a count changes from command to command, for several values of one size of its world.

const SIZES = { regions: 1, frames: 2, registers: 3, levels: 4, rate: 5 };     // arguments of the line `space`
// The line of lispm_inside whose numbers are added, and what they count.
const COUNTS = { left: ["left", "units not yet scanned"], "page calls": ["calls", "page calls, written and read"] };
const MOST_RUNS = 600;      // runs of a chart: one for each command and value

/** The chart that a mark requests, `chart COUNT, SIZE N ..`; null if it requests none. */
export function chartOf(mark) {
  const [, count, size, values] = /^chart ([a-z ]+), ([a-z]+)((?: [0-9]+)+)$/.exec(mark) ?? [];
  if (!COUNTS[count] || !SIZES[size]) return null;
  const [head, title] = COUNTS[count];
  return { head, title, size, values: values.trim().split(" ").map(Number) };
}

/** The input up to a command, in a world that has this value of a size. */
function inputOf(session, number, size, value) {
  const changed = ({ text }) => {
    const words = text.split(" ");
    if (words[0] === "space") words[SIZES[size]] = value;
    return words.join(" ");
  };
  return [...session.header.map(changed), ...session.commands.slice(0, number).map(input => input.text), "end", ""].join("\n");
}

/** A chart with its counts after each command up to the last one, a row for each value. It is null if the machine refuses the
 * session in one of the worlds, if there are too many runs, or as soon as `isWanted` says no. */
export async function counted(session, last, chart, engine, isWanted) {
  const rows = [];
  if ((last + 1) * chart.values.length > MOST_RUNS) return null;
  for (const value of chart.values) {
    const row = [];
    for (let number = 0; number <= last; number++) {
      const { sum } = await engine.sum(inputOf(session, number, chart.size, value), chart.head);
      if (sum === null || !isWanted()) return null;
      row.push(sum);
    }
    rows.push(row);
  }
  return { ...chart, rows };
}
