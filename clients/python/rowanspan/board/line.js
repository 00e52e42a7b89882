// A small line of one figure over the last minutes, as SVG.

const SVG = "http://www.w3.org/2000/svg";
const WIDTH = 300;
const HEIGHT = 36;
const EDGE = 3;
// a gap between two seconds that is wider than this is left open: no page was read in it
const GAP = 3;
// how many seconds a line has at least, and at most
const LEAST = 30;
export const WINDOW = 300;

/** An empty line. */
export function newLine() {
  const svg = document.createElementNS(SVG, "svg");
  svg.setAttribute("viewBox", `0 0 ${WIDTH} ${HEIGHT}`);
  svg.setAttribute("preserveAspectRatio", "none");
  svg.setAttribute("role", "img");
  svg.append(document.createElementNS(SVG, "path"));
  return svg;
}

/** Draws a figure: seconds and its values in them, the last second at the right edge. */
export function drawLine(svg, label, seconds, values) {
  const least = Math.min(...values);
  const most = Math.max(...values);
  const last = seconds[seconds.length - 1];
  const width = Math.max(last - seconds[0], LEAST);
  const place = (second) => WIDTH - ((last - second) * WIDTH) / width;
  // one that doesn't change is in the middle
  const height = (value) => most === least ? HEIGHT / 2
    : HEIGHT - EDGE - ((value - least) / (most - least)) * (HEIGHT - 2 * EDGE);
  const points = seconds.map((second, at) => {
    const begins = at === 0 || second - seconds[at - 1] > GAP;
    return `${begins ? "M" : "L"}${place(second).toFixed(1)} ${height(values[at]).toFixed(1)}`;
  });
  svg.firstChild.setAttribute("d", points.join(""));
  svg.setAttribute("aria-label", `${label}, over the last ${span(last - seconds[0])}: `
    + `between ${least.toLocaleString("en")} and ${most.toLocaleString("en")}`);
}

function span(seconds) {
  return seconds < 60 ? `${seconds + 1} seconds` : `${Math.round(seconds / 60)} minutes`;
}
