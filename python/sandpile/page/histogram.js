// The sizes of avalanches, counted by their number of bits: 0, 1, 2 to 3, 4 to 7, and so on. Both axes are logarithmic.

const MARGIN = { left: 60, right: 10, top: 8, bottom: 34 };
const SIZE = 12;

const powers = (least, greatest) => Array.from({ length: greatest - least + 1 }, (_, at) => least + at);
const superscript = (number) => String(number).replace(/./g, (sign) => "⁻⁰¹²³⁴⁵⁶⁷⁸⁹"["-0123456789".indexOf(sign)]);
const range = (bits) => (bits < 2 ? String(bits) : `${2 ** (bits - 1)} to ${2 ** bits - 1}`);

/** The density of each size class that has avalanches: how many of all there are, for each size in the class. */
export function densities(counts) {
  const all = counts.reduce((sum, count) => sum + count, 0);
  return counts
    .map((count, bits) => ({ size: 2 ** (bits - 0.5), density: count / 2 ** (bits - 1) / all, bits }))
    .filter(({ density, bits }) => density > 0 && bits > 0);
}

/** Draws the histogram. */
export function draw(canvas, counts) {
  const { width, height } = canvas.getBoundingClientRect(), ratio = window.devicePixelRatio;
  Object.assign(canvas, { width: Math.round(width * ratio), height: Math.round(height * ratio) });
  const context = canvas.getContext("2d"), style = getComputedStyle(canvas), points = densities(counts);
  const colour = (name) => style.getPropertyValue(name);
  context.scale(ratio, ratio);
  context.font = `${SIZE}px ${style.fontFamily}`;
  const logs = points.map(({ size, density }) => [Math.log10(size), Math.log10(density)]);
  const right = Math.max(2, ...logs.map(([size]) => Math.ceil(size))), least = Math.min(-3, ...logs.map(([, y]) => Math.floor(y)));
  const x = (log) => MARGIN.left + log / right * (width - MARGIN.left - MARGIN.right);
  const y = (log) => MARGIN.top + log / least * (height - MARGIN.top - MARGIN.bottom);

  context.strokeStyle = colour("--line");
  context.fillStyle = colour("--quiet");
  context.textAlign = "center";
  for (const power of powers(0, right)) {
    stroke(context, [[x(power), y(0)], [x(power), y(least)]]);
    context.fillText(`10${superscript(power)}`, x(power), y(least) + SIZE + 3);
  }
  context.textAlign = "right";
  for (const power of powers(least, 0)) {
    stroke(context, [[x(0), y(power)], [x(right), y(power)]]);
    if (power % Math.ceil(-least / 8) === 0) {
      context.fillText(`10${superscript(power)}`, x(0) - 5, y(power) + SIZE / 3);
    }
  }
  context.textAlign = "center";
  context.fillText("size of an avalanche (topplings)", (x(0) + x(right)) / 2, height - 4);
  context.save();
  context.translate(SIZE, (y(0) + y(least)) / 2);
  context.rotate(-Math.PI / 2);
  context.fillText("density", 0, 0);
  context.restore();

  context.strokeStyle = context.fillStyle = colour("--text");
  context.lineWidth = 1.5;
  const places = logs.map(([size, density]) => [x(size), y(density)]);
  stroke(context, places);
  for (const [across, down] of places) {
    context.beginPath();
    context.arc(across, down, 3, 0, 2 * Math.PI);
    context.fill();
  }
}

function stroke(context, places) {
  context.beginPath();
  places.forEach(([x, y]) => context.lineTo(x, y));
  context.stroke();
}

/** Fills a table with the counts. */
export function list(body, counts) {
  const last = counts.findLastIndex((count) => count > 0);
  const rows = counts.slice(0, last + 1).map((count, bits) => {
    const row = document.createElement("tr");
    for (const text of [range(bits), count.toLocaleString("en")]) {
      row.append(Object.assign(document.createElement("td"), { textContent: text }));
    }
    return row;
  });
  body.replaceChildren(...rows);
}
