// The picture: one pixel for each site, which the browser enlarges, and outlines above it.

// Numbers of colours are bytes: the levels between the least and the greatest number, then red, then what has not burnt yet.
const LEVELS = 254, STANDS_OUT = LEVELS, UNBURNT = LEVELS + 1;
// How much of the colour of a site that has toppled is red.
const TINT = 0.5;
const GREY = "#6b6b6b";
// Outlines are drawn only around sites that have so many pixels on the screen.
const LEAST_SITE = 1.5;
// A saved picture has about so many pixels a side.
const SAVED = 1024;
/** Numbers of colours: those of the heights come first, and then those of heights that have toppled. */
export const TOPPLED = 4, TOPPLES = 8;

const channels = (colour) => [1, 3, 5].map((at) => parseInt(colour.slice(at, at + 2), 16));
const mixed = (one, other, part) => one.map((value, at) => Math.round((1 - part) * value + part * other[at]));
const css = ([red, green, blue]) => `rgb(${red} ${green} ${blue})`;
const pixel = ([red, green, blue]) => (255 << 24 | blue << 16 | green << 8 | red) >>> 0;

/** The colours of a page, which the server tells: those of 0 to 3 grains, and the red of sites that stand out. */
export class Colours {
  constructor(grains, red) {
    this.grains = grains.map(channels);
    this.red = channels(red);
    this.tinted = this.grains.map((colour) => mixed(colour, this.red, TINT));
    this.heights = Uint32Array.from([...this.grains, ...this.tinted, this.red], pixel);
    const scale = Array.from({ length: LEVELS }, (_, level) => this.between(level / (LEVELS - 1)));
    this.scale = Uint32Array.from([...scale, this.red, channels(GREY)], pixel);
  }

  /** The colour between that of 0 grains and that of 3. */
  between(part) {
    const at = Math.min(Math.floor(3 * part), 2);
    return mixed(this.grains[at], this.grains[at + 1], 3 * part - at);
  }
}

export class Picture {
  constructor(stage, canvas, outlines) {
    Object.assign(this, { stage, canvas, outlines, rows: 0, columns: 0, mask: null, cursor: null });
    new ResizeObserver(() => this.outline()).observe(stage);
  }

  /** Takes the shape of the grid, and the colours. */
  fit(rows, columns, colours) {
    this.colours = colours;
    if (rows !== this.rows || columns !== this.columns) {
      Object.assign(this, { rows, columns, cursor: null });
      this.stage.style.setProperty("--ratio", columns / rows);
    }
  }

  /** Paints sites by the numbers of their colours. */
  paint(numbers, palette, columns = this.columns, rows = this.rows) {
    if (this.canvas.width !== columns || this.canvas.height !== rows || !this.image) {
      Object.assign(this.canvas, { width: columns, height: rows });
      this.image = new ImageData(columns, rows);
      this.pixels = new Uint32Array(this.image.data.buffer);
    }
    for (let at = 0; at < numbers.length; at++) {
      this.pixels[at] = palette[numbers[at]];
    }
    this.canvas.getContext("2d").putImageData(this.image, 0, 0);
  }

  /** Paints heights, or the numbers of `TOPPLED` and `TOPPLES`. */
  heights(numbers) {
    this.surround(null);
    this.paint(numbers, this.colours.heights);
  }

  /** Paints numbers from 0 to the greatest. */
  graded(numbers, greatest) {
    this.surround(null);
    this.paint(bytes(numbers, (number) => level(number, greatest)), this.colours.scale);
  }

  /** Paints what has burnt up to a step, out of so many. At the end, what has not burnt is red and outlined. */
  burning(times, step, steps) {
    const rest = step < steps ? UNBURNT : STANDS_OUT;
    const number = (time) => (time > step || time === 0 ? rest : time === step && step < steps ? STANDS_OUT : level(time, steps));
    this.surround(step < steps ? null : bytes(times, (time) => time === 0));
    this.paint(bytes(times, number), this.colours.scale);
  }

  /** Paints a tree as a maze: a light square for each site, and for each edge. Directions are north, west, east, south. */
  tree(directions, cylinder) {
    const { rows, columns } = this, width = 2 * columns + 1, height = 2 * rows + 1;
    const maze = new Uint8Array(width * height), ends = [-width, -1, 1, width];
    for (let at = 0; at < directions.length; at++) {
      const place = (2 * Math.floor(at / columns) + 1) * width + 2 * (at % columns) + 1;
      maze[place] = maze[place + ends[directions[at]]] = 3;
    }
    for (let row = 0; cylinder && row < height; row++) { // an edge around it has an end on both sides
      const [first, last] = [row * width, (row + 1) * width - 1];
      maze[first] = maze[last] = Math.max(maze[first], maze[last]);
    }
    this.surround(null);
    this.paint(maze, this.colours.heights, width, height);
  }

  /** Outlines a set of sites from now on. */
  surround(mask) {
    if (mask !== this.mask) {
      this.mask = mask;
      this.outline();
    }
  }

  /** Moves the cursor of the keys, or hides it. */
  point(cursor) {
    this.cursor = cursor;
    this.outline();
  }

  /** Draws the outlines again. */
  outline() {
    const { width, height } = this.stage.getBoundingClientRect(), ratio = window.devicePixelRatio;
    Object.assign(this.outlines, { width: Math.round(width * ratio), height: Math.round(height * ratio) });
    const context = this.outlines.getContext("2d");
    this.drawMask(context, this.outlines);
    if (this.cursor) {
      const [row, column] = this.cursor, [wide, high] = [this.outlines.width / this.columns, this.outlines.height / this.rows];
      for (const [style, line] of [["#000", 4 * ratio], ["#fff", 2 * ratio]]) {
        Object.assign(context, { strokeStyle: style, lineWidth: line });
        context.strokeRect(column * wide, row * high, wide, high);
      }
    }
  }

  drawMask(context, { width, height }) {
    const { mask, rows, columns } = this, wide = width / columns, high = height / rows;
    if (!mask || Math.min(wide, high) < LEAST_SITE) {
      return;
    }
    context.beginPath();
    for (let at = 0; at < mask.length; at++) {
      const row = Math.floor(at / columns), column = at % columns;
      // Each line between two sites once, by the one after it; and those around the grid.
      if (mask[at] !== (row ? mask[at - columns] : 0)) {
        line(context, column * wide, row * high, wide, 0);
      }
      if (mask[at] !== (column ? mask[at - 1] : 0)) {
        line(context, column * wide, row * high, 0, high);
      }
      if (mask[at] && row === rows - 1) {
        line(context, column * wide, height, wide, 0);
      }
      if (mask[at] && column === columns - 1) {
        line(context, width, row * high, 0, high);
      }
    }
    Object.assign(context, { strokeStyle: "#fff", lineWidth: Math.max(2, Math.min(wide, high) / 6) });
    context.stroke();
  }

  /** The picture as a PNG file, in which each site has a whole number of pixels a side. */
  png() {
    const { canvas } = this, saved = document.createElement("canvas");
    const scale = Math.max(1, Math.floor(SAVED / Math.max(canvas.width, canvas.height)));
    Object.assign(saved, { width: canvas.width * scale, height: canvas.height * scale });
    const context = saved.getContext("2d");
    context.imageSmoothingEnabled = false;
    context.drawImage(canvas, 0, 0, saved.width, saved.height);
    this.drawMask(context, saved);
    return new Promise((done) => saved.toBlob(done, "image/png"));
  }

  /** The site at a place on the screen, as a row and a column, or null. */
  site({ clientX, clientY }) {
    const { left, top, width, height } = this.canvas.getBoundingClientRect();
    const row = Math.floor((clientY - top) / height * this.rows), column = Math.floor((clientX - left) / width * this.columns);
    return row >= 0 && row < this.rows && column >= 0 && column < this.columns ? [row, column] : null;
  }
}

/** A byte for each number; several times as fast as `Uint8Array.from`. */
function bytes(numbers, of) {
  const made = new Uint8Array(numbers.length);
  for (let at = 0; at < made.length; at++) {
    made[at] = of(numbers[at]);
  }
  return made;
}

function level(number, greatest) {
  return greatest ? Math.min(Math.floor(number * LEVELS / greatest), LEVELS - 1) : 0;
}

function line(context, x, y, right, down) {
  context.moveTo(x, y);
  context.lineTo(x + right, y + down);
}

/** Fills the legend with a square for each colour and its meaning, or with a scale from 0 to the greatest number. */
export function explain(legend, entries, scale = null) {
  legend.replaceChildren(...entries.map(([colour, text]) => entry([colour], text, 14)));
  if (scale) {
    const colours = Array.from({ length: 96 }, (_, at) => scale.colours.between(at / 95));
    legend.prepend(entry(colours, `0 to ${scale.greatest.toLocaleString("en")} ${scale.what}`, 96));
  }
}

function entry(colours, text, width) {
  const square = document.createElement("canvas"), span = document.createElement("span");
  Object.assign(square, { width, height: 14 });
  const context = square.getContext("2d"), each = width / colours.length;
  colours.forEach((colour, at) => {
    context.fillStyle = css(colour);
    context.fillRect(at * each, 0, each, 14);
  });
  span.append(square, text);
  return span;
}
