// The site under the pointer, or under the cursor of the keys.

import { read } from "./server.js";
import { get, page, picture, plain } from "./state.js";

const STEPS = { ArrowUp: [-1, 0], ArrowDown: [1, 0], ArrowLeft: [0, -1], ArrowRight: [0, 1] };

let pointed = null, isAsking = false, asksAgain = false;

/** Describes a site from now on, or the same one again. One request at a time, since the pointer is faster. */
export async function point(site = pointed) {
  pointed = site;
  asksAgain = true;
  if (isAsking) {
    return;
  }
  isAsking = true;
  while (asksAgain && pointed) {
    asksAgain = false;
    await describe(pointed).catch(() => {}); // the next look at the run says what is wrong
  }
  isAsking = false;
}

async function describe([row, column]) {
  const told = await read("site", { row, column }), at = row * page.told.width + column;
  if (pointed?.[0] !== row || pointed[1] !== column) {
    return;
  }
  const { avalanche, topplings } = page.avalanche ?? {};
  const odometer = told.odometer - (avalanche ? topplings[at] - avalanche.topplings[at] : 0);
  const height = page.view === "heights" && page.shown ? page.shown[at] : told.height;
  get("pointer").textContent = `row ${row}, column ${column}: height ${height}, odometer ${plain(odometer)}${also(at)}`;
}

/** What the view says of a site. */
function also(at) {
  const value = page.values?.[at];
  return {
    last: `, ${value} in the last avalanche`,
    burning: value ? `, burns in step ${value}` : ", never burns",
    tree: `, edge to the ${["north", "west", "east", "south"][value]}`,
  }[page.view] ?? "";
}

/** Moves the cursor by an arrow key, and returns whether it is one. */
export function moveCursor(key) {
  const step = STEPS[key], { height, width } = page.told;
  if (step) {
    const [row, column] = picture.cursor ?? [(height >> 1) - step[0], (width >> 1) - step[1]]; // it begins in the middle
    picture.point([clamp(row + step[0], height), clamp(column + step[1], width)]);
    point(picture.cursor);
  }
  return Boolean(step);
}

const clamp = (at, side) => Math.min(Math.max(at, 0), side - 1);
