// The views of the pile: each is asked for, and shown.

import { Refused, read } from "./server.js";
import { Colours, explain } from "./picture.js";
import { draw, list } from "./histogram.js";
import { get, motion, page, picture, plain, say } from "./state.js";
import { point } from "./pointer.js";

const BURNING_STEPS = 120; // at most, in which a burning is shown

/** Takes an answer for the latest state. */
export function adopt(told) {
  get("error").hidden = true;
  const { heights, ...numbers } = told;
  page.told = numbers;
  page.heights = heights;
  picture.fit(told.height, told.width, new Colours(told.colours, told.red));
  const edge = told.cylinder ? ", cylinder" : "", sites = `seed ${told.seed}, stream ${told.stream}`;
  get("start").textContent = `${told.height} by ${told.width}${edge}; start: ${told.start}; random sites: ${sites}`;
  get("code").textContent = told.code || "page = sandpile.play(run); page.run is the run that this page shows";
  get("drops").textContent = plain(told.drops);
  get("mean").textContent = told.mean.toFixed(4);
  get("lost").textContent = plain(told.lost);
  get("rows").textContent = `with ${plain(told.rows)} of ${plain(told.drops)} drops`;
  draw(get("histogram"), told.counts);
  list(get("counts"), told.counts);
}

/** Shows heights as they are. */
export function showHeights(heights = page.heights) {
  page.shown = heights;
  picture.heights(heights);
  explain(get("legend"), grains());
}

/** What the colours of heights mean. */
export function grains() {
  return picture.colours.grains.map((colour, number) => [colour, number === 3 ? "3 grains" : String(number)]);
}

function showGraded(values, what) {
  page.values = values;
  const greatest = values.reduce((one, other) => Math.max(one, other), 0);
  picture.graded(values, greatest);
  explain(get("legend"), [], { colours: picture.colours, greatest, what });
}

export const views = {
  heights: () => showHeights(),
  odometer: async () => showGraded((await read("odometer")).odometer, "topplings"),
  last: async () => showGraded((await read("last")).last, "topplings in the last avalanche"),
  burning: async () => showBurning(await read("burning")),
  tree: async () => {
    page.values = (await read("tree")).directions;
    picture.tree(page.values, page.told.cylinder);
    explain(get("legend"), [[picture.colours.grains[3], "sites, each with its edge towards the sink"]]);
  },
};
// They show a change of the pile at once. After it, the others give way to the heights.
const LASTING = ["heights", "odometer", "last"];

export async function see(view) {
  motion.finish();
  await views[view]();
  page.view = view;
  for (const name of Object.keys(views)) {
    get(`see-${name}`).setAttribute("aria-pressed", name === view);
  }
  get("error").hidden = true;
  point();
}

/** Shows the latest state. */
export async function refresh() {
  try {
    await see(LASTING.includes(page.view) ? page.view : "heights");
  } catch (error) {
    if (!(error instanceof Refused)) {
      throw error;
    }
    await see("heights"); // since there is no last avalanche after a start
  }
}

function showBurning({ time, recurrent }) {
  const steps = time.reduce((one, other) => Math.max(one, other), 0), by = Math.ceil(steps / BURNING_STEPS);
  const stay = time.reduce((sum, at) => sum + (at === 0), 0);
  page.values = time;
  const { colours } = picture, scale = { colours, greatest: steps, what: "steps until it burns" };
  explain(get("legend"), [[colours.red, "burns now; at the end, never burns"]], scale);
  let at = 0;
  motion.begin({
    step() {
      at = Math.min(at + by, steps);
      picture.burning(time, Math.min(at, steps - 1), steps);
      say(`burning: step ${plain(at)} of ${plain(steps)}`);
      return at < steps;
    },
    end() {
      picture.burning(time, steps, steps);
      say(recurrent
        ? `All sites burn, in ${plain(steps)} steps: the pile is recurrent.`
        : `${plain(stay)} sites never burn: they are the greatest forbidden set, in red with an outline. So it is not recurrent.`);
    },
  });
}
