// Drops: one, whose avalanche runs wave by wave, or many.

import { change } from "./server.js";
import { Avalanche, same } from "./waves.js";
import { TOPPLED, TOPPLES, explain } from "./picture.js";
import { act, get, motion, page, picture, plain, report, say, stop } from "./state.js";
import { point } from "./pointer.js";
import { adopt, grains, refresh, showHeights } from "./views.js";

export const ENDLESS = 1e12; // grains
const WHILE_PAUSED = 50; // milliseconds

/** Drops a grain at a site, or without one at a random site, and shows its avalanche. The picture's element says in how many
 * milliseconds its first wave was there. */
export function drop(site = null, begun = performance.now()) {
  delete get("stage").dataset.first;
  stop();
  act(async () => {
    motion.finish();
    const told = await change("drop", site ? { row: site[0], column: site[1] } : {});
    const isNext = told.from === page.told.version, before = page.heights;
    adopt(told);
    if (!isNext || page.view !== "heights") {
      await refresh();
    }
    if (isNext && page.view === "heights") {
      topple(told, before);
    } else {
      say(summary(told));
    }
    get("stage").dataset.first = performance.now() - begun;
  });
}

function summary({ avalanche, topplings, width }) {
  const { site, size, area, lost, number } = avalanche;
  const place = `drop ${plain(number)} at row ${Math.floor(site / width)}, column ${site % width}`;
  const waves = topplings[site];
  return size
    ? `${place}: size ${plain(size)}, area ${plain(area)}, ${waves} ${waves === 1 ? "wave" : "waves"}, ${plain(lost)} lost`
    : `${place}: nothing topples`;
}

/** Shows the waves of an avalanche, which the page topples itself. */
function topple(told, before) {
  const { site } = told.avalanche, heights = Uint8Array.from(before), waves = told.topplings[site];
  const avalanche = new Avalanche(heights, told.width, told.cylinder, site), shown = new Uint8Array(heights.length);
  page.avalanche = { avalanche, topplings: told.topplings };
  explain(get("legend"), [...grains(), [picture.colours.red, "topples in this wave"]]);
  motion.begin({
    step() {
      const sites = avalanche.next();
      if (!sites) {
        check(avalanche, told);
        return false;
      }
      for (let at = 0; at < shown.length; at++) {
        shown[at] = heights[at] + (avalanche.topplings[at] ? TOPPLED : 0);
      }
      sites.forEach((at) => { shown[at] = TOPPLES; });
      page.shown = heights;
      picture.heights(shown);
      say(`wave ${avalanche.waves} of ${waves}: ${plain(sites.length)} sites topple`);
      point();
      return true;
    },
    end() {
      page.avalanche = null;
      showHeights();
      say(summary(told));
      point();
    },
  });
}

/** Compares the waves with what the library has found. */
function check(avalanche, told) {
  const [starts, drops] = told.version.split(".").map(Number), isAlone = told.from === `${starts}.${drops - 1}`;
  if (!same(avalanche.topplings, told.topplings) || isAlone && !same(avalanche.heights, told.heights)) {
    report(new Error("The waves that the page has shown differ from what the library has found: this is an error of the page."));
  }
}

/** Drops so many grains at random sites, block by block. */
export async function dropMany(n) {
  stop();
  const many = { n, left: n };
  page.many = many;
  get("stop").disabled = false;
  get("progress").hidden = false;
  get("progress").removeAttribute("value");
  while (page.many === many && many.left > 0) {
    await act(async () => {
      motion.finish();
      if (page.many === many && !motion.paused) {
        const told = await change("drops", { n: many.left });
        many.left -= told.made;
        adopt(told);
        await refresh();
        say(`${plain(n - many.left)} grains dropped${n < ENDLESS ? ` of ${plain(n)}` : ""}`);
        if (n < ENDLESS) {
          get("progress").value = 1 - many.left / n;
        }
      }
    });
    // Else requests could keep the browser from drawing; and while this pauses, it waits longer.
    await new Promise((done) => (motion.paused ? setTimeout(done, WHILE_PAUSED) : requestAnimationFrame(done)));
  }
  if (page.many === many) {
    stop();
  }
}
