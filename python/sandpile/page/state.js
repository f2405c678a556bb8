// What the page knows, and the queue through which all that is asked of the server goes.

import { Picture } from "./picture.js";
import { Motion } from "./motion.js";

export const get = (id) => document.getElementById(id);
export const plain = (number) => number.toLocaleString("en");

export const picture = new Picture(get("stage"), get("picture"), get("outlines"));
export const motion = new Motion();
export const page = {
  told: null, // the numbers of the latest answer
  heights: null, // of the same time
  shown: null, // heights that the picture shows, if it shows heights
  view: "heights",
  values: null, // what is shown in another view, for each site
  many: null, // drops that go on
  avalanche: null, // what topples
};

let queue = Promise.resolve();

/** Does one thing after another. An error is shown, and changes nothing. */
export function act(task) {
  queue = queue.then(task).catch(report);
  return queue;
}

export function report(error) {
  stop();
  if (get("error").hidden || get("error").textContent !== error.message) { // else it would be read aloud again
    get("error").textContent = error.message;
    get("error").hidden = false;
  }
}

export function say(text) {
  get("said").textContent = text;
}

/** Stops drops that go on, after their block. */
export function stop() {
  page.many = null;
  get("stop").disabled = true;
  get("progress").hidden = true;
}
