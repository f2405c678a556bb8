// What the buttons, keys and clicks of the page do.

import { change, read } from "./server.js";
import { draw } from "./histogram.js";
import { act, get, motion, page, picture, plain, report, say, stop } from "./state.js";
import { moveCursor, point } from "./pointer.js";
import { adopt, refresh, see, views } from "./views.js";
import { ENDLESS, drop, dropMany } from "./drops.js";

const MOST_IN_FILE = 2 ** 27; // bytes
const LOOK_AGAIN = 1000, SAVED_AFTER = 60000; // milliseconds

// Starts.

function begin(ask) {
  stop();
  act(async () => {
    motion.finish();
    const told = await ask();
    adopt(told);
    await refresh();
    say(`Started from ${told.start}.`);
  });
}

const seed = () => ({ seed: get("seed").value.trim() });
const start = (kind, words = {}) => begin(() => change("start", { kind, ...seed(), ...words }));

function take(chosen) {
  if (!chosen) {
    return;
  }
  if (chosen.size > MOST_IN_FILE) {
    const most = `but the page takes at most ${plain(MOST_IN_FILE)}: pass its pile to play(..)`;
    report(new Error(`${chosen.name} has ${plain(chosen.size)} bytes, ${most}.`));
    return;
  }
  begin(() => change("file", seed(), chosen));
}

// Saves.

const save = (href, download) => Object.assign(document.createElement("a"), { href, download }).click();

async function savePicture() {
  const href = URL.createObjectURL(await picture.png());
  save(href, `sandpile-${page.view}.png`);
  setTimeout(() => URL.revokeObjectURL(href), SAVED_AFTER);
}

// Buttons and keys.

const buttons = {
  "one": () => drop(),
  "thousand": () => dropMany(1000),
  "hundred-thousand": () => dropMany(100000),
  "endless": () => dropMany(ENDLESS),
  "stop": stop,
  "pause": () => {
    motion.pause(!motion.paused);
    get("pause").setAttribute("aria-pressed", motion.paused);
    get("pause").firstChild.textContent = motion.paused ? "Go on" : "Pause";
  },
  "step": () => motion.step(),
  "slower": () => setSpeed(-1),
  "faster": () => setSpeed(1),
  "finish": () => motion.finish(),
  "uniform": () => start("uniform"),
  "empty": () => start("empty"),
  "threes": () => start("threes"),
  "identity": () => start("identity"),
  "heap": () => start("heap", { grains: get("grains").value.trim() }),
  "open": () => get("file").click(),
  "save-picture": savePicture,
  "save-table": () => save("table.npy", "sandpile-table.npy"),
};
for (const view of Object.keys(views)) {
  buttons[`see-${view}`] = () => act(() => {
    say("");
    return see(view);
  });
}

function setSpeed(by) {
  motion.change(by);
  get("speed").textContent = motion.speed === Infinity ? "at once" : `${motion.speed} a second`;
}

const keys = {};
for (const [id, press] of Object.entries(buttons)) {
  const button = get(id), { key } = button.dataset;
  keys[key] = button;
  button.addEventListener("click", press);
  button.setAttribute("aria-keyshortcuts", key);
  button.append(Object.assign(document.createElement("kbd"), { textContent: key === "Escape" ? "Esc" : key }));
}

document.addEventListener("keydown", (event) => {
  const { target, key } = event, isTyped = target instanceof HTMLInputElement;
  const name = { " ": "Space", "=": "+" }[key] ?? key;
  const isOfButton = target.closest("button, summary") && ["Space", "Enter"].includes(name);
  if (event.ctrlKey || event.metaKey || event.altKey || isOfButton || isTyped && key !== "Escape" || !keys[name]) {
    return;
  }
  event.preventDefault();
  keys[name].click();
});
for (const [input, button] of [["grains", "heap"], ["seed", "uniform"]]) {
  get(input).addEventListener("keydown", ({ key }) => key === "Enter" && get(button).click());
}

// The picture, and files.

const stage = get("stage");
stage.addEventListener("click", (event) => {
  const site = picture.site(event);
  picture.point(null);
  if (site) {
    drop(site, event.timeStamp);
    point(site);
  }
});
stage.addEventListener("pointermove", (event) => point(picture.site(event)));
stage.addEventListener("keydown", (event) => {
  if (moveCursor(event.key)) {
    event.preventDefault();
  } else if (event.key === "Enter" && picture.cursor) {
    drop(picture.cursor);
  }
});

get("file").addEventListener("change", ({ target }) => {
  take(target.files[0]);
  target.value = "";
});
document.addEventListener("dragover", (event) => {
  event.preventDefault();
  document.body.classList.add("over");
});
document.addEventListener("dragleave", (event) => event.relatedTarget || document.body.classList.remove("over"));
document.addEventListener("drop", (event) => {
  event.preventDefault();
  document.body.classList.remove("over");
  take(event.dataTransfer.files[0]);
});
window.addEventListener("resize", () => page.told && draw(get("histogram"), page.told.counts));

// The run may change elsewhere: by its owner, or on another page.

async function lookAgain() {
  if (!document.hidden && !page.many && !motion.now) {
    await act(async () => {
      const isFirst = !page.told, told = await read("state", { known: page.told?.version ?? "" });
      if (told.heights) {
        adopt(told);
        await refresh();
        say(isFirst ? "" : "The run has changed elsewhere.");
      }
    });
  }
  setTimeout(lookAgain, LOOK_AGAIN);
}

setSpeed(0);
lookAgain();
