// Talks to the server. An answer is a header in JSON and, after it, arrays of numbers as bytes.

const TYPES = { u1: Uint8Array, u2: Uint16Array, u4: Uint32Array, f8: Float64Array };
const ALIGNED = 8;

/** What the server refuses, in its words. */
export class Refused extends Error {}

async function fetched(path, words, how) {
  const query = new URLSearchParams(words).toString();
  try {
    return await fetch(query ? `${path}?${query}` : path, how);
  } catch {
    throw new Error("The server does not answer: it has been stopped. Start it again with python -m sandpile, or play(page.run).");
  }
}

async function asked(path, words, how) {
  const answer = await fetched(path, words, how);
  if (!answer.ok) {
    throw new Refused((await answer.json()).error);
  }
  return answer;
}

/** The numbers and arrays of an answer. */
function unpacked(buffer) {
  const length = Number(new DataView(buffer).getBigUint64(0, true));
  const told = JSON.parse(new TextDecoder().decode(new Uint8Array(buffer, ALIGNED, length)));
  let at = ALIGNED + length;
  for (const [name, kind, size] of told.arrays) {
    told[name] = new TYPES[kind](buffer, at, size);
    at += Math.ceil(told[name].byteLength / ALIGNED) * ALIGNED;
  }
  return told;
}

/** Asks for something. */
export async function read(path, words = {}) {
  return unpacked(await (await asked(path, words, {})).arrayBuffer());
}

/** Asks for a change, and may send bytes. */
export async function change(path, words = {}, body = undefined) {
  return unpacked(await (await asked(path, words, { method: "POST", body })).arrayBuffer());
}
