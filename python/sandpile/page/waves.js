// The waves of an avalanche, by their definition. The page topples them for its picture, and compares them with the library.

/** The avalanche of a grain that drops at a site of a stable pile. The heights are changed in place, wave by wave. */
export class Avalanche {
  constructor(heights, width, cylinder, site) {
    this.heights = heights;
    this.width = width;
    this.cylinder = cylinder;
    this.site = site;
    this.topplings = new Uint16Array(heights.length);
    this.due = new Int32Array(heights.length);
    this.waves = 0;
    heights[site] += 1;
  }

  /** Topples the next wave, and returns the sites that toppled in it, or null after the last one. In a wave, the site of the drop
   * topples once, and then each other site that has four grains or more, once each. */
  next() {
    if (this.heights[this.site] < 4) {
      return null;
    }
    this.waves += 1;
    const { due, topplings, waves, site } = this;
    // Each site that is due has toppled in this wave. A site may have toppled less often than there were waves.
    this.mark ??= new Uint16Array(this.heights.length);
    this.mark[site] = waves;
    due[0] = site;
    let count = 1;
    for (let next = 0; next < count; next++) {
      topplings[due[next]] += 1;
      count = this.topple(due[next], count);
    }
    return due.subarray(0, count);
  }

  /** Topples a site, and appends those of its neighbours to the list that can topple and have not yet. Returns its length. */
  topple(at, count) {
    const { heights, width, cylinder } = this;
    const column = at % width;
    heights[at] -= 4;
    if (at >= width) {
      count = this.give(at - width, count);
    }
    if (column > 0 || cylinder) {
      count = this.give(column > 0 ? at - 1 : at + width - 1, count);
    }
    if (column < width - 1 || cylinder) {
      count = this.give(column < width - 1 ? at + 1 : at - width + 1, count);
    }
    if (at + width < heights.length) {
      count = this.give(at + width, count);
    }
    return count;
  }

  give(to, count) {
    this.heights[to] += 1;
    if (this.heights[to] > 3 && this.mark[to] !== this.waves) {
      this.mark[to] = this.waves;
      this.due[count] = to;
      count += 1;
    }
    return count;
  }
}

/** Whether two arrays have the same numbers. */
export function same(one, other) {
  return one.length === other.length && one.every((number, at) => number === other[at]);
}
