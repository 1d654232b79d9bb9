// @ts-check
// Classes of counts with distinct integers as bounds, and their colours.

/** @typedef {{ from: number, to: number, shade: number }} Class - the counts of a shade, from 0 for the fewest; both included */

// Viridis from its light end to its dark one: the lightness falls at each step, so the classes differ for every eye.
export const COLOURS = ['#addc30', '#5ec962', '#21918c', '#31688e', '#443983', '#440154'];

export const DARK = window.matchMedia('(prefers-color-scheme: dark)');

/** The colour of a shade: most rows stand out most, dark on a light page and light on a dark one. @param {number} shade */
const paint = shade => COLOURS[DARK.matches ? COLOURS.length - 1 - shade : shade];

/**
 * The classes of the counts that are not 0: as many cells in each as distinct integers allow, so that the map has contrast wherever
 * rows lie. None where all counts are 0.
 * @param {number[]} counts
 * @returns {Class[]}
 */
export function classesOf(counts) {
  const sorted = counts.filter(count => count > 0).sort((one, other) => one - other);
  if (!sorted.length) return [];
  const quantile = at => sorted[Math.ceil((at + 1) * sorted.length / COLOURS.length) - 1];
  const bounds = [...new Set(COLOURS.map((_, at) => quantile(at)))];
  return bounds.map((to, at) => ({
    from: at ? bounds[at - 1] + 1 : 1,
    to,
    shade: bounds.length === 1 ? 2 : Math.round(at * (COLOURS.length - 1) / (bounds.length - 1)),
  }));
}

/** The colour of a count; one above all classes has that of the last. @param {Class[]} classes @param {number} count */
export const colourOf = (classes, count) => paint((classes.find(({ to }) => count <= to) ?? classes[classes.length - 1]).shade);

const number = value => value.toLocaleString('en');

/** The legend of the page. Its colours follow the counts in view until the user keeps them. */
export class Legend {
  #element; #keep;
  /** @type {Class[]} */
  #classes = [];

  /** @param {HTMLElement} element @param {HTMLInputElement} keep - ticked where the classes are kept */
  constructor(element, keep) {
    this.#element = element;
    this.#keep = keep;
  }

  get #isKept() {
    return this.#keep.checked && this.#classes.length > 0;
  }

  /** The classes for the counts in view. @param {number[]} counts */
  of(counts) {
    if (!this.#isKept) this.#classes = classesOf(counts);
    this.#draw();
    return this.#classes;
  }

  /** Says what the points are, where the rows themselves are drawn. @param {string} text */
  ofPoints(text) {
    const item = document.createElement('span'), point = document.createElement('i');
    point.className = 'point';
    item.append(point, text);
    this.#element.replaceChildren(item);
    this.#element.setAttribute('aria-label', text);
  }

  /** Forgets the classes, kept or not. */
  clear() {
    this.#classes = [];
    this.#draw();
  }

  #draw() {
    const last = this.#classes.length - 1;
    const texts = this.#classes.map(({ from, to }, at) => this.#isKept && at === last ? `${number(from)} and more`
      : from === to ? number(from) : `${number(from)}–${number(to)}`);
    const title = document.createElement('b');
    title.textContent = texts.length ? 'Rows in a cell:' : '';
    this.#element.replaceChildren(title, ...this.#classes.map(({ shade }, at) => {
      const item = document.createElement('span'), swatch = document.createElement('i');
      swatch.style.background = paint(shade);
      item.append(swatch, texts[at]);
      return item;
    }));
    this.#element.setAttribute('aria-label', texts.length ? `Rows in a cell, in ${texts.length} colours: ${texts.join(', ')}` : 'No rows');
  }
}
