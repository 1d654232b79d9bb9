// @ts-check
// The axis of time: a histogram of the view, ticks, and two sliders that choose a part of it.
import { LAST_SECOND, timeText } from './places.js';
import { ticksOf, widthOf } from './ticks.js';

/** @typedef {import('./ends.js').Span} Span */

const BARS = 32;
const STEPS = 1024; // steps of a slider, as the page has them: each bar is 32 of them
/** @type {Span} */
export const ALL_TIME = { begin: 0, end: LAST_SECOND };

/**
 * `window` is what the axis spans; `reach`, which may be wider, is what a slider at the end of the axis chooses; `chosen` is what
 * lies between the sliders. All are in whole seconds.
 */
export class Timeline {
  #from; #to; #bars; #ticks; #text;
  /** @type {Span} */
  window = ALL_TIME;
  /** @type {Span} */
  #reach = ALL_TIME;
  /** @type {Span} */
  chosen = ALL_TIME;
  #wholeText = '';

  /**
   * @param {{ from: HTMLInputElement, to: HTMLInputElement, bars: HTMLElement, ticks: HTMLElement, span: HTMLElement }} elements
   * @param {() => void} onChange
   */
  constructor({ from, to, bars, ticks, span }, onChange) {
    this.#from = from; this.#to = to; this.#bars = bars; this.#ticks = ticks; this.#text = span;
    for (const slider of [from, to]) {
      slider.addEventListener('input', () => {
        this.#slide(slider);
        this.#tell();
        onChange();
      });
    }
    new ResizeObserver(() => this.#drawTicks()).observe(bars);
  }

  /**
   * Spans the axis over a window, with a part of it chosen; all of its reach where no part is given. A text stands for the times
   * where more is chosen than the window. `ALL_TIME` is the window of a table whose times are unknown, or that has no rows.
   * @param {Span} window @param {{ from?: number, to?: number }} [part] @param {Span} [reach] @param {string} [wholeText]
   */
  setWindow(window, part = {}, reach = window, wholeText = window === ALL_TIME ? '' : 'All time') {
    this.window = window;
    this.#reach = reach;
    this.#wholeText = wholeText;
    this.choose({ begin: part.from ?? reach.begin, end: part.to ?? reach.end });
    this.#drawTicks();
  }

  /** Chooses what of a span lies in the reach. @param {Span} span */
  choose({ begin, end }) {
    this.chosen = { begin: Math.max(begin, this.#reach.begin), end: Math.min(end, this.#reach.end) };
    if (this.chosen.end < this.chosen.begin) this.chosen = this.#reach;
    this.#from.valueAsNumber = this.#stepOf(this.chosen.begin);
    this.#to.valueAsNumber = this.#stepOf(this.chosen.end + 1);
    this.#tell();
  }

  /** Spans the axis over what is chosen. */
  narrow() {
    const { begin, end } = this.chosen;
    this.setWindow({ begin: Math.max(begin, this.window.begin), end: Math.min(end, this.window.end) }, {}, this.chosen);
  }

  get #isKnown() {
    return this.window !== ALL_TIME;
  }

  /** Whether all that the axis reaches is chosen. */
  get isWhole() {
    return this.chosen.begin === this.#reach.begin && this.chosen.end === this.#reach.end;
  }

  #secondOf(step) {
    return Math.floor(this.window.begin + step * (this.window.end + 1 - this.window.begin) / STEPS);
  }

  #stepOf(second) {
    return Math.min(STEPS, Math.max(0, Math.round((second - this.window.begin) / (this.window.end + 1 - this.window.begin) * STEPS)));
  }

  // A slider stops a step before the other one.
  #slide(slider) {
    const { begin, end } = this.chosen;
    if (slider === this.#from) {
      const step = Math.max(0, Math.min(slider.valueAsNumber, this.#to.valueAsNumber - 1));
      slider.valueAsNumber = step;
      this.chosen = { begin: step === 0 ? this.#reach.begin : Math.min(this.#secondOf(step), end), end };
    } else {
      const step = Math.min(STEPS, Math.max(slider.valueAsNumber, this.#from.valueAsNumber + 1));
      slider.valueAsNumber = step;
      this.chosen = { begin, end: step === STEPS ? this.#reach.end : Math.max(this.#secondOf(step) - 1, begin) };
    }
  }

  #tell() {
    const from = timeText(Math.max(this.chosen.begin, this.window.begin)), to = timeText(Math.min(this.chosen.end, this.window.end));
    const early = this.chosen.begin < this.window.begin, late = this.chosen.end > this.window.end;
    this.#text.textContent = early && late || !this.#isKnown ? this.#wholeText
      : early ? `Until ${to} UTC` : late ? `From ${from} UTC on` : `${from} to ${to} UTC`;
    this.#from.setAttribute('aria-valuetext', early ? 'the first row' : from);
    this.#to.setAttribute('aria-valuetext', late ? 'the last row' : to);
    // The slider that can still move lies on top.
    this.#from.classList.toggle('above', this.#from.valueAsNumber > STEPS / 2);
    this.#paint();
  }

  /** The spans of the bars; the first and the last hold what lies beyond the axis too. @returns {Span[]} */
  get slices() {
    return Array.from({ length: BARS }, (_, bar) => {
      const begin = this.#secondOf(bar * STEPS / BARS), end = Math.max(begin, this.#secondOf((bar + 1) * STEPS / BARS) - 1);
      return { begin: bar === 0 ? this.#reach.begin : begin, end: bar === BARS - 1 ? this.#reach.end : end };
    });
  }

  /** @param {number[]} counts - the rows of each bar; none clears them */
  setCounts(counts) {
    const slices = this.slices, most = Math.max(1, ...counts);
    const spanText = ({ begin, end }) => `${timeText(Math.max(begin, this.window.begin))} to ${timeText(Math.min(end, this.window.end))}`
      + `${begin < this.window.begin ? ' and before' : ''}${end > this.window.end ? ' and after' : ''}`;
    this.#bars.replaceChildren(...counts.map((count, at) => {
      const bar = document.createElement('i');
      bar.style.height = count ? `max(2px, ${100 * count / most}%)` : '0';
      bar.title = `${count.toLocaleString('en')} ${count === 1 ? 'row' : 'rows'}, ${spanText(slices[at])}`;
      return bar;
    }));
    this.#paint();
    const top = counts.indexOf(Math.max(...counts));
    this.#bars.setAttribute('aria-label', top < 0 ? 'No rows' : `Rows of the view by time, ${spanText(this.window)}; `
      + `the most, ${counts[top].toLocaleString('en')}, in ${spanText(slices[top])}`);
  }

  // The text of a tick near the end stands before it, if there is room.
  #drawTicks() {
    const length = this.window.end + 1 - this.window.begin, pixels = this.#isKnown ? this.#bars.clientWidth : 0;
    let free = 0; // pixels from the begin of the axis, where no text stands
    this.#ticks.replaceChildren(...ticksOf(this.window, pixels).flatMap(({ second, text }) => {
      const at = (second - this.window.begin) / length * pixels, isLast = at + widthOf(text) > pixels;
      if (isLast && at - widthOf(text) < free) return [];
      free = at + widthOf(text);
      const tick = document.createElement('span');
      tick.style.left = `${100 * at / pixels}%`;
      tick.classList.toggle('last', isLast);
      tick.textContent = text;
      return [tick];
    }));
  }

  // Bars that the chosen time meets are dark.
  #paint() {
    const slices = this.slices;
    [...this.#bars.children].forEach((bar, at) => {
      bar.classList.toggle('chosen', slices[at].begin <= this.chosen.end && slices[at].end >= this.chosen.begin);
    });
  }
}
