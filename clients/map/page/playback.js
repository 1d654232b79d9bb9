// @ts-check
// Plays time: the chosen part moves over the axis by half its length, and each step waits until it is drawn.

const LEAST = 600; // milliseconds of a step
const PARTS = 16; // of the axis is what is shown at a time, where all time is chosen

export class Playback {
  #button; #timeline; #show;
  #isPlaying = false;

  /** @param {HTMLElement} button @param {import('./time.js').Timeline} timeline @param {() => Promise<void>} show */
  constructor(button, timeline, show) {
    this.#button = button;
    this.#timeline = timeline;
    this.#show = show;
    button.addEventListener('click', () => this.#isPlaying ? this.stop() : this.#play());
  }

  stop() {
    this.#isPlaying = false;
    this.#button.textContent = 'Play';
  }

  async #play() {
    this.#isPlaying = true;
    this.#button.textContent = 'Pause';
    const { window, chosen } = this.#timeline;
    const first = Math.max(chosen.begin, window.begin), last = Math.min(chosen.end, window.end);
    const isWhole = first === window.begin && last === window.end;
    const length = isWhole ? Math.ceil((last - first + 1) / PARTS) : last - first + 1, step = Math.ceil(length / 2);
    // At the end of the axis it begins anew.
    for (let begin = last === window.end ? window.begin : first; this.#isPlaying && begin <= window.end; begin += step) {
      this.#timeline.choose({ begin, end: Math.min(begin + length - 1, window.end) });
      await Promise.all([this.#show(), new Promise(done => setTimeout(done, LEAST))]);
    }
    this.stop();
  }
}
