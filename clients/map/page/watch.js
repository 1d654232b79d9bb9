// @ts-check
// Asks the server every second whether it answers, and tells when it has not.

const BEAT = 1000; // milliseconds between an answer and the next question
const SILENCE = 1800; // milliseconds without an answer that are told: within two seconds, with the look at the clock
const LONGEST = 8000; // milliseconds between questions to a server that does not answer
const TICK = 200; // milliseconds between two looks at the clock

/** While the page is hidden nothing is asked. */
export class Watch {
  #ask; #onSilence; #onFailure;
  #heard = Date.now(); // when the last question was asked that was answered
  #isSilent = false;
  #clock = 0;
  #next = 0;
  #pause = BEAT;
  #asked = new AbortController();
  #onVisible = () => document.hidden || this.#beat();

  /**
   * @param {(signal: AbortSignal) => Promise<void>} ask
   * @param {(since: Date | null) => void} onSilence - told when the server was last heard, where it is silent, and null when it is back
   * @param {(error: any) => void} onFailure
   */
  constructor(ask, onSilence, onFailure) {
    this.#ask = ask;
    this.#onSilence = onSilence;
    this.#onFailure = onFailure;
  }

  start() {
    this.stop();
    this.#heard = Date.now();
    this.#clock = setInterval(() => this.#look(), TICK);
    this.#plan(BEAT);
    document.addEventListener('visibilitychange', this.#onVisible);
  }

  stop() {
    clearInterval(this.#clock);
    clearTimeout(this.#next);
    this.#asked.abort();
    this.#asked = new AbortController();
    document.removeEventListener('visibilitychange', this.#onVisible);
  }

  /** Asks at once where the server was silent: something else has been answered. */
  hurry() {
    if (this.#isSilent) this.#beat();
  }

  #plan(pause) {
    this.#pause = pause;
    clearTimeout(this.#next);
    this.#next = setTimeout(() => this.#beat(), pause);
  }

  #look() {
    if (this.#isSilent || Date.now() - this.#heard <= SILENCE) return;
    this.#isSilent = true;
    this.#onSilence(new Date(this.#heard));
  }

  async #beat() {
    if (document.hidden) return;
    clearTimeout(this.#next);
    this.#asked.abort();
    const asked = this.#asked = new AbortController(), begin = Date.now();
    const patience = setTimeout(() => asked.abort(), Math.max(2 * SILENCE, this.#pause));
    try {
      await this.#ask(asked.signal);
      if (asked === this.#asked) this.#hear(begin);
    } catch (error) {
      this.#fail(error, begin, asked);
    } finally {
      clearTimeout(patience);
    }
  }

  #hear(begin) {
    this.#heard = begin;
    if (this.#isSilent) {
      this.#isSilent = false;
      this.#onSilence(null);
    }
    this.#plan(BEAT);
  }

  #fail(error, begin, asked) {
    if (asked !== this.#asked) return; // another question has taken its place, or the watch has ended
    if (error.error) this.#hear(begin); // a refusal is an answer
    else this.#plan(Math.min(LONGEST, 2 * this.#pause));
    if (error.name !== 'AbortError') this.#onFailure(error);
  }
}
