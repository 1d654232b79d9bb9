// @ts-check
// What the page shows of a table: the view, the list and the bars.
import { writeAddress } from './address.js';
import { rowsText } from './texts.js';
import { viewBox, viewOf } from './view.js';

/** @typedef {import('./reader.js').Reader} Reader */
/** @typedef {import('./view.js').View} View */
/**
 * The view that is shown and its rows; `moment` is when it was asked for, in milliseconds, and `took` how long that took.
 * @typedef {import('./reader.js').Seen & { view: View, span: import('./ends.js').Span, moment: number, took: number }} Shown
 */
/**
 * @typedef {{ chart: import('./chart.js').Chart, timeline: import('./time.js').Timeline, legend: import('./legend.js').Legend,
 *   listing: import('./listing.js').Listing, panel: import('./panel.js').Panel }} Parts
 */

export class Picture {
  #chart; #timeline; #legend; #listing; #panel;
  #barsOf = ''; // the view, table and time that the bars show
  #drawn = ''; // the view and its rows that the map shows
  /** @type {Shown | null} */
  shown = null;

  /** @param {Parts} parts */
  constructor({ chart, timeline, legend, listing, panel }) {
    this.#chart = chart; this.#timeline = timeline; this.#legend = legend; this.#listing = listing; this.#panel = panel;
  }

  /** The cells of what the map has in view. */
  get view() {
    return viewOf(this.#chart.bounds, this.#chart.pixels);
  }

  /** Asks for the view and the list of a table, and shows both at once; then the bars. @param {Reader} reader @param {string} table */
  async draw(reader, table) {
    const moment = Date.now(), view = this.view, span = this.#timeline.chosen;
    const [seen, listed] = await Promise.all([reader.view(view, span), this.#list(reader, span)]);
    this.shown = { ...seen, view, span, moment, took: Date.now() - moment };
    if (listed) this.#listing.show(listed.rows, listed.count);
    this.#drawView();
    this.#panel.total(seen.total, new Date(moment));
    writeAddress({ table, place: this.#chart.place, ...(this.#timeline.isWhole ? {} : { from: span.begin, to: span.end }) });
    await this.#drawBars(reader, viewBox(view), table);
  }

  /** Draws the view, unless it is drawn already. */
  #drawView() {
    const { counts, rows, view } = /** @type {Shown} */ (this.shown), drawn = JSON.stringify([counts, rows, view]);
    if (drawn === this.#drawn) return;
    this.#listing.offer(rows ?? []);
    if (rows) this.filter();
    else this.#chart.drawCells(view, counts, this.#legend.of(counts));
    this.#drawn = drawn;
  }

  /** @param {Reader} reader @returns {Promise<import('./reader.js').Listed | null>} */
  async #list(reader, span) {
    const { what, wanted } = this.#listing;
    if (!what) return null;
    return 'box' in what ? reader.cell(what.box, span, wanted) : reader.id(what.id);
  }

  /** Draws those of the rows in view that pass the filter. */
  filter() {
    if (!this.shown?.rows) return;
    const { rows, view, total } = this.shown, passed = rows.filter(row => this.#listing.passes(row));
    this.#chart.drawRows(view, passed);
    if (!total) this.#legend.clear();
    else this.#legend.ofPoints(passed.length === rows.length ? 'Each point is a row'
      : `Each point is a row: ${passed.length} of ${rowsText(total)} in view pass the filter`);
  }

  async #drawBars(reader, box, table) {
    const key = JSON.stringify([table, box, this.#panel.auths, this.#timeline.window]);
    if (key === this.#barsOf) return;
    this.#timeline.setCounts(await reader.bars(box, this.#timeline.slices));
    this.#barsOf = key;
  }

  /** Takes the bars for old: rows may have changed. */
  forgetBars() {
    this.#barsOf = '';
  }

  /** Chooses the colours anew, or keeps them. */
  recolour() {
    this.#drawn = '';
    if (this.shown && !this.shown.rows) this.#drawView();
  }

  /** Nothing is drawn or listed. */
  blank() {
    this.#listing.open(null);
    this.#listing.offer([]);
    this.#chart.clear();
    this.#legend.clear();
    this.#panel.total(null);
    this.#timeline.setCounts([]);
    this.forgetBars();
    this.#drawn = '';
    this.shown = null;
  }
}
