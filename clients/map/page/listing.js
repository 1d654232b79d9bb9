// @ts-check
// The list of rows: those of a cell, or those of an id, and a filter by what their properties say.
import { fieldsOf, itemOf, textOf } from './rows.js';
import { rowsText } from './texts.js';

/** @typedef {import('./rows.js').Row} Row */
/** @typedef {import('./places.js').Box} Box */
/** @typedef {{ box: Box } | { id: string }} What - the rows of a cell, or of an id */

const STEPS = [20, 100, 500, 1000]; // how many rows of a cell are listed, as the user asks for more
const NOTHING = 'Choose a cell to list its rows';
const $ = id => /** @type {any} */ (document.getElementById(id));

export class Listing {
  #chart;
  #step = 0;
  /** @type {Row[]} */
  #rows = [];
  /** @type {Row[]} */
  #others = [];
  /** @type {What | null} */
  what = null;

  /** @param {import('./chart.js').Chart} chart @param {() => void} onFilter */
  constructor(chart, onFilter) {
    this.#chart = chart;
    for (const [id, event] of [['property', 'change'], ['value', 'input']]) {
      $(id).addEventListener(event, () => {
        this.#filter();
        onFilter();
      });
    }
  }

  /** Nothing is listed until the rows are shown. @param {What | null} what */
  open(what) {
    this.what = what;
    this.#step = 0;
    this.#put([]);
    $('more').hidden = true;
    $('celltitle').textContent = what ? 'Asking for the rows' : NOTHING;
    this.#chart.frame(what && 'box' in what ? what.box : null);
  }

  /** How many rows of a cell are wanted. */
  get wanted() {
    return STEPS[this.#step];
  }

  /** Wants more of them. */
  more() {
    this.#step = Math.min(this.#step + 1, STEPS.length - 1);
  }

  /**
   * Lists rows.
   * @param {Row[]} rows
   * @param {number | null} count - the rows of the cell where not all are listed, counted at the same time; null where all are listed
   */
  show(rows, count) {
    if (!this.what) return;
    const place = 'box' in this.what ? 'in this cell' : `with the id ${this.what.id}`;
    const all = count === null ? rows.length : count;
    $('celltitle').textContent = all === 0 ? `No rows ${place}`
      : count === null ? `${rowsText(all)} ${place}`
      // Rows that came between the count and the list make the count wrong.
      : all > rows.length ? `${rowsText(all)} ${place}, ${rows.length} listed` : `More than ${rowsText(rows.length)} ${place}`;
    $('more').hidden = count === null || this.#step === STEPS.length - 1;
    this.#put(rows);
  }

  /** Scrolls a small panel so that the list is in sight. */
  reveal() {
    if (this.what && $('cell').offsetTop > $('panel').clientHeight / 2) $('cell').scrollIntoView({ block: 'start' });
  }

  #put(rows) {
    if (JSON.stringify(rows) === JSON.stringify(this.#rows)) return;
    this.#rows = rows;
    $('rows').replaceChildren(...rows.map(itemOf));
    this.offer(this.#others);
  }

  /** Offers the properties of the listed rows, and of those that the map draws, as filters. @param {Row[]} others */
  offer(others) {
    this.#others = others;
    const names = [...new Set([...this.#rows, ...others].flatMap(row => fieldsOf(row).map(([name]) => name)))].sort();
    const chosen = $('property').value;
    $('property').replaceChildren(new Option('any property', ''), ...names.map(name => new Option(name, `=${name}`)));
    $('property').value = names.includes(chosen.slice(1)) ? chosen : '';
    $('filter').hidden = names.length === 0;
    this.#filter();
  }

  /** Whether the filter lets a row through. @param {Row} row */
  passes(row) {
    const value = $('value').value.toLowerCase(), property = $('property').value;
    if ($('filter').hidden || value === '') return true;
    return fieldsOf(row).some(([name, said]) => (property === '' || property === `=${name}`) && textOf(said).toLowerCase().includes(value));
  }

  #filter() {
    const passed = this.#rows.filter(row => this.passes(row));
    [...$('rows').children].forEach((item, at) => {
      item.hidden = !passed.includes(this.#rows[at]);
    });
    const isFiltered = !$('filter').hidden && $('value').value !== '' && this.#rows.length > 0;
    $('passed').textContent = isFiltered ? `${passed.length} of ${this.#rows.length} listed rows pass the filter` : '';
    this.#chart.mark(passed);
  }
}
