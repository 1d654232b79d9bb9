// @ts-check
// Questions about one table, by a user's ticked authorizations.
import { endsOf } from './ends.js';
import { WORLD } from './places.js';
import { readRow } from './rows.js';
import { Refusal } from './server.js';
import { countsOf, rowsBox, viewBox, viewOfBox } from './view.js';

/** @typedef {import('./rows.js').Row} Row */
/** @typedef {import('./places.js').Box} Box */
/** @typedef {import('./ends.js').Span} Span */
/** @typedef {import('./view.js').View} View */
/** @typedef {{ counts: number[], total: number, rows: Row[] | null }} Seen - of a view; its rows where they are few */
/** @typedef {{ rows: Row[], count: number | null }} Listed - rows, and the count of all where not all are there */

const POINTS = 1000; // with at most so many rows in view, they are asked for
const PART = 250; // so many at a time
const LETTERS = 500_000; // of the notes of all of them, at most
const PAGE = 1000; // rows of a page of a file
const AT_ONCE = 8; // tables that are tried at once

const sum = counts => counts.reduce((one, other) => one + other, 0);

export class Reader {
  #server; #table; #auths; #signal;

  /** @param {import('./server.js').Server} server @param {string} table @param {string[]} auths @param {AbortSignal} [signal] */
  constructor(server, table, auths, signal) {
    this.#server = server; this.#table = table; this.#auths = auths; this.#signal = signal;
  }

  #query(box, { begin, end }) {
    return { box: [...box, begin, end], auths: this.#auths };
  }

  /** @param {Box} box @param {Span} span */
  count(box, span) {
    return this.#server.count(this.#table, this.#query(box, span), this.#signal);
  }

  #grid(view, span) {
    return countsOf(view, ({ box, nx, ny }) => this.#server.grid(this.#table, { ...this.#query(box, span), nx, ny }, this.#signal));
  }

  async #page(box, span, limit) {
    const { rows, next } = await this.#server.scan(this.#table, { ...this.#query(box, span), limit }, this.#signal);
    return { rows: rows.map(readRow), isLast: next === null };
  }

  /** What is in a view. @param {View} view @param {Span} span @returns {Promise<Seen>} */
  async view(view, span) {
    const counts = await this.#grid(view, span), total = sum(counts);
    if (total > POINTS) return { counts, total, rows: null };
    const rows = await this.#few(viewBox(view), span);
    return { counts, total: rows ? rows.length : total, rows };
  }

  /** The rows of a box, or null where they are many or long. @returns {Promise<Row[] | null>} */
  async #few(box, span) {
    const found = [];
    let letters = 0, after;
    do {
      const { rows, next } = await this.#server.scan(this.#table, { ...this.#query(box, span), limit: PART, after }, this.#signal);
      found.push(...rows.map(readRow));
      letters += rows.reduce((sum, row) => sum + row.note.length, 0);
      after = next;
    } while (after && found.length < POINTS && letters <= LETTERS);
    return after ? null : found;
  }

  /** The first rows of a cell. @param {Box} box @param {Span} span @param {number} most @returns {Promise<Listed>} */
  async cell(box, span, most) {
    const [count, { rows, isLast }] = await Promise.all([this.count(box, span), this.#page(box, span, most)]);
    return { rows, count: isLast ? null : count };
  }

  /** The rows of an id. @param {string} id @returns {Promise<Listed>} */
  async id(id) {
    return { rows: (await this.#server.get(this.#table, id, this.#auths, this.#signal)).map(readRow), count: null };
  }

  /** The rows of each span. @param {Box} box @param {Span[]} spans */
  bars(box, spans) {
    return Promise.all(spans.map(span => this.count(box, span)));
  }

  /** Between which times the table has rows. */
  ends() {
    return endsOf(end => this.count(WORLD, { begin: 0, end }));
  }

  /** The box of the rows of a span, by ever finer grids, or undefined where there are none. @param {Span} span */
  async place(span) {
    let box = WORLD;
    for (;;) {
      const view = viewOfBox(box), found = rowsBox(view, await this.#grid(view, span));
      if (!found) return undefined;
      const isSmaller = 2 * (found[1] - found[0]) < box[1] - box[0] && 2 * (found[3] - found[2]) < box[3] - box[2];
      if (!isSmaller) return found;
      box = found;
    }
  }

  /** All rows of a box, page by page. @param {Box} box @param {Span} span @param {(rows: number) => void} onPage */
  async all(box, span, onPage) {
    const found = [];
    let after;
    do {
      const page = await this.#server.scan(this.#table, { ...this.#query(box, span), limit: PAGE, after }, this.#signal);
      found.push(...page.rows.map(readRow));
      onPage(found.length);
      after = page.next;
    } while (after);
    return found;
  }
}

/**
 * The first table that the user may read, or undefined; `onRefused` is told of those before it.
 * @param {import('./server.js').Server} server @param {string[]} names @param {(name: string) => void} onRefused
 */
export async function firstReadable(server, names, onRefused) {
  const mayRead = name => server.count(name, { box: [0, 0, 0, 0, 0, 0], auths: [] }).then(() => true, error => {
    if (error instanceof Refusal && error.error === 'permission') return false;
    throw error;
  });
  for (let at = 0; at < names.length; at += AT_ONCE) {
    const some = names.slice(at, at + AT_ONCE), readable = await Promise.all(some.map(mayRead));
    const first = readable.indexOf(true);
    some.slice(0, first < 0 ? AT_ONCE : first).forEach(onRefused);
    if (first >= 0) return some[first];
  }
  return undefined;
}
