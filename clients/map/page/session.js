// @ts-check
// A signed-in user: what the server is asked, when, and what the page shows of its answers and its refusals.
import { wholeText } from './ends.js';
import { exportRows } from './export.js';
import { Picture } from './picture.js';
import { Reader, firstReadable } from './reader.js';
import { Outage, Refusal } from './server.js';
import { clockText } from './texts.js';
import { ALL_TIME } from './time.js';
import { viewBox } from './view.js';
import { Watch } from './watch.js';

const PAUSE = 150; // milliseconds without a further move before the server is asked
const SLOW = 2000; // milliseconds without an answer that are told
const OLD = 10_000; // milliseconds after which the view is asked again, though as many rows are in it
/** @type {{ from?: number, to?: number, anywhere: boolean }} */
const ANYWHERE = { anywhere: true };
/** @type {import('./places.js').Box} */
const NOWHERE = [0, 0, 0, 0]; // a box for a question whose refusal alone counts
const NAME = /^\w+(\.\w+)?$/; // of a table

export class Session {
  #server; #chart; #timeline; #listing; #panel; #picture; #onEnd; #watch;
  #table = '';
  #wanted = ANYWHERE; // the time and the place at which the table opens
  #isOpen = false; // whether the table's time and place are known; before, moves of the map ask nothing
  #asked = new AbortController(); // what the last refresh asks
  #saving = new AbortController(); // what the last file asks
  #wait = 0; // the timer of a refresh to come, or 0

  /**
   * @param {import('./server.js').Server} server @param {import('./picture.js').Parts} parts
   * @param {(reason: string) => void} onEnd - called where the token is refused
   */
  constructor(server, parts, onEnd) {
    this.#server = server;
    this.#chart = parts.chart; this.#timeline = parts.timeline; this.#listing = parts.listing; this.#panel = parts.panel;
    this.#picture = new Picture(parts);
    this.#onEnd = onEnd;
    this.#watch = new Watch(signal => this.#beat(signal), since => this.#silence(since),
      error => this.#fail(error, this.#table));
  }

  /**
   * Signs in, and opens the table that an address wants, or the first that may be read.
   * @param {ReturnType<import('./address.js').readAddress>} address
   */
  async start({ table: wanted, place, from, to }) {
    const [account, names] = await Promise.all([this.#server.whoami(), this.#server.tables()]);
    const refused = [];
    const first = wanted ?? await firstReadable(this.#server, names, name => refused.push(name));
    if (first === undefined) throw new Error('There is no table that you may read.');
    this.#panel.isOpen = true;
    this.#panel.user = account.user;
    this.#panel.offerTables(names);
    refused.forEach(name => this.#panel.markTable(name, false));
    this.#panel.offerAuths(account.auths);
    this.#chart.focus();
    if (place) this.#chart.place = place;
    this.#watch.start();
    await this.openTable(first, { from, to, anywhere: !place });
  }

  /** Ends all that is asked, and shows nothing more. */
  close() {
    this.#watch.stop();
    this.#asked.abort();
    this.#saving.abort();
    if (this.#wait) this.#panel.wait(-1);
    clearTimeout(this.#wait);
    this.#wait = 0;
    this.#isOpen = false;
    this.#table = '';
    this.#picture.blank();
    this.#timeline.setWindow(ALL_TIME);
  }

  /** Opens a table, with all its time chosen where no time is wanted, and the map where its rows are unless it is to stay. */
  async openTable(name, wanted = ANYWHERE) {
    const { from, to, anywhere } = this.#wanted = wanted;
    this.#isOpen = false;
    this.#table = NAME.test(name) ? name : '';
    this.#picture.blank();
    this.#timeline.setWindow(ALL_TIME);
    this.#panel.table = name;
    await this.#work(async signal => {
      if (!this.#table) throw new Refusal({ error: 'table', table: name });
      const reader = this.#reader(signal), ends = await reader.ends();
      this.#panel.markTable(name, true);
      this.#timeline.setWindow(ends?.main ?? ALL_TIME, { from, to }, ALL_TIME, wholeText(ends));
      const box = anywhere ? await reader.place(this.#timeline.chosen) : undefined;
      if (box) this.#chart.show(box);
      this.#isOpen = true;
      await this.#draw(signal);
    });
  }

  /** Opens the same table anew, with all its time, where the map is. */
  async allTime() {
    await this.openTable(this.#table, { ...ANYWHERE, anywhere: false });
  }

  /** Moves the map to where the rows of the chosen time are. */
  async showAll() {
    await this.#refresh(async signal => {
      const box = await this.#reader(signal).place(this.#timeline.chosen);
      if (box) this.#chart.show(box);
      await this.#draw(signal);
    });
  }

  /** Draws those of the rows in view that pass the filter. */
  filter() {
    this.#picture.filter();
  }

  /** Chooses the colours of the counts anew, or keeps them. */
  recolour() {
    this.#picture.recolour();
  }

  /** Asks anew what is in view. */
  async refresh() {
    await this.#refresh(signal => this.#draw(signal));
  }

  /** Asks anew what is in view, once the user has stopped for a moment. */
  refreshSoon() {
    if (!this.#isOpen) return;
    if (this.#wait) clearTimeout(this.#wait);
    else this.#panel.wait(1);
    this.#wait = setTimeout(() => {
      this.#wait = 0;
      this.refresh();
      this.#panel.wait(-1);
    }, PAUSE);
  }

  /** Lists the rows of a cell, or none. @param {import('./places.js').Box | null} box */
  async list(box) {
    this.#listing.open(box && { box });
    await this.refresh();
    this.#listing.reveal();
  }

  /** Lists more rows of the same cell. */
  async more() {
    this.#listing.more();
    await this.refresh();
  }

  /** Lists the rows of an id, and moves the map to them. @param {string} id */
  async find(id) {
    this.#listing.open({ id });
    await this.#refresh(async signal => {
      const { rows } = await this.#reader(signal).id(id);
      if (rows.length) this.#chart.showRows(rows);
      await this.#draw(signal);
    });
    this.#listing.reveal();
  }

  /** Saves the rows in view as a file. @param {'geojson' | 'csv'} format */
  async save(format) {
    if (!this.#isOpen) return;
    const table = this.#table, box = viewBox(this.#picture.view), tell = text => { this.#panel.notice = text; };
    this.#saving.abort();
    this.#saving = new AbortController();
    this.#panel.wait(1);
    try {
      tell(await exportRows(this.#reader(this.#saving.signal), box, this.#timeline.chosen, format, table, tell));
    } catch (error) {
      await this.#fail(error, table);
    } finally {
      this.#panel.wait(-1);
    }
  }

  #draw(signal) {
    return this.#picture.draw(this.#reader(signal), this.#table);
  }

  #reader(signal) {
    return new Reader(this.#server, this.#table, this.#panel.auths, signal);
  }

  async #refresh(work) {
    if (this.#isOpen) await this.#work(work);
  }

  /** Does the work in place of the one before, with the page marked as busy. */
  async #work(work) {
    this.#asked.abort();
    const asked = this.#asked = new AbortController(), table = this.#table;
    const slow = setTimeout(() => this.#panel.stale('slow', 'The server has not answered yet. What you see is what it was.'), SLOW);
    this.#panel.wait(1);
    try {
      await work(asked.signal);
      if (asked !== this.#asked) return;
      for (const cause of ['outage', 'changed']) this.#panel.stale(cause, '');
      this.#panel.error = '';
      this.#watch.hurry();
    } catch (error) {
      if (asked === this.#asked) await this.#fail(error, table);
    } finally {
      clearTimeout(slow);
      if (asked === this.#asked) this.#panel.stale('slow', '');
      this.#panel.wait(-1);
    }
  }

  // What the server says by itself: every second it is asked for the count of the view, which it refuses where it would refuse the rest.

  async #beat(signal) {
    const shown = this.#picture.shown, table = this.#table, auths = this.#panel.auths, begin = Date.now();
    if (!table) {
      await this.#server.whoami(signal);
      return;
    }
    const isOver = () => table !== this.#table || shown !== this.#picture.shown || String(auths) !== String(this.#panel.auths);
    try {
      const box = shown ? viewBox(shown.view) : NOWHERE;
      const count = await new Reader(this.#server, table, auths, signal).count(box, shown?.span ?? ALL_TIME);
      if (!isOver() && !this.#panel.isBusy) this.#compare(count, begin);
    } catch (error) {
      if (!isOver()) throw error;
    }
  }

  /** Follows a change that the server's count shows, or asks anew after a while: a row may have taken another's place. */
  #compare(count, begin) {
    const shown = this.#picture.shown;
    if (!shown) {
      if (this.#isOpen) this.refresh();
      else this.openTable(this.#table, this.#wanted);
      return;
    }
    const age = begin - shown.moment, isChanged = count !== shown.total, isWanted = isChanged || this.#panel.isStale;
    if (age > (isWanted ? 4 : 20) * shown.took && (isWanted || age > OLD)) this.#follow();
    else if (isChanged) this.#panel.stale('changed', 'Rows have changed. They are shown in a moment.');
  }

  /** Asks for all anew, also for what the user holds. */
  async #follow() {
    try {
      this.#offer((await this.#server.whoami()).auths);
      this.#picture.forgetBars();
      await this.refresh();
    } catch (error) {
      await this.#fail(error, this.#table);
    }
  }

  #silence(since) {
    this.#panel.stale('silence', since ? `The server has not answered since ${clockText(since)}. What you see may no longer hold.` : '');
    if (!since && this.#picture.shown) this.#picture.shown.moment = 0; // it is asked again
  }

  #offer(auths) {
    const isSame = JSON.stringify(auths) === JSON.stringify(this.#panel.offered);
    if (!isSame) this.#panel.offerAuths(auths);
    return !isSame;
  }

  /** Tells what went wrong with a table, if it is the one that is open. */
  async #fail(error, table) {
    if (error.name === 'AbortError') return;
    if (error.error === 'token') this.#onEnd(error.message);
    else if (table !== this.#table) return;
    else if (error instanceof Refusal && error.error !== 'memory') await this.#refused(error);
    else if (error instanceof Outage || error instanceof Refusal) {
      this.#panel.stale('outage', `${error.message} What you see may no longer hold.`);
    } else this.#panel.notice = error.message;
  }

  /** Shows nothing of the table, not even its times; it opens anew at the place and time at which it was. */
  #forget() {
    const { isWhole, chosen } = this.#timeline;
    if (this.#isOpen) this.#wanted = { ...(isWhole ? {} : { from: chosen.begin, to: chosen.end }), anywhere: false };
    this.#isOpen = false;
    this.#picture.blank();
    this.#timeline.setWindow(ALL_TIME);
  }

  /** Clears what is shown, and asks what the user still holds. */
  async #refused(error) {
    const isNew = this.#panel.error !== error.message;
    this.#asked.abort();
    this.#saving.abort();
    this.#forget();
    this.#panel.error = error.message;
    if (error.error === 'permission') this.#panel.markTable(this.#table, false);
    if (!isNew && error.error !== 'authorization') return;
    try {
      const { auths } = await this.#server.whoami();
      if (!this.#offer(auths) || error.error !== 'authorization') return;
    } catch (other) {
      await this.#fail(other, this.#table);
      return;
    }
    this.#panel.notice = `${error.message} It has been withdrawn.`;
    await this.openTable(this.#table, this.#wanted);
  }
}
