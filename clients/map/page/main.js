// @ts-check
// The page: its parts, and what the user does with them.
import { readAddress } from './address.js';
import { Chart } from './chart.js';
import { DARK, Legend } from './legend.js';
import { Listing } from './listing.js';
import { Panel } from './panel.js';
import { Playback } from './playback.js';
import { Server } from './server.js';
import { Session } from './session.js';
import { Timeline } from './time.js';

const SLOW = 2000; // milliseconds without an answer that are told
const $ = id => /** @type {any} */ (document.getElementById(id));

/** The page of one user at a time. */
class Page {
  /** @type {Session | null} */
  #session = null;
  #panel = new Panel(() => this.#do(session => session.refresh()));
  #chart = new Chart($('map'));
  #legend = new Legend($('legend'), $('keep'));
  #listing = new Listing(this.#chart, () => this.#session?.filter());
  #timeline = new Timeline({ from: $('from'), to: $('to'), bars: $('bars'), ticks: $('ticks'), span: $('span') }, () => {
    this.#playback.stop();
    this.#do(session => session.refreshSoon());
  });
  #playback = new Playback($('play'), this.#timeline, async () => this.#session?.refresh());

  constructor() {
    this.#onLogin();
    this.#onChoices();
    this.#chart.onMove(() => this.#session?.refreshSoon());
    DARK.addEventListener('change', () => this.#session?.recolour());
    this.#chart.onChoose(box => this.#do(session => session.list(box)));
    $('opening').showModal();
  }

  /** Does what the user wants; what was told before is over. */
  #do(work) {
    if (!this.#session) return;
    this.#panel.notice = '';
    work(this.#session);
  }

  #onLogin() {
    $('login').addEventListener('submit', event => {
      event.preventDefault();
      const token = $('token').value;
      $('token').value = '';
      this.#login(token);
    });
    $('opening').addEventListener('cancel', event => event.preventDefault());
    $('forget').addEventListener('click', () => location.reload());
    // A page that the browser kept for "back" would still hold the token.
    window.addEventListener('pageshow', event => event.persisted && location.reload());
  }

  async #login(token) {
    const parts = { chart: this.#chart, timeline: this.#timeline, legend: this.#legend, listing: this.#listing, panel: this.#panel };
    const session = new Session(new Server(token), parts, reason => this.#close(reason));
    const slow = setTimeout(() => { this.#panel.refused = 'The server has not answered yet.'; }, SLOW);
    this.#panel.refused = '';
    this.#session?.close();
    this.#session = session;
    try {
      await session.start(readAddress());
    } catch (error) {
      if (session === this.#session) this.#close(error.message);
    } finally {
      clearTimeout(slow);
    }
  }

  #close(reason) {
    this.#playback.stop();
    this.#session?.close();
    this.#session = null;
    this.#panel.isOpen = false;
    this.#panel.refused = reason;
  }

  #onChoices() {
    const on = (id, event, work) => $(id).addEventListener(event, told => {
      told.preventDefault();
      this.#playback.stop();
      this.#do(work);
    });
    on('table', 'change', session => session.openTable($('table').value));
    on('narrow', 'click', session => {
      this.#timeline.narrow();
      session.refresh();
    });
    on('alltime', 'click', session => session.allTime());
    on('all', 'click', session => session.showAll());
    on('more', 'click', session => session.more());
    on('keep', 'change', session => session.recolour());
    on('search', 'submit', session => session.find($('find').value));
    on('geojson', 'click', session => session.save('geojson'));
    on('csv', 'click', session => session.save('csv'));
    window.addEventListener('hashchange', () => this.#do(session => {
      const { table, place, from, to } = readAddress();
      if (place) this.#chart.place = place;
      if (table) session.openTable(table, { from, to, anywhere: !place });
    }));
  }
}

new Page();
