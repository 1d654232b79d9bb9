// @ts-check
// What the page says in words, and what the user chooses beside the map: the table and the authorizations.

import { clockText, rowsText } from './texts.js';

const $ = id => /** @type {any} */ (document.getElementById(id));

export class Panel {
  #works = 0; // how many answers the page waits for
  #stale = new Map(); // why the map may be out of date, by cause
  #onAuths;

  /** @param {() => void} onAuths - called when the user ticks an authorization on or off */
  constructor(onAuths) {
    this.#onAuths = onAuths;
  }

  /** Shows the page of a user, or hides it. @param {boolean} isOpen */
  set isOpen(isOpen) {
    for (const id of ['panel', 'time']) $(id).hidden = !isOpen;
    for (const id of ['error', 'notice', 'total', 'asof', 'user']) $(id).textContent = '';
    if (isOpen) $('opening').close();
    else this.#clear();
  }

  #clear() {
    for (const id of ['auths', 'table']) $(id).replaceChildren();
    for (const id of ['find', 'value']) $(id).value = '';
    for (const cause of this.#stale.keys()) this.stale(cause, '');
    if (!$('opening').open) $('opening').showModal();
  }

  set user(name) {
    $('user').textContent = `Signed in as ${name}`;
  }

  /** What the login says. @param {string} text */
  set refused(text) {
    $('refused').textContent = text;
  }

  /** A refusal that holds, until it is ''. @param {string} text */
  set error(text) {
    if ($('error').textContent !== text) $('error').textContent = text;
  }

  get error() {
    return $('error').textContent;
  }

  /** Something that has happened, until the user goes on. @param {string} text */
  set notice(text) {
    if ($('notice').textContent !== text) $('notice').textContent = text;
  }

  /** Says over the map that it may be out of date, for a cause; '' ends that cause. @param {string} cause @param {string} text */
  stale(cause, text) {
    if (text) this.#stale.set(cause, text);
    else this.#stale.delete(cause);
    const [first = ''] = this.#stale.values();
    if ($('stale').textContent !== first) $('stale').textContent = first;
    document.body.classList.toggle('stale', first !== '');
  }

  get isStale() {
    return this.#stale.size > 0;
  }

  /** Counts what the page waits for. @param {number} more */
  wait(more) {
    this.#works += more;
    document.body.setAttribute('aria-busy', String(this.#works > 0));
  }

  get isBusy() {
    return this.#works > 0;
  }

  /** @param {number | null} count - the rows in view, or null where nothing is shown @param {Date} [moment] - when they were counted */
  total(count, moment) {
    $('total').textContent = count === null ? '' : `${rowsText(count)} in view`;
    $('asof').textContent = moment ? `as of ${clockText(moment)}` : '';
  }

  /** @param {string[]} names */
  offerTables(names) {
    $('table').replaceChildren(...names.map(name => new Option(name, name)));
  }

  /** Marks tables that the user may not read. @param {string} name @param {boolean} isReadable */
  markTable(name, isReadable) {
    const option = [...$('table').options].find(it => it.value === name);
    if (option) option.text = isReadable ? name : `${name} (not yours to read)`;
  }

  get table() {
    return $('table').value;
  }

  set table(name) {
    $('table').value = name;
  }

  /** The authorizations that are ticked. @returns {string[]} */
  get auths() {
    return [...$('auths').querySelectorAll('input:checked')].map(input => input.name);
  }

  /** Offers the authorizations that the user holds; those that were not ticked stay so. @param {string[]} names */
  offerAuths(names) {
    const off = new Set([...$('auths').querySelectorAll('input:not(:checked)')].map(input => input.name));
    $('auths').replaceChildren(...names.map(name => {
      const label = document.createElement('label'), input = document.createElement('input');
      Object.assign(input, { type: 'checkbox', checked: !off.has(name), name });
      input.addEventListener('change', this.#onAuths);
      label.append(input, ` ${name}`);
      return label;
    }));
    if (!names.length) $('auths').textContent = 'You hold none: you see the rows that everybody may see.';
  }

  /** The authorizations that are offered. @returns {string[]} */
  get offered() {
    return [...$('auths').querySelectorAll('input')].map(input => input.name);
  }
}
