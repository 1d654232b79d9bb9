// @ts-check
// Requests to the server, and what its refusals say in words.

/** @typedef {import('./rows.js').Told} Told */
/** @typedef {{ id: string, label: string, point: number[] }} After - a place in a scan */
/** @typedef {{ box: number[], auths: string[] }} Query - columns, lines and seconds, and the authorizations that are used */

const REASONS = {
  token: () => 'The server does not accept this token.',
  permission: body => `You lack the permission ${body.permission}${body.table ? ` on the table ${body.table}` : ''}.`,
  authorization: body => `You do not hold the authorization ${body.authorization}.`,
  table: body => `There is no table ${body.table}.`,
  memory: () => 'The server is out of memory.',
};

const explain = body => REASONS[body.error]?.(body) ?? `The server refused: ${JSON.stringify(body)}`;

/** What the server refused: `error` is its word for it. */
export class Refusal extends Error {
  constructor(body) {
    super(explain(body));
    this.error = body.error;
  }
}

/** No answer of the server: it cannot be reached, or a proxy answered in its place. */
export class Outage extends Error {}

/** The JSON of a reply, or null where it has none. @param {Response} reply */
const readJson = reply => reply.json().catch(error => {
  if (error instanceof SyntaxError) return null;
  throw error;
});

/** The server that this page comes from, asked with one token, which is kept nowhere but in this object. */
export class Server {
  #token;

  /** @param {string} token */
  constructor(token) {
    this.#token = token;
  }

  /** @param {string} method @param {string} path @param {object} [body] @param {AbortSignal} [signal] */
  async #ask(method, path, body, signal) {
    /** @type {RequestInit} */
    const request = {
      method, signal, cache: 'no-store', credentials: 'omit', redirect: 'error', referrerPolicy: 'no-referrer',
      headers: { Authorization: `Bearer ${this.#token}` }, body: body && JSON.stringify(body),
    };
    const [reply, answer] = await fetch(path, request).then(async it => [it, await readJson(it)]).catch(error => {
      throw error instanceof TypeError ? new Outage('The server cannot be reached.') : error;
    });
    if (reply.ok && answer) return answer;
    if (answer?.error) throw new Refusal(answer);
    throw new Outage(`The server cannot answer now (${reply.status}).`);
  }

  /** @param {AbortSignal} [signal] @returns {Promise<{ user: string, auths: string[] }>} */
  whoami(signal) {
    return this.#ask('GET', '/whoami', undefined, signal);
  }

  /** @param {AbortSignal} [signal] @returns {Promise<string[]>} */
  async tables(signal) {
    return (await this.#ask('GET', '/tables', undefined, signal)).tables.map(table => table.table);
  }

  /** @param {string} table @param {Query} query @param {AbortSignal} [signal] @returns {Promise<number>} */
  async count(table, query, signal) {
    return (await this.#ask('POST', `/tables/${table}/count`, query, signal)).count;
  }

  /** @param {string} table @param {Query & { nx: number, ny: number }} query @param {AbortSignal} [signal] @returns {Promise<number[]>} */
  async grid(table, query, signal) {
    return (await this.#ask('POST', `/tables/${table}/grid`, query, signal)).grid;
  }

  /**
   * @param {string} table @param {Query & { limit: number, after?: After }} query @param {AbortSignal} [signal]
   * @returns {Promise<{ rows: Told[], next: After | null }>}
   */
  scan(table, query, signal) {
    return this.#ask('POST', `/tables/${table}/scan`, query, signal);
  }

  /** @param {string} table @param {string} id @param {string[]} auths @param {AbortSignal} [signal] @returns {Promise<Told[]>} */
  async get(table, id, auths, signal) {
    return (await this.#ask('POST', `/tables/${table}/get`, { id, auths }, signal)).rows;
  }
}
