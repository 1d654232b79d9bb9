// @ts-check
// Degrees as cells of the store, as GeoMesa's normalized dimensions have them, and times as seconds from 1970 UTC.

export const CELLS = 2 ** 21;
export const LAST_SECOND = 19818086399;

/** @typedef {{ low: number, high: number }} Axis - the degrees of an axis */
/** @typedef {[number, number, number, number]} Box - first and last column, first and last line of the store */

/** @type {Axis} */
export const LONGITUDE = { low: -180, high: 180 };
/** @type {Axis} */
export const LATITUDE = { low: -90, high: 90 };

/**
 * The columns and lines of the whole world.
 * @type {Box}
 */
export const WORLD = [0, CELLS - 1, 0, CELLS - 1];

/**
 * The cell of degrees on an axis; degrees outside of the axis are in its first or last cell.
 * @param {number} degrees @param {Axis} axis
 */
export function cellOf(degrees, { low, high }) {
  if (degrees <= low) return 0;
  if (degrees >= high) return CELLS - 1;
  return Math.min(CELLS - 1, Math.floor((degrees - low) * (CELLS / (high - low))));
}

/**
 * The degrees at which a cell begins; `CELLS` gives the end of the axis.
 * @param {number} cell @param {Axis} axis
 */
export const beginOf = (cell, { low, high }) => low + cell * ((high - low) / CELLS);

/**
 * The degrees of a cell's middle.
 * @param {number} cell @param {Axis} axis
 */
export const middleOf = (cell, axis) => beginOf(cell + 0.5, axis);

/**
 * `2024-05-01T12:00:00Z` of seconds from 1970.
 * @param {number} second
 */
export const isoOf = second => new Date(second * 1000).toISOString().replace('.000', '');

/**
 * `2024-05-01 12:00` of seconds from 1970, in UTC.
 * @param {number} second
 */
export const timeText = second => isoOf(second).slice(0, 16).replace('T', ' ');

/**
 * The second of an ISO time within the store's range, or undefined.
 * @param {string | null} iso
 */
export function secondOf(iso) {
  const second = Math.floor(Date.parse(iso ?? '') / 1000);
  return second >= 0 && second <= LAST_SECOND ? second : undefined;
}

const EXACT = /^(\d{4}-\d\d-\d\d)[T ]((?:[01]\d|2[0-3]):[0-5]\d:[0-5]\d)(?:\.(\d{1,6}))?(Z|[+-]\d\d:\d\d)?$/;

/**
 * An exact time as ISO 8601 in UTC and its second, or undefined where the text is none; without an offset it is in UTC.
 * @param {string} text
 */
export function exactTime(text) {
  const [, day, clock, fraction, offset = 'Z'] = EXACT.exec(text) ?? [];
  const midnight = Date.parse(`${day}T00:00:00Z`), second = Date.parse(`${day}T${clock}${offset}`) / 1000;
  // February 30 would be taken for a day of March.
  if (!Number.isInteger(second) || !isoOf(midnight / 1000).startsWith(day)) return undefined;
  return { second, text: fraction ? isoOf(second).replace('Z', `.${fraction}Z`) : isoOf(second) };
}
