// @ts-check
// The rows of the store: their exact place and time where the note has them, and the row as a list item.
import { LATITUDE, LONGITUDE, cellOf, exactTime, isoOf, middleOf } from './places.js';

/** @typedef {{ id: string, label: string, note: string, point: [number, number, number] }} Told - a row as the server tells it */
/**
 * `exact` says whether place and time are the row's own; else they are the middle of its cell, and its second.
 * @typedef {{ id: string, label: string, lng: number, lat: number, time: string, exact: boolean, properties: Record<string, any> }} Row
 */

const inside = (degrees, cell, axis) => typeof degrees === 'number' && degrees >= axis.low && degrees <= axis.high
  && cellOf(degrees, axis) === cell;

/** Whole numbers that JavaScript would round are kept as texts, where the browser shows their digits. */
const keepDigits = (_key, value, context) =>
  typeof value === 'number' && !Number.isSafeInteger(value) && /^-?\d+$/.test(context?.source ?? '') ? context.source : value;

/** What a note of the loader's form says, if it lies in the row's cell and second. */
function exactOf({ note, point: [x, y, t] }) {
  if (!note.startsWith('{"at":')) return null;
  try {
    const { at, time, properties = {} } = JSON.parse(note, keepDigits);
    const moment = exactTime(time), isNamed = properties !== null && typeof properties === 'object' && !Array.isArray(properties);
    const isInside = at.length === 2 && inside(at[0], x, LONGITUDE) && inside(at[1], y, LATITUDE);
    if (!isInside || !moment || moment.second !== t || !isNamed) return null;
    return { lng: at[0], lat: at[1], time: moment.text, exact: true, properties };
  } catch {
    return null; // another note
  }
}

/**
 * A row of the server. The loader keeps the exact place and time and the row's properties in the note, as a JSON object
 * `{"at":[lon,lat],"time":..,"properties":{}}`. It is believed only where it lies in the row's own cell and second; any other note
 * is the property `note` of a row in the middle of its cell, as the Python client reads it.
 * @param {Told} told
 * @returns {Row}
 */
export function readRow(told) {
  const { id, label, note, point: [x, y, t] } = told;
  const middle = { lng: middleOf(x, LONGITUDE), lat: middleOf(y, LATITUDE), time: isoOf(t), exact: false };
  return { id, label, ...(exactOf(told) ?? { ...middle, properties: note ? { note } : {} }) };
}

/** A value of a property as a text. */
export const textOf = value => typeof value === 'object' ? JSON.stringify(value) : String(value);

/** The properties of a row that say something, by name. @param {Row} row */
export const fieldsOf = row => Object.entries(row.properties).filter(([, value]) => value !== null && value !== '');

/** @param {string} name @param {string} className @param {(Node | string)[]} children */
export const element = (name, className, ...children) => {
  const made = document.createElement(name);
  made.className = className;
  made.append(...children);
  return made;
};

/** The place and the time of a row as a text. @param {Row} row */
export function placeText(row) {
  const [lat, lng] = [row.lat, row.lng].map(degrees => Number(degrees.toFixed(5)));
  return `${row.time} · ${row.exact ? '' : 'about '}${lat}, ${lng}`;
}

/** The list item of a row: text nodes alone. @param {Row} row */
export function itemOf(row) {
  const label = element('code', row.label ? 'label' : 'label everybody', row.label || 'everybody');
  label.title = 'Who may see this row';
  const fields = element('dl', '');
  for (const [name, value] of fieldsOf(row)) fields.append(element('dt', '', name), element('dd', '', textOf(value)));
  return element('li', '',
    element('p', 'head', element('b', '', row.id), ' ', label),
    element('p', 'where', placeText(row)),
    ...(fields.childElementCount ? [fields] : []));
}
