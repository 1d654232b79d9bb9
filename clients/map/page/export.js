// @ts-check
// Rows as files that `fashkiin load` and other programs read: GeoJSON (RFC 7946) and CSV (RFC 4180).
import { rowsText } from './texts.js';
import { textOf } from './rows.js';

/** @typedef {import('./rows.js').Row} Row */

const MOST = 100_000; // rows of a file
const OWN = ['id', 'lon', 'lat', 'time', 'label'];

/**
 * The properties of a row, by names that no field of its own has.
 * @param {Row} row
 * @returns {[string, any][]}
 */
const namedApart = ({ properties }) => Object.entries(properties).map(
  ([name, value]) => [OWN.includes(name) ? `property_${name}` : name, value]);

/** A FeatureCollection of the rows. @param {Row[]} rows */
export const geojsonOf = rows => `{"type":"FeatureCollection","features":[\n${rows.map(row => JSON.stringify({
  type: 'Feature',
  id: row.id,
  geometry: { type: 'Point', coordinates: [row.lng, row.lat] },
  properties: { time: row.time, label: row.label, ...Object.fromEntries(namedApart(row)) },
})).join(',\n')}\n]}\n`;

const field = value => {
  const text = value === null || value === undefined ? '' : textOf(value);
  return /[",\r\n]/.test(text) ? `"${text.replaceAll('"', '""')}"` : text;
};

/** CSV with a header line; the properties of all rows are its further columns. @param {Row[]} rows */
export function csvOf(rows) {
  const properties = rows.map(row => new Map(namedApart(row)));
  const names = [...new Set(properties.flatMap(it => [...it.keys()]))];
  const lines = rows.map(({ id, lng, lat, time, label }, at) =>
    [id, lng, lat, time, label, ...names.map(name => properties[at].get(name))]);
  return [[...OWN, ...names], ...lines].map(line => `${line.map(field).join(',')}\r\n`).join('');
}

const FORMATS = {
  geojson: { write: geojsonOf, type: 'application/geo+json' },
  csv: { write: csvOf, type: 'text/csv' },
};

/** Lets the browser save a text as a file. */
function save(text, type, name) {
  const link = document.createElement('a'), url = URL.createObjectURL(new Blob([text], { type }));
  Object.assign(link, { href: url, download: name }).click();
  setTimeout(() => URL.revokeObjectURL(url), 10_000);
}

/**
 * Saves all rows of a box and a span as a file, and says so; `tell` is told how far it is.
 * @param {import('./reader.js').Reader} reader @param {import('./places.js').Box} box @param {import('./ends.js').Span} span
 * @param {'geojson' | 'csv'} format @param {string} table @param {(text: string) => void} tell
 */
export async function exportRows(reader, box, span, format, table, tell) {
  const count = await reader.count(box, span);
  if (count > MOST) return `${rowsText(count)} are in view, and a file takes ${rowsText(MOST)}. Zoom in, or use fashkiin dump.`;
  const rows = await reader.all(box, span, read => tell(`${read} of about ${rowsText(count)} read`));
  const { write, type } = FORMATS[format];
  save(write(rows), type, `${table}.${format}`);
  return `${rowsText(rows.length)} saved to ${table}.${format}`;
}
