// @ts-check
// The cells of a view: squares of 2^k columns by 2^(k+1) lines of the store, at places that stay when the map is moved.
import { CELLS, LATITUDE, LONGITUDE, beginOf, cellOf } from './places.js';

const GRID = 32; // the most columns and lines of one grid of the server
const MOST = 2 * GRID; // the most columns and lines of a view: four grids
const SMALLEST = 14; // pixels of a cell's side, so that a finger meets it

/** @typedef {import('./places.js').Box} Box */
/** @typedef {{ size: number, begin: number, count: number }} Side - `count` squares of `size` columns or lines, the first being `begin` */
/** @typedef {{ columns: Side, lines: Side }} View */

/** @returns {Side} */
const span = (first, last, size) => {
  const begin = Math.floor(first / size);
  return { size, begin, count: Math.floor(last / size) - begin + 1 };
};

/**
 * The finest squares that fill a box with at most so many columns and lines of them.
 * @param {Box} box
 * @returns {View}
 */
export function viewOfBox([x0, x1, y0, y1], mostColumns = MOST, mostLines = MOST) {
  for (let size = 1; ; size *= 2) {
    const columns = span(x0, x1, size), lines = span(y0, y1, 2 * size);
    if (columns.count <= mostColumns && lines.count <= mostLines || 2 * size >= CELLS) return { columns, lines };
  }
}

/** The finest squares that fill the bounds with at most 64 by 64 of them, none smaller than a finger on a map of so many pixels. */
export function viewOf(bounds, pixels) {
  const most = length => Math.max(4, Math.min(MOST, Math.floor(length / SMALLEST)));
  return viewOfBox([
    cellOf(bounds.getWest(), LONGITUDE), cellOf(bounds.getEast(), LONGITUDE),
    cellOf(bounds.getSouth(), LATITUDE), cellOf(bounds.getNorth(), LATITUDE),
  ], most(pixels.x), most(pixels.y));
}

/** @returns {Box} */
const boxOf = ({ columns, lines }, column, line, width, height) => {
  const x0 = (columns.begin + column) * columns.size, y0 = (lines.begin + line) * lines.size;
  return [x0, x0 + width * columns.size - 1, y0, y0 + height * lines.size - 1];
};

/** The columns and lines of the store that the whole view holds. @param {View} view */
export const viewBox = view => boxOf(view, 0, 0, view.columns.count, view.lines.count);

/** The columns and lines of the store that a cell of the view holds. @param {View} view @param {number} index */
export const cellBox = (view, index) =>
  boxOf(view, index % view.columns.count, Math.floor(index / view.columns.count), 1, 1);

/**
 * The columns and lines of the store that the cells with rows hold, or undefined where there are none.
 * @param {View} view @param {number[]} counts
 * @returns {Box | undefined}
 */
export function rowsBox(view, counts) {
  const boxes = counts.flatMap((count, index) => count ? [cellBox(view, index)] : []);
  if (!boxes.length) return undefined;
  const [x0, x1, y0, y1] = [0, 1, 2, 3].map(at => boxes.map(box => box[at])
    .reduce((one, other) => at % 2 ? Math.max(one, other) : Math.min(one, other)));
  return [x0, x1, y0, y1];
}

/** South-west and north-east corner of a box, as latitude and longitude. @param {Box} box */
export const cornersOf = ([x0, x1, y0, y1]) => [
  [beginOf(y0, LATITUDE), beginOf(x0, LONGITUDE)],
  [beginOf(y1 + 1, LATITUDE), beginOf(x1 + 1, LONGITUDE)],
];

/**
 * The cell of the view at a place of the map, or undefined outside of the view and of the world.
 * @param {View} view @param {{ lat: number, lng: number }} place
 */
export function indexAt({ columns, lines }, { lat, lng }) {
  if (Math.abs(lat) > 90 || Math.abs(lng) > 180) return undefined;
  const column = Math.floor(cellOf(lng, LONGITUDE) / columns.size) - columns.begin;
  const line = Math.floor(cellOf(lat, LATITUDE) / lines.size) - lines.begin;
  if (column < 0 || column >= columns.count || line < 0 || line >= lines.count) return undefined;
  return line * columns.count + column;
}

/**
 * How many rows each cell of the view holds, line by line from the south-west; `ask` is given the grids' boxes.
 * @param {View} view @param {(grid: { box: Box, nx: number, ny: number }) => Promise<number[]>} ask
 * @returns {Promise<number[]>}
 */
export async function countsOf(view, ask) {
  const { columns, lines } = view;
  const counts = new Array(columns.count * lines.count).fill(0);
  const grids = [];
  for (let column = 0; column < columns.count; column += GRID) {
    for (let line = 0; line < lines.count; line += GRID) grids.push({ column, line });
  }
  await Promise.all(grids.map(async ({ column, line }) => {
    const nx = Math.min(GRID, columns.count - column), ny = Math.min(GRID, lines.count - line);
    const grid = await ask({ box: boxOf(view, column, line, nx, ny), nx, ny });
    grid.forEach((count, at) => {
      counts[(line + Math.floor(at / nx)) * columns.count + column + at % nx] = count;
    });
  }));
  return counts;
}
