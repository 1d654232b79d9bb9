// @ts-check
// Between which times the rows of a table lie.
import { LAST_SECOND, isoOf } from './places.js';

const DAY = 86400;
const LAST_DAY = Math.floor(LAST_SECOND / DAY);
const STRAY = 200; // one row of so many, and at least one, may be stray at each end
const FEW = 20; // with fewer rows none is stray

/** @typedef {{ begin: number, end: number }} Span - whole seconds, both included */

/**
 * The span of a table's rows in whole days and the span of nearly all of them, or null where there are no rows. `main` leaves out
 * stray rows where the axis of time would be more than three times as long with them. `countUntil` counts the rows until a second.
 * @param {(second: number) => Promise<number>} countUntil
 * @returns {Promise<{ all: Span, main: Span } | null>}
 */
export async function endsOf(countUntil) {
  const counts = new Map();
  const until = day => {
    if (!counts.has(day)) counts.set(day, countUntil(Math.min(LAST_SECOND, (day + 1) * DAY - 1)));
    return counts.get(day);
  };
  const rows = await until(LAST_DAY);
  if (rows === 0) return null;
  const stray = rows < FEW ? 0 : Math.max(1, Math.floor(rows / STRAY));
  const [first, low, high, last] = await Promise.all([1, 1 + stray, rows - stray, rows].map(rank => dayOf(rank, until)));
  const most = 2 * (high - low + 1);
  const span = (from, to) => ({ begin: from * DAY, end: Math.min(LAST_SECOND, (to + 1) * DAY - 1) });
  return { all: span(first, last), main: span(low - first > most ? low : first, last - high > most ? high : last) };
}

/** The day of the row of a rank in time, by halving. */
async function dayOf(rank, until) {
  let low = 0, high = LAST_DAY;
  while (low < high) {
    const middle = Math.floor((low + high) / 2);
    if (await until(middle) >= rank) high = middle;
    else low = middle + 1;
  }
  return low;
}

/** What the axis says where all time is chosen. @param {{ all: Span, main: Span } | null} ends */
export function wholeText(ends) {
  if (!ends) return 'All time: no rows';
  const { all, main } = ends, day = second => isoOf(second).slice(0, 10);
  const before = all.begin < main.begin ? [`before ${day(main.begin)}`] : [], after = all.end > main.end ? [`after ${day(main.end)}`] : [];
  const stray = [...before, ...after];
  return `All time: ${day(all.begin)} to ${day(all.end)}${stray.length ? `, few rows ${stray.join(' and ')}` : ''}`;
}
