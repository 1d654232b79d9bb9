// @ts-check
// The ticks of the axis of time: round times in UTC, and their texts.
import { isoOf } from './places.js';

const MINUTE = 60, HOUR = 60 * MINUTE, DAY = 24 * HOUR, MONTH = 30.4 * DAY, YEAR = 365.25 * DAY;
const STEPS = [1, 5, 15, 30, MINUTE, 5 * MINUTE, 15 * MINUTE, 30 * MINUTE, HOUR, 3 * HOUR, 6 * HOUR, 12 * HOUR, DAY, 2 * DAY, 7 * DAY];
const MONTHS = [1, 2, 3, 6, 12, 24, 60, 120, 240, 600, 1200];
const LETTER = 7.1, PADDING = 9; // pixels of a tick's text: of each letter, and of what is around them
const APART = 10; // pixels between two texts, at least

/** The pixels that a tick with a text takes, about. @param {string} text */
export const widthOf = text => text.length * LETTER + PADDING;

/** The first of each so many months from 1970 on that lies in the span. */
function months(begin, end, step) {
  const found = [], first = new Date(begin * 1000);
  const before = (first.getUTCFullYear() - 1970) * 12 + first.getUTCMonth();
  for (let month = Math.ceil(before / step) * step; ; month += step) {
    const second = Date.UTC(1970, month) / 1000;
    if (second > end) return found;
    if (second >= begin) found.push({ second, text: isoOf(second).slice(0, step % 12 ? 7 : 4) });
  }
}

/** Each so many seconds from 1970 on that lies in the span; a time of day is told, and the day where it begins. */
function seconds(begin, end, step) {
  const found = [];
  for (let second = Math.ceil(begin / step) * step; second <= end; second += step) {
    const iso = isoOf(second);
    found.push({ second, text: second % DAY === 0 ? iso.slice(0, 10) : iso.slice(11, step < MINUTE ? 19 : 16) });
  }
  return found;
}

/**
 * The ticks of a span on an axis of so many pixels, as dense as their texts allow.
 * @param {import('./ends.js').Span} span @param {number} pixels
 * @returns {{ second: number, text: string }[]}
 */
export function ticksOf({ begin, end }, pixels) {
  const length = end + 1 - begin, fits = (step, text) => step / length * pixels >= widthOf(text) + APART;
  const step = STEPS.find(it => fits(it, '2005-10-01'));
  if (step) return seconds(begin, end, step);
  return months(begin, end, MONTHS.find(it => it < 12 ? fits(it * MONTH, '2005-10') : fits(it / 12 * YEAR, '2005')) ?? 1200);
}
