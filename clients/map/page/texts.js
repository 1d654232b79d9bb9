// @ts-check
// Numbers and times as texts.

/** How many rows, as a text. @param {number} count */
export const rowsText = count => `${count.toLocaleString('en')} ${count === 1 ? 'row' : 'rows'}`;

/** The time of day in UTC, as a text. @param {Date} moment */
export const clockText = moment => `${moment.toISOString().slice(11, 19)} UTC`;
