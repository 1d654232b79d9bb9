// @ts-check
// The address keeps the table, the view and the time, and never the token: #table=..&at=LAT,LON&zoom=..&from=ISO&to=ISO
import { isoOf, secondOf } from './places.js';

/** What the address says; what it does not say, or not well, is undefined. */
export function readAddress() {
  const words = new URLSearchParams(location.hash.slice(1));
  const [lat, lng] = (words.get('at') ?? '').split(',').map(parseFloat);
  const zoom = parseFloat(words.get('zoom') ?? '');
  return {
    table: words.get('table') ?? undefined,
    place: [lat, lng, zoom].every(Number.isFinite) ? { lat, lng, zoom } : undefined,
    from: secondOf(words.get('from')),
    to: secondOf(words.get('to')),
  };
}

/** @param {{ table: string, place: { lat: number, lng: number, zoom: number }, from?: number, to?: number }} shown */
export function writeAddress({ table, place: { lat, lng, zoom }, from, to }) {
  const words = new URLSearchParams({ table, at: `${lat.toFixed(4)},${lng.toFixed(4)}`, zoom: String(zoom) });
  if (from !== undefined) words.set('from', isoOf(from));
  if (to !== undefined) words.set('to', isoOf(to));
  // Commas and colons need no escape in a fragment.
  history.replaceState(null, '', `#${words.toString().replaceAll('%2C', ',').replaceAll('%3A', ':')}`);
}
