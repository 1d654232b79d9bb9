// @ts-check
// What lies under and over the rows: land and outlines of Natural Earth, names of places, and lines of longitude and latitude.
import { DARK } from './legend.js';

const L = window.L;
const FINE = 4; // the zoom from which the finer outlines are drawn
const NAMED = 3; // the zoom from which places are named beside countries
const LINES = [60, 30, 15, 10, 5, 2, 1, 0.5, 0.2, 0.1, 0.05, 0.02, 0.01, 0.005, 0.002, 0.001, 0.0005, 0.0002, 0.0001];
const GAP = 110; // pixels between two lines, at least
const LETTER = 7; // pixels of a letter, about
const LINE = 16; // pixels of a line of text
const RIM = 6; // pixels between the rim of the map and the degrees
const LARGE = 1500; // square pixels of a country that is named

/** A canvas of its own at a height over the map. */
export const pane = (map, name, order) => {
  map.createPane(name).style.zIndex = order;
  map.getPane(name).style.pointerEvents = 'none';
  return L.canvas({ pane: name, padding: 0.5 });
};

/** A colour of map.css, as it is in this mode. @param {string} name */
export const colour = name => getComputedStyle(document.documentElement).getPropertyValue(`--${name}`).trim();

const styles = {
  land: () => ({ stroke: false, fillColor: colour('land'), fillOpacity: 1 }),
  halo: () => ({ color: colour('halo'), opacity: 0.5, weight: 2.4, fill: false }),
  coast: () => ({ color: colour('coast'), weight: 0.8, fill: false }),
};

/** `51.95° N` of a latitude; `sides` are such as NS. */
const degreesText = (degrees, sides, digits) =>
  `${Math.abs(degrees).toFixed(digits)}°${degrees === 0 ? '' : ` ${sides[degrees > 0 ? 0 : 1]}`}`;

/** @typedef {[number, number, number, number]} Area - left, right, top and bottom, in pixels of the map */

const meets = (/** @type {Area} */ [left, right, top, bottom], /** @type {Area} */ other) =>
  left < other[1] && right > other[0] && top < other[3] && bottom > other[2];

/** A place in degrees, to a digit that a pixel of the zoom shows; nothing outside of the world. */
export function coordinatesText({ lat, lng }, zoom) {
  if (Math.abs(lat) > 90 || Math.abs(lng) > 180) return '';
  const digits = Math.min(6, Math.max(1, Math.ceil(zoom / 3)));
  return `${degreesText(lat, 'NS', digits)}, ${degreesText(lng, 'EW', digits)}`;
}

export class Ground {
  #map; #land; #lines; #outlines;
  #names = L.layerGroup();
  #graticule = L.layerGroup();
  #graticuleRenderer;
  /** @type {Area[]} */
  #taken = []; // where a text, or a part of the page that lies over the map, stands
  /** @type {{ countries: [string, number, number, number][], places: [string, number, number][] }} - places, and square degrees */
  #known = { countries: [], places: [] };

  constructor(map) {
    this.#map = map;
    this.#land = pane(map, 'land', 210);
    this.#graticuleRenderer = pane(map, 'graticule', 225);
    this.#lines = pane(map, 'outlines', 230);
    map.createPane('names').style.zIndex = 235;
    map.getPane('names').style.pointerEvents = 'none';
    this.#names.addTo(map);
    this.#graticule.addTo(map);
    map.on('moveend resize', () => this.#draw());
    DARK.addEventListener('change', () => this.#restyle());
    this.#load();
  }

  async #load() {
    this.#outlines = await this.#drawOutlines('outlines-110m.json');
    this.#known = await (await fetch('names.json')).json();
    this.#draw();
    const refine = async () => {
      if (this.#map.getZoom() < FINE) return;
      this.#map.off('zoomend', refine);
      const coarse = this.#outlines;
      this.#outlines = await this.#drawOutlines('outlines-50m.json');
      coarse.remove();
    };
    this.#map.on('zoomend', refine);
    await refine();
  }

  async #drawOutlines(file) {
    const outlines = await (await fetch(file)).json();
    const layers = Object.entries(styles).map(([name, style]) => Object.assign(
      L.geoJSON(outlines, { interactive: false, renderer: name === 'land' ? this.#land : this.#lines, style: style() }), { name }));
    return L.layerGroup(layers).addTo(this.#map);
  }

  #restyle() {
    this.#outlines?.eachLayer(layer => layer.setStyle(styles[layer.name]()));
    this.#draw();
  }

  #draw() {
    this.#taken = this.#controls();
    this.#drawGraticule();
    this.#drawNames();
  }

  /** @returns {Area[]} */
  #controls() {
    const map = this.#map.getContainer(), { left, top } = map.getBoundingClientRect();
    return [...map.querySelectorAll('.leaflet-control')].map(control => {
      const area = control.getBoundingClientRect();
      return [area.left - left, area.right - left, area.top - top, area.bottom - top];
    });
  }

  /** Takes an area for a text, if the map has it whole and nothing else stands there. @param {Area} area */
  #take(area) {
    const { x, y } = this.#map.getSize(), [left, right, top, bottom] = area;
    const isFree = left >= 0 && right <= x && top >= 0 && bottom <= y && !this.#taken.some(it => meets(it, area));
    if (isFree) this.#taken.push(area);
    return isFree;
  }

  #drawGraticule() {
    this.#graticule.clearLayers();
    const bounds = this.#map.getBounds(), size = this.#map.getSize();
    const pixels = size.x / (bounds.getEast() - bounds.getWest());
    const step = LINES.filter(it => it * pixels >= GAP).pop() ?? LINES[0], digits = Math.max(0, Math.ceil(-Math.log10(step)));
    const west = Math.max(-180, bounds.getWest()), east = Math.min(180, bounds.getEast());
    const south = Math.max(-90, bounds.getSouth()), north = Math.min(90, bounds.getNorth());
    const steps = (from, to) => Array.from({ length: Math.max(0, Math.floor(to / step) - Math.ceil(from / step) + 1) },
      (_, at) => (Math.ceil(from / step) + at) * step);
    const top = Math.max(0, this.#pixel(north, 0).y), right = Math.min(size.x, this.#pixel(0, east).x);
    for (const lng of steps(west, east)) {
      this.#line([[south, lng], [north, lng]]);
      const text = degreesText(lng, 'EW', digits), { x } = this.#pixel(0, lng);
      if (this.#take([x, x + RIM + text.length * LETTER, top, top + LINE])) this.#text([north, lng], text, 'degrees meridian');
    }
    for (const lat of steps(south, north)) {
      this.#line([[lat, west], [lat, east]]);
      const text = degreesText(lat, 'NS', digits), { y } = this.#pixel(lat, 0);
      if (this.#take([right - RIM - text.length * LETTER, right, y - LINE, y])) this.#text([lat, east], text, 'degrees parallel');
    }
  }

  #pixel(lat, lng) {
    return this.#map.latLngToContainerPoint([lat, lng]);
  }

  #line(places) {
    const style = { color: colour('graticule'), weight: 1, opacity: 0.5, interactive: false, renderer: this.#graticuleRenderer };
    L.polyline(places, style).addTo(this.#graticule);
  }

  #text(place, text, className, group = this.#graticule) {
    const html = document.createElement('span');
    html.textContent = text;
    L.marker(place, { icon: L.divIcon({ html, className, iconSize: [0, 0] }), pane: 'names', interactive: false, keyboard: false })
      .addTo(group);
  }

  /** Names that are whole in view, the important ones first, each where no other text stands. */
  #drawNames() {
    this.#names.clearLayers();
    const { countries, places } = this.#known, bounds = this.#map.getBounds();
    const pixels = this.#map.getSize().x / (bounds.getEast() - bounds.getWest());
    const large = countries.filter(([, , , area]) => area * pixels * pixels > LARGE);
    const named = this.#map.getZoom() < NAMED ? large : [...large, ...places];
    for (const [at, [name, lng, lat]] of named.entries()) {
      if (!bounds.contains([lat, lng])) continue;
      const isCountry = at < large.length, { x, y } = this.#pixel(lat, lng), long = name.length * LETTER;
      const [left, right] = isCountry ? [x - long / 2, x + long / 2] : [x - 4, x + 8 + long];
      if (this.#take([left, right, y - LINE / 2, y + LINE / 2])) this.#text([lat, lng], name, isCountry ? 'country' : 'place', this.#names);
    }
  }
}
