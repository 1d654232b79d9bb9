// @ts-check
// The Leaflet map: the cells of a view or the rows themselves, the open cell and its rows on top.
import { Ground, colour, coordinatesText, pane } from './ground.js';
import { colourOf } from './legend.js';
import { rowsText } from './texts.js';
import { cellBox, cornersOf, indexAt } from './view.js';

/** @typedef {import('./view.js').View} View */
/** @typedef {import('./legend.js').Class} Class */
/** @typedef {import('./rows.js').Row} Row */

const L = window.L;
const DOTS = 3; // a cell with at most so many rows is drawn as a dot: a square would look full
const AWAY = 6; // pixels from a place to its tooltip
const NEAR = 8; // pixels from the pointer to a row that it means

export class Chart {
  #map; #cells; #chosen; #marks; #cellRenderer; #markRenderer;
  #tooltip = L.tooltip({ permanent: true }); // not closed by a click
  #coordinates = document.createElement('output');
  /** @type {{ view: View, counts: number[], rows: Row[] | null } | null} */
  #drawn = null;
  /** @type {any} */
  #pointer = null; // the place under it

  /** @param {HTMLElement} element */
  constructor(element) {
    this.#map = L.map(element, {
      crs: L.CRS.EPSG4326, minZoom: 0, maxZoom: 16, zoomSnap: 0.5,
    }).setView([20, 0], 1);
    this.#map.attributionControl.setPrefix('').addAttribution('Made with Natural Earth');
    new Ground(this.#map);
    this.#cellRenderer = pane(this.#map, 'cells', 220);
    this.#markRenderer = pane(this.#map, 'marks', 240);
    this.#cells = L.layerGroup().addTo(this.#map);
    this.#chosen = L.layerGroup().addTo(this.#map);
    this.#marks = L.layerGroup().addTo(this.#map);
    this.#addControls();
    new ResizeObserver(() => this.#map.invalidateSize({ animate: false })).observe(element);
    this.#map.on('mousemove', event => this.#point(event.latlng)).on('mouseout moveend', () => this.#unpoint());
    this.#unpoint();
  }

  #addControls() {
    L.control.scale({ imperial: false, maxWidth: 140 }).addTo(this.#map);
    const control = L.control({ position: 'bottomleft' });
    this.#coordinates.className = 'coordinates';
    control.onAdd = () => this.#coordinates;
    control.addTo(this.#map);
  }

  /** @param {() => void} call */
  onMove(call) {
    this.#map.on('moveend', call);
  }

  /**
   * Calls with the cell of the drawn view that is clicked, or that the keyboard chooses in the middle of the map; where a row is
   * meant, with its cell.
   * @param {(box: import('./places.js').Box) => void} call
   */
  onChoose(call) {
    const choose = place => {
      if (!this.#drawn) return;
      const { view } = this.#drawn, index = indexAt(view, this.#rowsAt(place)[0] ?? place);
      if (index !== undefined) call(cellBox(view, index));
    };
    this.#map.on('click', event => choose(event.latlng));
    this.#map.getContainer().addEventListener('keydown', event => {
      if (event.key === 'Enter' && event.target === this.#map.getContainer()) choose(this.#map.getCenter());
    });
  }

  get bounds() {
    return this.#map.getBounds();
  }

  get pixels() {
    return this.#map.getSize();
  }

  get place() {
    return { ...this.#map.getCenter(), zoom: this.#map.getZoom() };
  }

  set place({ lat, lng, zoom }) {
    this.#map.invalidateSize({ pan: false });
    this.#map.setView([lat, lng], zoom, { animate: false });
  }

  focus() {
    this.#map.getContainer().focus();
  }

  /** Shows the whole box of cells of the store as large as it fits. @param {import('./places.js').Box} box */
  show(box) {
    this.#map.invalidateSize({ pan: false });
    this.#map.fitBounds(cornersOf(box), { animate: false });
  }

  clear() {
    this.#drawn = null;
    this.#tooltip.remove();
    this.#cells.clearLayers();
  }

  /**
   * Draws the cells of a view by their counts.
   * @param {View} view @param {number[]} counts @param {Class[]} classes
   */
  drawCells(view, counts, classes) {
    this.clear();
    this.#drawn = { view, counts, rows: null };
    counts.forEach((count, index) => count && this.#drawCell(cellBox(view, index), count, colourOf(classes, count)));
    this.#hint();
  }

  /**
   * Draws the rows of a view themselves.
   * @param {View} view @param {Row[]} rows
   */
  drawRows(view, rows) {
    this.clear();
    this.#drawn = { view, counts: [], rows };
    rows.forEach(row => this.#drawRow(row));
    this.#hint();
  }

  #drawCell(box, count, fillColor) {
    const style = { fillColor, fillOpacity: 1, interactive: false, renderer: this.#cellRenderer };
    const [[south, west], [north, east]] = cornersOf(box);
    const middle = [(south + north) / 2, (west + east) / 2];
    const drawn = count > DOTS ? L.rectangle([[south, west], [north, east]], { ...style, color: colour('rim'), weight: 1 })
      : L.circleMarker(middle, { ...style, color: colour('coast'), weight: 1, radius: 3 + count });
    drawn.addTo(this.#cells);
  }

  #drawRow(row) {
    const style = { radius: 5, color: '#ffffff', weight: 1.5, fillColor: '#31688e', fillOpacity: 0.9 };
    L.circleMarker(row, { ...style, interactive: false, renderer: this.#cellRenderer }).addTo(this.#cells);
  }

  #unpoint() {
    this.#pointer = null;
    this.#tooltip.remove();
    this.#coordinates.textContent = `middle ${coordinatesText(this.#map.getCenter(), this.#map.getZoom())}`;
  }

  #point(place) {
    this.#pointer = place;
    this.#coordinates.textContent = coordinatesText(place, this.#map.getZoom());
    this.#hint();
  }

  /** Says what is under the pointer, if it is on the map. */
  #hint() {
    const hint = this.#pointer && this.#hintAt(this.#pointer);
    if (!hint) return this.#tooltip.remove();
    const text = document.createElement('span');
    text.textContent = hint.text;
    this.#tooltip.setLatLng(hint.place).setContent(text).addTo(this.#map);
    return this.#turnTooltip();
  }

  /** Turns the tooltip to where the map has room for it. */
  #turnTooltip() {
    const { x, y } = this.#map.latLngToContainerPoint(this.#tooltip.getLatLng()), element = this.#tooltip.getElement();
    const half = element.offsetWidth / 2, isHigh = y < element.offsetHeight + 2 * AWAY;
    const direction = x < half ? 'right' : x > this.#map.getSize().x - half ? 'left' : isHigh ? 'bottom' : 'top';
    const offset = { left: [-AWAY, 0], right: [AWAY, 0], top: [0, -AWAY], bottom: [0, AWAY] }[direction];
    Object.assign(this.#tooltip.options, { direction, offset });
    this.#tooltip.update();
  }

  /** The rows that a place on the map means, where rows are drawn, the nearest one first. */
  #rowsAt(place) {
    const at = this.#map.latLngToContainerPoint(place), rows = this.#drawn?.rows ?? [];
    const far = row => this.#map.latLngToContainerPoint(row).distanceTo(at);
    return rows.filter(row => far(row) <= NEAR).sort((one, other) => far(one) - far(other));
  }

  /** What the pointer means: the rows under it, or the cell. */
  #hintAt(place) {
    if (!this.#drawn) return null;
    const { view, counts, rows } = this.#drawn, near = this.#rowsAt(place);
    if (near.length) {
      const [{ id, time, lat, lng }] = near;
      return { place: [lat, lng], text: near.length > 1 ? rowsText(near.length) : `${id}\n${time}` };
    }
    if (rows) return null;
    const index = indexAt(view, place);
    if (index === undefined || !counts[index]) return null;
    const [[, west], [north, east]] = cornersOf(cellBox(view, index));
    return { place: [north, (west + east) / 2], text: rowsText(counts[index]) };
  }

  /** Frames the open cell, or none. @param {import('./places.js').Box | null} box */
  frame(box) {
    this.#chosen.clearLayers();
    if (!box) return;
    const line = { fill: false, interactive: false, renderer: this.#markRenderer };
    L.rectangle(cornersOf(box), { ...line, color: '#ffffff', weight: 5 }).addTo(this.#chosen);
    L.rectangle(cornersOf(box), { ...line, color: '#c2185b', weight: 3 }).addTo(this.#chosen);
  }

  /** Marks at the places of the listed rows, and none elsewhere. @param {Row[]} rows */
  mark(rows) {
    this.#marks.clearLayers();
    const style = { radius: 4, color: '#ffffff', weight: 1, fillColor: '#c2185b', fillOpacity: 1 };
    rows.forEach(row => L.circleMarker(row, { ...style, interactive: false, renderer: this.#markRenderer }).addTo(this.#marks));
  }

  /** Moves the map so that the rows are in view, at a zoom where they stand apart. @param {Row[]} rows */
  showRows(rows) {
    this.#map.invalidateSize({ pan: false });
    this.#map.fitBounds(L.latLngBounds(rows), { animate: false, maxZoom: Math.max(8, this.#map.getZoom()), padding: [40, 40] });
  }
}
