// What the page's modules take from outside of them, for the check of their types.
interface Window {
  L: any; // Leaflet, whose types Debian does not ship
}
