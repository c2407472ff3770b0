// The part of Leaflet (1.7 to 1.9) that the page uses.

declare namespace L {
  type LatLngPair = [latitude: number, longitude: number];

  class Point {
    x: number;
    y: number;
    add(other: Point): Point;
    subtract(other: Point): Point;
    divideBy(divisor: number): Point;
    round(): Point;
  }

  interface LatLng {
    lat: number;
    lng: number;
  }

  interface ZoomAnimEvent {
    center: LatLng;
    zoom: number;
  }

  interface Layer {
    addTo(map: Map): this;
    remove(): this;
  }

  interface Attribution extends Layer {
    addAttribution(text: string): this;
    removeAttribution(text: string): this;
  }

  interface Map {
    dragging: { enable(): void; disable(): void };
    on(types: "zoomanim", listener: (event: ZoomAnimEvent) => void): this;
    on(types: string, listener: () => void): this;
    getPane(name: string): HTMLElement;
    getZoom(): number;
    getSize(): Point;
    getCenter(): LatLng;
    getPixelBounds(): { min: Point; max: Point };
    setView(center: LatLngPair, zoom: number): this;
    setZoom(zoom: number): this;
    setZoomAround(point: Point, zoom: number): this;
    fitBounds(corners: LatLngPair[], options: {
      maxZoom: number;
      paddingTopLeft: [number, number];
      paddingBottomRight: [number, number];
      animate: boolean;
    }): this;
    panBy(offset: [number, number], options: { animate: boolean }): this;
    invalidateSize(options: { animate: boolean }): this;
    project(center: LatLng, zoom: number): Point;
    containerPointToLayerPoint(point: [number, number]): Point;
  }

  function map(container: HTMLElement, options: Record<string, boolean | number>): Map;
  function point(x: number, y: number): Point;
  function tileLayer(url: string, options: { maxNativeZoom: number; maxZoom: number }): Layer;

  const control: {
    attribution(options: { prefix: false }): Attribution;
    scale(options: { imperial: boolean }): Layer;
  };

  const DomUtil: {
    getPosition(element: HTMLElement): Point;
    setPosition(element: HTMLElement, position: Point): void;
    setTransform(element: HTMLElement, offset: Point, scale: number): void;
  };
}
