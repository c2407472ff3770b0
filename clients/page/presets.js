// The usual things that mappers make, and the usual values of their keys, by OpenStreetMap's wiki. A group that maps
// other things can put a file of its own in the place of this one.
"use strict";

/**
 * A usual thing: for which elements it is (`n` nodes, `w` lines, `a` areas, `r` relations), its tags, the keys whose
 * values the mapper adds, and other words by which it is found.
 * @typedef {{ label: string, on: string, tags: Tags, asks: string[], words?: string }} Preset
 */

/** @type {Preset[]} */
const PRESETS = [
  {
    label: "Building", on: "a", tags: { building: "yes" },
    asks: ["building", "addr:street", "addr:housenumber", "building:levels", "name"]
  },
  {
    label: "House", on: "a", tags: { building: "house" },
    asks: ["addr:street", "addr:housenumber", "building:levels"], words: "home detached"
  },
  {
    label: "Apartments", on: "a", tags: { building: "apartments" },
    asks: ["addr:street", "addr:housenumber", "building:levels"], words: "flats block"
  },
  {
    label: "Terraced houses", on: "a", tags: { building: "terrace" },
    asks: ["addr:street", "building:levels"], words: "row houses"
  },
  { label: "Garage", on: "a", tags: { building: "garage" }, asks: [] },
  { label: "Garages", on: "a", tags: { building: "garages" }, asks: [] },
  { label: "Shed", on: "a", tags: { building: "shed" }, asks: [], words: "hut" },
  { label: "Barn", on: "a", tags: { building: "barn" }, asks: [], words: "farm" },
  {
    label: "Farm building", on: "a", tags: { building: "farm_auxiliary" },
    asks: [], words: "stable"
  },
  {
    label: "Church building", on: "a", tags: { building: "church", amenity: "place_of_worship" },
    asks: ["name", "religion", "denomination"], words: "chapel"
  },
  { label: "School building", on: "a", tags: { building: "school" }, asks: ["name"] },
  {
    label: "Industrial building", on: "a", tags: { building: "industrial" },
    asks: ["name"], words: "factory"
  },
  {
    label: "Commercial building", on: "a", tags: { building: "commercial" },
    asks: ["name"], words: "office"
  },
  { label: "Retail building", on: "a", tags: { building: "retail" }, asks: ["name"] },
  { label: "Greenhouse", on: "a", tags: { building: "greenhouse" }, asks: [] },
  { label: "Roof", on: "a", tags: { building: "roof" }, asks: [], words: "carport shelter" },
  {
    label: "Address", on: "na", tags: {},
    asks: ["addr:street", "addr:housenumber", "addr:postcode", "addr:city"], words: "house number"
  },
  { label: "Entrance", on: "n", tags: { entrance: "yes" }, asks: ["entrance"], words: "door" },
  {
    label: "Street", on: "w", tags: { highway: "residential" },
    asks: ["name", "surface", "maxspeed", "oneway", "lanes"], words: "road residential"
  },
  {
    label: "Living street", on: "w", tags: { highway: "living_street" },
    asks: ["name"], words: "play street"
  },
  {
    label: "Small road", on: "w", tags: { highway: "unclassified" },
    asks: ["name", "surface", "maxspeed"], words: "unclassified"
  },
  {
    label: "Tertiary road", on: "w", tags: { highway: "tertiary" },
    asks: ["name", "ref", "maxspeed", "lanes"]
  },
  {
    label: "Secondary road", on: "w", tags: { highway: "secondary" },
    asks: ["name", "ref", "maxspeed", "lanes"]
  },
  {
    label: "Primary road", on: "w", tags: { highway: "primary" },
    asks: ["name", "ref", "maxspeed", "lanes"], words: "main"
  },
  {
    label: "Motorway", on: "w", tags: { highway: "motorway" },
    asks: ["ref", "maxspeed", "lanes"], words: "highway freeway"
  },
  {
    label: "Motorway link", on: "w", tags: { highway: "motorway_link" },
    asks: ["oneway", "maxspeed"], words: "ramp slip"
  },
  {
    label: "Service road", on: "w", tags: { highway: "service" },
    asks: ["service", "surface", "access"], words: "driveway alley"
  },
  {
    label: "Driveway", on: "w", tags: { highway: "service", service: "driveway" },
    asks: ["access"]
  },
  {
    label: "Parking aisle", on: "w", tags: { highway: "service", service: "parking_aisle" },
    asks: []
  },
  {
    label: "Roundabout", on: "w", tags: { highway: "residential", junction: "roundabout" },
    asks: ["name"], words: "circle"
  },
  {
    label: "Track", on: "w", tags: { highway: "track" },
    asks: ["tracktype", "surface"], words: "field forest"
  },
  {
    label: "Footpath", on: "w", tags: { highway: "footway" },
    asks: ["surface", "lit"], words: "foot walk"
  },
  {
    label: "Pavement", on: "w", tags: { highway: "footway", footway: "sidewalk" },
    asks: ["surface"], words: "sidewalk"
  },
  {
    label: "Path", on: "w", tags: { highway: "path" },
    asks: ["surface", "bicycle", "foot", "sac_scale"], words: "trail hiking"
  },
  {
    label: "Cycleway", on: "w", tags: { highway: "cycleway" },
    asks: ["surface", "foot", "oneway"], words: "bicycle bike"
  },
  { label: "Bridleway", on: "w", tags: { highway: "bridleway" }, asks: [], words: "horse" },
  {
    label: "Steps", on: "w", tags: { highway: "steps" },
    asks: ["step_count", "incline", "handrail"], words: "stairs"
  },
  {
    label: "Pedestrian street", on: "wa", tags: { highway: "pedestrian" },
    asks: ["name", "surface"]
  },
  {
    label: "Square", on: "a", tags: { highway: "pedestrian", area: "yes" },
    asks: ["name", "surface"], words: "plaza place"
  },
  {
    label: "Crossing", on: "n", tags: { highway: "crossing" },
    asks: ["crossing", "crossing:markings", "tactile_paving"], words: "zebra pedestrian"
  },
  {
    label: "Crossing line", on: "w", tags: { highway: "footway", footway: "crossing" },
    asks: ["crossing"], words: "zebra"
  },
  {
    label: "Traffic lights", on: "n", tags: { highway: "traffic_signals" },
    asks: [], words: "signals"
  },
  { label: "Stop sign", on: "n", tags: { highway: "stop" }, asks: ["direction"] },
  {
    label: "Give way", on: "n", tags: { highway: "give_way" },
    asks: ["direction"], words: "yield"
  },
  { label: "Turning circle", on: "n", tags: { highway: "turning_circle" }, asks: [] },
  { label: "Street lamp", on: "n", tags: { highway: "street_lamp" }, asks: [], words: "light" },
  {
    label: "Bus stop", on: "n", tags: { highway: "bus_stop", public_transport: "platform", bus: "yes" },
    asks: ["name", "shelter", "bench"]
  },
  { label: "Taxi stand", on: "n", tags: { amenity: "taxi" }, asks: [] },
  {
    label: "Parking", on: "na", tags: { amenity: "parking" },
    asks: ["access", "fee", "capacity", "surface"], words: "car park"
  },
  {
    label: "Bicycle parking", on: "n", tags: { amenity: "bicycle_parking" },
    asks: ["capacity", "covered"], words: "bike stand"
  },
  {
    label: "Charging station", on: "n", tags: { amenity: "charging_station" },
    asks: ["operator", "capacity"], words: "electric"
  },
  {
    label: "Fuel station", on: "na", tags: { amenity: "fuel" },
    asks: ["name", "brand"], words: "petrol gas"
  },
  {
    label: "Railway", on: "w", tags: { railway: "rail" },
    asks: ["gauge", "electrified"], words: "train"
  },
  { label: "Tram", on: "w", tags: { railway: "tram" }, asks: ["name"] },
  {
    label: "Railway station", on: "na", tags: { railway: "station" },
    asks: ["name"], words: "train"
  },
  { label: "Level crossing", on: "n", tags: { railway: "level_crossing" }, asks: [] },
  { label: "Stream", on: "w", tags: { waterway: "stream" }, asks: ["name"], words: "brook creek" },
  { label: "River", on: "w", tags: { waterway: "river" }, asks: ["name"] },
  { label: "Ditch", on: "w", tags: { waterway: "ditch" }, asks: [] },
  { label: "Drain", on: "w", tags: { waterway: "drain" }, asks: [] },
  { label: "Canal", on: "w", tags: { waterway: "canal" }, asks: ["name"] },
  {
    label: "Pond", on: "a", tags: { natural: "water", water: "pond" },
    asks: ["name"], words: "lake"
  },
  { label: "Lake", on: "a", tags: { natural: "water", water: "lake" }, asks: ["name"] },
  { label: "Spring", on: "n", tags: { natural: "spring" }, asks: ["name"] },
  { label: "Tree", on: "n", tags: { natural: "tree" }, asks: ["leaf_type", "species"] },
  { label: "Tree row", on: "w", tags: { natural: "tree_row" }, asks: [], words: "alley" },
  {
    label: "Wood", on: "a", tags: { natural: "wood" },
    asks: ["leaf_type", "name"], words: "forest trees"
  },
  {
    label: "Forest", on: "a", tags: { landuse: "forest" },
    asks: ["leaf_type", "name"], words: "trees"
  },
  { label: "Scrub", on: "a", tags: { natural: "scrub" }, asks: [], words: "bushes" },
  {
    label: "Peak", on: "n", tags: { natural: "peak" },
    asks: ["name", "ele"], words: "mountain summit"
  },
  { label: "Cliff", on: "w", tags: { natural: "cliff" }, asks: [], words: "rock" },
  { label: "Meadow", on: "a", tags: { landuse: "meadow" }, asks: [], words: "pasture" },
  { label: "Grass", on: "a", tags: { landuse: "grass" }, asks: [], words: "lawn" },
  { label: "Farmland", on: "a", tags: { landuse: "farmland" }, asks: ["crop"], words: "field" },
  { label: "Farmyard", on: "a", tags: { landuse: "farmyard" }, asks: ["name"] },
  { label: "Orchard", on: "a", tags: { landuse: "orchard" }, asks: ["trees"], words: "fruit" },
  { label: "Vineyard", on: "a", tags: { landuse: "vineyard" }, asks: [], words: "wine" },
  {
    label: "Allotments", on: "a", tags: { landuse: "allotments" },
    asks: ["name"], words: "gardens"
  },
  { label: "Residential area", on: "a", tags: { landuse: "residential" }, asks: ["name"] },
  { label: "Commercial area", on: "a", tags: { landuse: "commercial" }, asks: ["name"] },
  { label: "Industrial area", on: "a", tags: { landuse: "industrial" }, asks: ["name"] },
  { label: "Retail area", on: "a", tags: { landuse: "retail" }, asks: ["name"] },
  { label: "Cemetery", on: "a", tags: { landuse: "cemetery" }, asks: ["name"], words: "graveyard" },
  { label: "Construction site", on: "a", tags: { landuse: "construction" }, asks: [] },
  { label: "Park", on: "a", tags: { leisure: "park" }, asks: ["name"] },
  { label: "Garden", on: "a", tags: { leisure: "garden" }, asks: [] },
  {
    label: "Playground", on: "na", tags: { leisure: "playground" },
    asks: ["name", "surface"], words: "children"
  },
  {
    label: "Pitch", on: "a", tags: { leisure: "pitch" },
    asks: ["sport", "surface"], words: "football tennis field"
  },
  { label: "Sports centre", on: "a", tags: { leisure: "sports_centre" }, asks: ["name", "sport"] },
  { label: "Swimming pool", on: "na", tags: { leisure: "swimming_pool" }, asks: ["access"] },
  { label: "Picnic table", on: "na", tags: { leisure: "picnic_table" }, asks: [] },
  {
    label: "Bench", on: "n", tags: { amenity: "bench" },
    asks: ["backrest", "material"], words: "seat"
  },
  {
    label: "Waste basket", on: "n", tags: { amenity: "waste_basket" },
    asks: [], words: "bin rubbish"
  },
  {
    label: "Recycling", on: "na", tags: { amenity: "recycling" },
    asks: ["recycling_type"], words: "containers"
  },
  { label: "Drinking water", on: "n", tags: { amenity: "drinking_water" }, asks: [], words: "tap" },
  { label: "Fountain", on: "na", tags: { amenity: "fountain" }, asks: ["name"] },
  {
    label: "Toilets", on: "na", tags: { amenity: "toilets" },
    asks: ["access", "fee", "wheelchair"], words: "wc"
  },
  {
    label: "Post box", on: "n", tags: { amenity: "post_box" },
    asks: ["collection_times"], words: "letter"
  },
  {
    label: "Post office", on: "na", tags: { amenity: "post_office" },
    asks: ["name", "opening_hours"]
  },
  { label: "Telephone", on: "n", tags: { amenity: "telephone" }, asks: [] },
  { label: "Bank", on: "na", tags: { amenity: "bank" }, asks: ["name", "atm", "opening_hours"] },
  { label: "Cash machine", on: "n", tags: { amenity: "atm" }, asks: ["operator"], words: "atm" },
  {
    label: "Restaurant", on: "na", tags: { amenity: "restaurant" },
    asks: ["name", "cuisine", "opening_hours"], words: "food"
  },
  {
    label: "Cafe", on: "na", tags: { amenity: "cafe" },
    asks: ["name", "cuisine", "opening_hours"], words: "coffee"
  },
  {
    label: "Fast food", on: "na", tags: { amenity: "fast_food" },
    asks: ["name", "cuisine", "opening_hours"], words: "takeaway"
  },
  {
    label: "Pub", on: "na", tags: { amenity: "pub" },
    asks: ["name", "opening_hours"], words: "beer"
  },
  { label: "Bar", on: "na", tags: { amenity: "bar" }, asks: ["name", "opening_hours"] },
  { label: "School", on: "na", tags: { amenity: "school" }, asks: ["name"] },
  {
    label: "Kindergarten", on: "na", tags: { amenity: "kindergarten" },
    asks: ["name"], words: "nursery"
  },
  {
    label: "Library", on: "na", tags: { amenity: "library" },
    asks: ["name", "opening_hours"], words: "books"
  },
  {
    label: "Pharmacy", on: "na", tags: { amenity: "pharmacy" },
    asks: ["name", "opening_hours"], words: "chemist"
  },
  {
    label: "Doctor", on: "na", tags: { amenity: "doctors" },
    asks: ["name", "healthcare:speciality", "opening_hours"]
  },
  { label: "Dentist", on: "na", tags: { amenity: "dentist" }, asks: ["name", "opening_hours"] },
  { label: "Hospital", on: "na", tags: { amenity: "hospital" }, asks: ["name", "emergency"] },
  {
    label: "Place of worship", on: "na", tags: { amenity: "place_of_worship" },
    asks: ["name", "religion", "denomination"], words: "church mosque temple"
  },
  { label: "Town hall", on: "na", tags: { amenity: "townhall" }, asks: ["name"] },
  { label: "Fire station", on: "na", tags: { amenity: "fire_station" }, asks: ["name"] },
  { label: "Police", on: "na", tags: { amenity: "police" }, asks: ["name"] },
  {
    label: "Fire hydrant", on: "n", tags: { emergency: "fire_hydrant" },
    asks: ["fire_hydrant:type"]
  },
  { label: "Defibrillator", on: "n", tags: { emergency: "defibrillator" }, asks: [], words: "aed" },
  {
    label: "Shop", on: "na", tags: { shop: "yes" },
    asks: ["shop", "name", "opening_hours"], words: "store"
  },
  {
    label: "Supermarket", on: "na", tags: { shop: "supermarket" },
    asks: ["name", "brand", "opening_hours"], words: "groceries"
  },
  {
    label: "Convenience shop", on: "na", tags: { shop: "convenience" },
    asks: ["name", "opening_hours"], words: "corner"
  },
  {
    label: "Bakery", on: "na", tags: { shop: "bakery" },
    asks: ["name", "opening_hours"], words: "bread"
  },
  {
    label: "Butcher", on: "na", tags: { shop: "butcher" },
    asks: ["name", "opening_hours"], words: "meat"
  },
  { label: "Clothes shop", on: "na", tags: { shop: "clothes" }, asks: ["name", "opening_hours"] },
  {
    label: "Hairdresser", on: "na", tags: { shop: "hairdresser" },
    asks: ["name", "opening_hours"], words: "barber"
  },
  {
    label: "Florist", on: "na", tags: { shop: "florist" },
    asks: ["name", "opening_hours"], words: "flowers"
  },
  {
    label: "Kiosk", on: "na", tags: { shop: "kiosk" },
    asks: ["name", "opening_hours"], words: "newspapers"
  },
  {
    label: "Car repair", on: "na", tags: { shop: "car_repair" },
    asks: ["name", "opening_hours"], words: "garage"
  },
  {
    label: "Bicycle shop", on: "na", tags: { shop: "bicycle" },
    asks: ["name", "opening_hours"], words: "bike"
  },
  {
    label: "Office", on: "na", tags: { office: "company" },
    asks: ["office", "name"], words: "company"
  },
  { label: "Hotel", on: "na", tags: { tourism: "hotel" }, asks: ["name", "stars"] },
  { label: "Guest house", on: "na", tags: { tourism: "guest_house" }, asks: ["name"] },
  { label: "Camp site", on: "a", tags: { tourism: "camp_site" }, asks: ["name"], words: "camping" },
  {
    label: "Information board", on: "n", tags: { tourism: "information", information: "board" },
    asks: ["name"], words: "map"
  },
  {
    label: "Guidepost", on: "n", tags: { tourism: "information", information: "guidepost" },
    asks: ["name", "ele"], words: "signpost"
  },
  { label: "Viewpoint", on: "n", tags: { tourism: "viewpoint" }, asks: ["name"], words: "view" },
  { label: "Museum", on: "na", tags: { tourism: "museum" }, asks: ["name", "opening_hours"] },
  {
    label: "Artwork", on: "na", tags: { tourism: "artwork" },
    asks: ["artwork_type", "name"], words: "statue sculpture"
  },
  { label: "Memorial", on: "na", tags: { historic: "memorial" }, asks: ["name", "memorial"] },
  { label: "Wayside cross", on: "n", tags: { historic: "wayside_cross" }, asks: [] },
  { label: "Fence", on: "w", tags: { barrier: "fence" }, asks: ["fence_type"] },
  { label: "Hedge", on: "wa", tags: { barrier: "hedge" }, asks: [] },
  { label: "Wall", on: "w", tags: { barrier: "wall" }, asks: [] },
  { label: "Retaining wall", on: "w", tags: { barrier: "retaining_wall" }, asks: [] },
  { label: "Gate", on: "n", tags: { barrier: "gate" }, asks: ["access"] },
  { label: "Bollard", on: "n", tags: { barrier: "bollard" }, asks: [] },
  { label: "Kerb", on: "n", tags: { barrier: "kerb" }, asks: ["kerb"], words: "curb" },
  {
    label: "Power line", on: "w", tags: { power: "line" },
    asks: ["voltage", "cables"], words: "electricity"
  },
  { label: "Power tower", on: "n", tags: { power: "tower" }, asks: [], words: "pylon" },
  { label: "Power pole", on: "n", tags: { power: "pole" }, asks: [] },
  {
    label: "Substation", on: "na", tags: { power: "substation" },
    asks: ["name"], words: "transformer"
  },
  { label: "Tower", on: "na", tags: { man_made: "tower" }, asks: ["tower:type", "height"] },
  {
    label: "Administrative boundary", on: "w", tags: { boundary: "administrative" },
    asks: ["admin_level", "name"], words: "border"
  },
  { label: "Village", on: "n", tags: { place: "village" }, asks: ["name", "population"] },
  { label: "Hamlet", on: "n", tags: { place: "hamlet" }, asks: ["name"] },
  { label: "Locality", on: "n", tags: { place: "locality" }, asks: ["name"] },
  { label: "Multipolygon", on: "r", tags: { type: "multipolygon" }, asks: [], words: "area hole" },
  {
    label: "Bus route", on: "r", tags: { type: "route", route: "bus" },
    asks: ["ref", "name", "from", "to", "network"], words: "line"
  },
  {
    label: "Hiking route", on: "r", tags: { type: "route", route: "hiking" },
    asks: ["name", "ref", "network", "osmc:symbol"], words: "walk"
  },
  {
    label: "Cycle route", on: "r", tags: { type: "route", route: "bicycle" },
    asks: ["name", "ref", "network"], words: "bike"
  },
  {
    label: "Turn restriction", on: "r", tags: { type: "restriction", restriction: "no_left_turn" },
    asks: ["restriction"]
  },
  {
    label: "Boundary", on: "r", tags: { type: "boundary", boundary: "administrative" },
    asks: ["admin_level", "name"], words: "border"
  },
];

/**
 * Usual values of keys, the commonest first.
 * @type {Record<string, string>}
 */
const USUAL_VALUES = {
  access: "yes no private customers permissive destination",
  admin_level: "2 4 6 8 9 10",
  area: "yes",
  artwork_type: "statue sculpture mural",
  atm: "yes no",
  backrest: "yes no",
  bench: "yes no",
  bicycle: "yes no designated dismount",
  boundary: "administrative protected_area",
  bridge: "yes viaduct boardwalk",
  building: "yes house apartments garage garages shed hut residential detached terrace barn church "
    + "school retail commercial industrial roof",
  covered: "yes no",
  crossing: "zebra uncontrolled traffic_signals unmarked marked no",
  "crossing:markings": "yes no zebra lines",
  cuisine: "regional pizza italian burger kebab chinese indian asian sushi coffee_shop ice_cream",
  denomination: "catholic protestant orthodox lutheran reformed",
  direction: "forward backward both",
  entrance: "yes main service exit home garage",
  fee: "yes no",
  fence_type: "wood chain_link metal wire",
  foot: "yes no designated",
  handrail: "yes no left right both",
  incline: "up down",
  kerb: "lowered raised flush",
  lanes: "1 2 3 4",
  layer: "1 -1 2 -2",
  leaf_type: "broadleaved needleleaved mixed",
  lit: "yes no",
  material: "wood stone metal concrete",
  maxspeed: "30 50 60 80 100 120 walk",
  network: "lwn rwn nwn iwn lcn rcn ncn",
  office: "company government insurance lawyer estate_agent",
  oneway: "yes no -1",
  recycling_type: "container centre",
  religion: "christian muslim jewish buddhist hindu",
  restriction: "no_left_turn no_right_turn no_straight_on no_u_turn only_left_turn only_right_turn "
    + "only_straight_on",
  sac_scale: "hiking mountain_hiking demanding_mountain_hiking",
  service: "driveway parking_aisle alley emergency_access",
  shelter: "yes no",
  shop: "supermarket convenience bakery butcher clothes hairdresser florist kiosk chemist shoes "
    + "books jewelry optician furniture electronics hardware bicycle car_repair car beauty "
    + "greengrocer deli beverages",
  sidewalk: "both left right no separate",
  sport: "soccer tennis basketball multi volleyball table_tennis skateboard",
  surface: "asphalt paved concrete paving_stones sett cobblestone gravel fine_gravel compacted "
    + "ground dirt grass sand wood unpaved",
  tactile_paving: "yes no",
  tracktype: "grade1 grade2 grade3 grade4 grade5",
  tunnel: "yes culvert building_passage",
  wheelchair: "yes no limited",
};
