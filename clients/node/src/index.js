// What the package offers: stores, their errors, and JSON with exact whole numbers.

export { Store } from './store.js';
export { Refused, StoreFailed } from './errors.js';
export { parse, stringify } from './json.js';
