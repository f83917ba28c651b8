// JSON in which whole numbers are exact: those that a number cannot hold exactly are BigInts.

// Deeper values are refused by the store anyway; a value that holds itself is deeper than any.
const DEEPEST = 128;

/** The JSON text of a value. A number that may have lost digits is an error, and so is one that JSON does not have. */
export function stringify(value) {
  const text = spell(value, 0);
  if (text === undefined) throw new TypeError(`${typeof value} has no JSON text`);
  return text;
}

// As JSON.stringify does: what has no text is left out of an object, and null in an array.
function spell(value, depth) {
  if (depth > DEEPEST) throw new TypeError(`a value nests more than ${DEEPEST} deep, or holds itself`);
  switch (typeof value) {
    case 'bigint':
      return value.toString();
    case 'number':
      return spellNumber(value);
    case 'object':
      return value === null ? 'null' : spellObject(value, depth);
    default:
      return JSON.stringify(value);
  }
}

function spellNumber(value) {
  if (!Number.isFinite(value)) throw new RangeError(`${value} has no JSON text`);
  if (Number.isInteger(value) && !Number.isSafeInteger(value)) {
    throw new RangeError(`${value} may not be the number that was meant: give whole numbers beyond 2^53 as BigInt`);
  }
  return JSON.stringify(value);
}

function spellObject(value, depth) {
  if (typeof value.toJSON === 'function') return spell(value.toJSON(), depth + 1);
  if (value instanceof Number || value instanceof String || value instanceof Boolean) return spell(value.valueOf(), depth);
  if (Array.isArray(value)) return `[${value.map((it) => spell(it, depth + 1) ?? 'null').join(',')}]`;
  const members = [];
  for (const name of Object.keys(value)) {
    const text = spell(value[name], depth + 1);
    if (text !== undefined) members.push(`${JSON.stringify(name)}:${text}`);
  }
  return `{${members.join(',')}}`;
}

/** The value of a JSON text. Whole numbers beyond 2^53 are BigInts, and all others are numbers. */
export function parse(text) {
  // With fewer digits than these in a row every whole number is exact, and JSON.parse is quicker.
  return /\d{16}/.test(text) ? new Reader(text).whole() : JSON.parse(text);
}

const SPACE = /[ \t\n\r]*/y;
const NUMBER = /-?(?:0|[1-9]\d*)(\.\d+)?([eE][+-]?\d+)?/y;
const STRING = /"(?:[^"\\\u0000-\u001f]|\\.)*"/y;
const WORD = /true|false|null/y;

class Reader {
  constructor(text) {
    this.text = text;
    this.at = 0;
  }

  // The one value of the text.
  whole() {
    const value = this.value();
    this.skipSpace();
    if (this.at < this.text.length) this.fail();
    return value;
  }

  value() {
    this.skipSpace();
    switch (this.text[this.at]) {
      case '{':
        return this.object();
      case '[':
        return this.array();
      case '"':
        return JSON.parse(this.take(STRING)[0]);
      case 't':
      case 'f':
      case 'n':
        return JSON.parse(this.take(WORD)[0]);
      default:
        return this.number();
    }
  }

  number() {
    const [digits, fraction, exponent] = this.take(NUMBER);
    const value = Number(digits);
    return fraction || exponent || Number.isSafeInteger(value) ? value : BigInt(digits);
  }

  array() {
    const items = [];
    this.at += 1;
    if (this.skip(']')) return items;
    do items.push(this.value());
    while (this.skip(','));
    this.expect(']');
    return items;
  }

  object() {
    const members = {};
    this.at += 1;
    if (this.skip('}')) return members;
    do {
      this.skipSpace();
      const name = JSON.parse(this.take(STRING)[0]);
      this.expect(':');
      // Also a member called __proto__ is a member.
      Object.defineProperty(members, name, { value: this.value(), writable: true, enumerable: true, configurable: true });
    } while (this.skip(','));
    this.expect('}');
    return members;
  }

  skipSpace() {
    this.take(SPACE);
  }

  // Takes the sign, if it comes next.
  skip(sign) {
    this.skipSpace();
    const found = this.text[this.at] === sign;
    if (found) this.at += 1;
    return found;
  }

  expect(sign) {
    if (!this.skip(sign)) this.fail();
  }

  take(form) {
    form.lastIndex = this.at;
    const found = form.exec(this.text);
    if (!found) this.fail();
    this.at = form.lastIndex;
    return found;
  }

  fail() {
    throw new SyntaxError(`no JSON at ${this.at}: ${this.text.slice(this.at, this.at + 20)}`);
  }
}
