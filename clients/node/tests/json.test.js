// JSON with exact whole numbers.

import assert from 'node:assert/strict';
import { test } from 'node:test';
import { parse, stringify } from '../src/index.js';

test('whole numbers beyond 2^53 are BigInts, and no others', () => {
  const rows = [
    ['9007199254740991', 9007199254740991],
    ['9007199254740992', 9007199254740992n],
    ['9007199254740993', 9007199254740993n],
    ['-9007199254740991', -9007199254740991],
    ['-9223372036854775808', -9223372036854775808n],
    ['9223372036854775807', 9223372036854775807n],
    ['0', 0],
    ['[1,9223372036854775807,-7]', [1, 9223372036854775807n, -7]],
    ['0.12345678901234567', 0.12345678901234567],
    ['12345678901234567e0', 12345678901234567e0],
  ];
  for (const [text, value] of rows) assert.deepEqual(parse(text), value, text);
});

test('a long row of digits elsewhere changes nothing', () => {
  const text = ' { "a\\n\\"1234567890123456" : [ true , false , null , "x\\u00e9\\ud83d\\ude00" , { } , [ ] , -1.5e3 ] , "" : "é" } ';
  assert.deepEqual(parse(text), JSON.parse(text));
  const odd = parse('{"__proto__":{"a":1234567890123456789},"b":1}');
  assert.deepEqual(Object.keys(odd), ['__proto__', 'b']);
  assert.equal(Object.getPrototypeOf(odd), Object.prototype);
  assert.deepEqual(parse('{"a":1,"a":1234567890123456789}'), { a: 1234567890123456789n });
});

test('what is no JSON is refused', () => {
  const long = '1234567890123456789';
  const rows = ['', '{', '{}x', '[1,]', '{"a":1,}', '{a:1}', '"\n"', '01', '+1', '1.', 'nul', '[1 2]', '"\\x"', 'undefined', '{"a"}'];
  for (const text of rows) {
    assert.throws(() => parse(text), SyntaxError, text);
    assert.throws(() => parse(`[${long},${text}]`), SyntaxError, text);
  }
});

test('values are spelled exactly, or not at all', () => {
  assert.equal(stringify({ a: 9223372036854775807n, b: [-0, 1.5, 'é"', null, true] }), '{"a":9223372036854775807,"b":[0,1.5,"é\\"",null,true]}');
  assert.equal(stringify({ a: undefined, b: () => 1, c: [undefined] }), '{"c":[null]}');
  assert.equal(stringify(new Date(0)), '"1970-01-01T00:00:00.000Z"');
  assert.equal(stringify(['__proto__']), '["__proto__"]');
  for (const value of [2 ** 53, -(2 ** 60), NaN, Infinity, [-Infinity]]) assert.throws(() => stringify(value), RangeError);
  const itself = {};
  itself.a = itself;
  for (const value of [undefined, () => 1, itself]) assert.throws(() => stringify(value), TypeError);
});
