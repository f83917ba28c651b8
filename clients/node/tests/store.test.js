// Each call of a store, over the program.

import assert from 'node:assert/strict';
import { test } from 'node:test';
import { Refused } from '../src/index.js';
import { errorOf, newFolder, open } from './folders.js';

test('documents are stored, found and taken out, and are there in the next run', async (t) => {
  const folder = newFolder(t);
  const store = open(t, folder);
  assert.equal(await store.upsert({ id: 7, name: 'Ada', langs: ['en', 'fr'] }), false);
  assert.equal(await store.upsert({ id: 7, name: 'Ada Lovelace' }), true);
  assert.equal(await store.upsert({ id: 8, name: null }), false);
  assert.deepEqual(await store.get(7), { id: 7, name: 'Ada Lovelace' });
  assert.equal(await store.delete(8), true);
  assert.equal(await store.delete(8), false);
  assert.equal(await store.get(8), null);
  await store.flush();
  await store.close();
  const again = open(t, folder, { window: 1 });
  assert.deepEqual(await again.get(7), { id: 7, name: 'Ada Lovelace' });
  await again.close();
});

test('whole numbers are exact both ways', async (t) => {
  const store = open(t, newFolder(t));
  const doc = { id: 9223372036854775807n, least: -9223372036854775808n, next: 9007199254740993n, small: 5n };
  assert.equal(await store.upsert(doc), false);
  assert.deepEqual(await store.get(9223372036854775807n), { ...doc, small: 5 });
  assert.deepEqual(await store.query(['next'], { eq: 9007199254740992n }), []);
  assert.deepEqual(await store.query(['next'], { eq: 9007199254740993n }), [{ id: doc.id, values: [doc.next] }]);
  assert.equal((await errorOf(store.upsert({ id: 1, n: 9223372036854775808n }))).refusal, 'not_whole');
  assert.ok((await errorOf(store.upsert({ id: 1, n: 2 ** 53 }))) instanceof RangeError);
  await store.close();
});

test('queries take paths, and eq counts also where it is null', async (t) => {
  const store = open(t, newFolder(t), { partitions: 2 });
  await Promise.all([{ id: 1, a: [1, null] }, { id: 2, a: null }, { id: 3, a: true }, { id: 4, b: {} }].map((it) => store.upsert(it)));
  assert.deepEqual(await store.query(['a']), [{ id: 1, values: [[1, null]] }, { id: 2, values: [null] }, { id: 3, values: [true] }]);
  assert.deepEqual(await store.query(['a'], { eq: null }), [{ id: 2, values: [null] }]);
  assert.deepEqual(await store.query(['a', null], { eq: null }), [{ id: 1, values: [1, null] }]);
  assert.deepEqual(await store.query(['a', 0]), [{ id: 1, values: [1] }]);
  assert.deepEqual(await store.query([], { eq: { b: {} } }), [{ id: 4, values: [{ b: {} }] }]);
  const member = (count) => ({ count, kind: 'null' });
  assert.deepEqual(await store.schema(), [
    { count: 2, fields: { a: member(1), b: { count: 1, fields: {}, kind: 'object' } }, kind: 'object' },
    {
      count: 2,
      fields: {
        a: {
          count: 2,
          kind: 'union',
          kinds: [
            { count: 1, kind: 'boolean' },
            { count: 1, items: { count: 2, kind: 'union', kinds: [member(1), { count: 1, kind: 'integer' }] }, kind: 'array' },
          ],
        },
      },
      kind: 'object',
    },
  ]);
  await store.close();
});

test('each refusal is an error with its name, and ends nothing', async (t) => {
  const store = open(t, newFolder(t), { names: 2, docs: 1 });
  let deep = 1;
  for (let i = 0; i < 40; i += 1) deep = [deep];
  const rows = [
    [() => store.upsert({ id: 1, text: 'x'.repeat(1048576) }), 'oversized'],
    [() => store.upsert({ id: 1, text: '\ud800' }), 'malformed'],
    [() => store.upsert([]), 'unknown'],
    [() => store.upsert({ id: 1, price: 1.75 }), 'not_whole'],
    [() => store.upsert({ id: 1, deep }), 'too_deep'],
    [() => store.upsert({ name: 'nobody' }), 'key'],
    [() => store.get('7'), 'key'],
    [() => store.upsert({ id: 1, a: 1, b: 2, c: 3 }), 'names_full'],
    [() => store.collect(), 'no_scan'],
    [() => store.scan('a'), 'unknown'],
    [() => store.scan(['a'], { eq: 1.5 }), 'not_whole'],
  ];
  assert.equal(await store.upsert({ id: 5, a: 1 }), false);
  for (const [call, refusal] of [...rows, [() => store.upsert({ id: 6, a: 1 }), 'full']]) {
    const error = await errorOf(call());
    assert.ok(error instanceof Refused, String(error));
    assert.equal(error.refusal, refusal);
  }
  await store.scan(['a']);
  assert.equal((await errorOf(store.scan(['a']))).refusal, 'busy');
  assert.deepEqual(await store.collect(), { rows: [{ id: 5, values: [1] }], upto: [1] });
  await store.close();
});

test('a scan goes on while calls are answered, and its rows are its own', async (t) => {
  const store = open(t, newFolder(t), { window: 8 });
  await store.upsert({ id: 1, a: 1 });
  for (let round = 0; round < 3; round += 1) {
    await store.scan(['a']);
    assert.deepEqual(await store.get(1), { id: 1, a: 1 });
    const later = Array.from({ length: 20 }, (_, it) => store.upsert({ id: 100 + it, b: round }));
    assert.equal((await Promise.all(later)).filter(Boolean).length, round === 0 ? 0 : 20);
    const { rows, upto } = await store.collect();
    assert.deepEqual(rows, [{ id: 1, values: [1] }]);
    assert.ok(upto[0] >= 1 + 20 * round && upto[0] <= 21 + 20 * round);
    // No scan is out now, nor is one started by what closes windows.
    assert.deepEqual(await store.get(1), { id: 1, a: 1 });
    assert.equal((await errorOf(store.collect())).refusal, 'no_scan');
  }
  // All in one turn: what comes after a scan waits for its reply, and comes in order.
  const [, found, { rows }, none] = await Promise.all([store.scan(['b'], { eq: 2 }), store.delete(100), store.collect(), store.get(100)]);
  assert.equal(found, true);
  assert.equal(none, null);
  assert.ok(rows.length === 19 || rows.length === 20);
  await store.close();
});

test('a batch is answered in order, refusals among the replies, whatever the sizes', async (t) => {
  const store = open(t, newFolder(t), { window: 64 });
  const text = 'x'.repeat(2000);
  async function* requests() {
    for (let id = 0; id < 5000; id += 1) {
      if (id % 1000 === 7) yield { op: 'upsert', doc: { id, price: 0.5 } };
      else if (id % 1000 === 8) yield { op: 'scan' };
      else if (id % 1000 === 9) yield { op: 'query', path: [], eq: { n: id - 3, text } };
      else yield { op: 'upsert', doc: { id, n: id, text } };
    }
  }
  let id = 0;
  for await (const reply of store.batch(requests())) {
    if (id % 1000 === 7) assert.deepEqual(reply, { refused: 'not_whole' });
    else if (id % 1000 === 8) assert.deepEqual(reply, { refused: 'unknown' });
    else if (id % 1000 === 9) assert.deepEqual(reply.rows.map((it) => it.id), [id - 3]);
    else assert.deepEqual(reply, { id, replaced: false });
    id += 1;
  }
  assert.equal(id, 5000);
  const [{ count }] = await store.schema();
  assert.equal(count, 5000 - 15);
  await store.close();
});

test('many calls at once are one batch', async (t) => {
  const store = open(t, newFolder(t), { window: 4096 });
  const replaced = await Promise.all(Array.from({ length: 20_000 }, (_, id) => store.upsert({ id: id % 15_000, n: id })));
  assert.equal(replaced.filter(Boolean).length, 5_000);
  assert.deepEqual(await store.get(3), { id: 3, n: 15_003 });
  assert.equal((await store.query(['n'])).length, 15_000);
  await store.close();
});
