// How a store ends, and what its calls say then.

import assert from 'node:assert/strict';
import { existsSync, mkdirSync, writeFileSync } from 'node:fs';
import { test } from 'node:test';
import { Store, StoreFailed } from '../src/index.js';
import { errorOf, newFolder, open, program } from './folders.js';

test('calls that were made before the close are answered, and later ones are not', async (t) => {
  const folder = newFolder(t);
  const store = open(t, folder);
  const calls = [store.upsert({ id: 1 }), store.scan([]), store.upsert({ id: 2 }), store.collect()];
  await store.close();
  assert.equal((await Promise.all(calls)).length, 4);
  assert.match((await errorOf(store.get(1))).message, /closed/);
  await store.close();
  const again = open(t, folder);
  assert.deepEqual(await again.get(2), { id: 2 });
  await again[Symbol.asyncDispose]();
});

test('a killed store loses nothing that was answered', async (t) => {
  const folder = newFolder(t);
  const store = open(t, folder, { window: 16 });
  let answered = 0;
  const error = await errorOf(
    (async () => {
      async function* requests() {
        for (let id = 0; ; id += 1) yield { op: 'upsert', doc: { id } };
      }
      for await (const reply of store.batch(requests(), { inFlight: 64 })) {
        assert.equal(reply.id, answered);
        answered += 1;
        if (answered === 500) process.kill(store.pid, 'SIGKILL');
      }
    })(),
  );
  assert.ok(error instanceof StoreFailed);
  assert.equal(error.signal, 'SIGKILL');
  assert.ok((await errorOf(store.get(1))) instanceof StoreFailed);
  assert.equal(await errorOf(store.close()), error);
  const again = open(t, folder);
  const rows = await again.query([]);
  assert.ok(answered >= 500 && rows.length >= answered);
  assert.deepEqual(rows.map((it) => it.id), Array.from(rows, (_, id) => id));
  await again.close();
});

test('a call that was not sent yet hears of the end too', async (t) => {
  const store = open(t, newFolder(t));
  // The second call waits for the reply to the scan.
  const calls = [store.scan([]), store.get(1)];
  process.kill(store.pid, 'SIGKILL');
  for (const { reason } of await Promise.allSettled(calls)) assert.ok(reason instanceof StoreFailed, String(reason));
});

test('a store that cannot be served says the status and the text', async (t) => {
  const folder = newFolder(t);
  const store = open(t, folder);
  await store.upsert({ id: 1 });
  const held = await errorOf(open(t, folder).get(1));
  const lines = ['disk fault in partition 0', `${folder}/p0: another program holds it`, `to see which one: fuser -v ${folder}/p0`];
  assert.deepEqual([held.status, held.text.trimEnd().split('\n')], [5, lines]);
  await store.close();
  const other = await errorOf(open(t, folder, { partitions: 3 }).get(1));
  assert.deepEqual([other.status, other.text.split('\n')[0]], [8, 'partition 0: found 0 of 1, asked 0 of 3']);
  const words = await errorOf(open(t, newFolder(t), { window: 5000 }).get(1));
  assert.equal(words.status, 2);
  assert.match(words.message, /^the store ended with status 2: usage: /);
});

test('a damaged file is told, also by a store that nobody asks', async (t) => {
  const folder = newFolder(t);
  mkdirSync(`${folder}/p0`, { recursive: true });
  writeFileSync(`${folder}/p0/l-1`, Buffer.from([1, 2, 3]));
  const error = await errorOf(open(t, folder).close());
  assert.deepEqual([error.status, error.text.split('\n')[0]], [6, 'damaged file l-1 in partition 0 at byte 1']);
});

test('a program that is not there is told', async (t) => {
  const folder = newFolder(t);
  const store = new Store(folder, { program: '/nowhere/tuple_store' });
  const error = await errorOf(store.get(1));
  assert.ok(error instanceof StoreFailed);
  assert.equal(error.status, null);
  assert.equal(error.cause.code, 'ENOENT');
  assert.equal(await errorOf(store.close()), error);
  assert.equal(existsSync(folder), false);
  assert.throws(() => new Store(undefined, { program }), TypeError);
});
