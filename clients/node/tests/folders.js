// What the tests share: the program, and folders that are gone when a test ends.

import { mkdtempSync, rmSync } from 'node:fs';
import { tmpdir } from 'node:os';
import { join } from 'node:path';
import { fileURLToPath } from 'node:url';
import { Store } from '../src/index.js';

const BUILT = fileURLToPath(new URL('../../../crates/tuple_store/out/tuple_store', import.meta.url));

/** The program that is tested: that of TUPLE_STORE, else the one that the gate builds. */
export const program = process.env.TUPLE_STORE ?? BUILT;

/** A path for a store, where nothing is yet. */
export function newFolder(t) {
  const room = mkdtempSync(join(tmpdir(), 'tuple-store-'));
  t.after(() => rmSync(room, { recursive: true, force: true }));
  return join(room, 'store');
}

/** A store of one partition in a folder, whose program is ended with the test, however that ends. */
export function open(t, folder, options = {}) {
  const store = new Store(folder, { program, partitions: 1, ...options });
  t.after(() => end(store));
  return store;
}

function end(store) {
  try {
    process.kill(store.pid, 'SIGKILL');
  } catch {
    // It has ended, or was never there.
  }
}

/** The error that a promise ends with. */
export async function errorOf(promise) {
  try {
    await promise;
  } catch (error) {
    return error;
  }
  throw new Error('it ended without an error');
}
