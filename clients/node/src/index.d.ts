// The types of what the package offers.

/** A whole number: exact as a number up to 2^53, and a bigint beyond. */
export type Whole = number | bigint;
export type Value = null | boolean | Whole | string | Value[] | { [name: string]: Value };
export type Doc = { id: Whole; [name: string]: Value };
/** The name of a member, the number of an item, or null for every item. */
export type Path = (string | Whole | null)[];
export type Row = { id: Whole; values: Value[] };
export type Refusal =
  | 'oversized' | 'malformed' | 'unknown' | 'not_whole' | 'too_deep' | 'key' | 'names_full' | 'full' | 'busy' | 'no_scan';

export type Request =
  | { op: 'upsert'; doc: Doc }
  | { op: 'get' | 'delete'; id: Whole }
  | { op: 'query' | 'scan'; path: Path; eq?: Value }
  | { op: 'schema' | 'flush' | 'collect' };

export type Reply = { refused: Refusal } | { [member: string]: Value };

export interface Options {
  program?: string;
  partitions?: number;
  window?: number;
  memory?: number;
  names?: number;
  docs?: number;
  merge?: number;
  limit?: number;
}

export class Store {
  constructor(folder: string, options?: Options);
  readonly pid: number | undefined;
  upsert(doc: Doc): Promise<boolean>;
  get(id: Whole): Promise<Doc | null>;
  delete(id: Whole): Promise<boolean>;
  query(path: Path, options?: { eq?: Value }): Promise<Row[]>;
  schema(): Promise<Value[]>;
  flush(): Promise<void>;
  scan(path: Path, options?: { eq?: Value }): Promise<void>;
  collect(): Promise<{ rows: Row[]; upto: Whole[] }>;
  batch(requests: Iterable<Request> | AsyncIterable<Request>, options?: { inFlight?: number }): AsyncGenerator<Reply>;
  close(): Promise<void>;
  [Symbol.asyncDispose](): Promise<void>;
}

export class Refused extends Error {
  readonly refusal: Refusal;
  readonly request: Request;
}

export class StoreFailed extends Error {
  readonly status: number | null;
  readonly signal: string | null;
  readonly text: string;
}

export function parse(text: string): Value;
export function stringify(value: unknown): string;
