// Why a call was not carried out.

/** The store refused the line of a call, and changed nothing. `refusal` is its name, such as `not_whole`. */
export class Refused extends Error {
  constructor(refusal, request) {
    super(`the store refused this ${request.op}: ${refusal}`);
    this.name = 'Refused';
    this.refusal = refusal;
    this.request = request;
  }
}

/**
 * The program ended, or could not be started. `status` is its exit status, null where it has none; `text` is what it said on
 * standard error. Every write that was answered before is stored.
 */
export class StoreFailed extends Error {
  constructor({ status = null, signal = null, text = '', cause } = {}) {
    const why = text.trim() || cause?.message || (signal ? `it was ended by ${signal}` : 'it said nothing');
    super(`the store ended with status ${status}: ${why}`, { cause });
    this.name = 'StoreFailed';
    this.status = status;
    this.signal = signal;
    this.text = text;
  }
}
