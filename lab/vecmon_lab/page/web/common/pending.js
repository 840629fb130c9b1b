// Requests without an answer, by their `id`, which their answers have too.

/** @typedef {import("../types").Message} Message */
/** @typedef {import("../types").Request} Request */
/** @typedef {{ request: Request & { id: number }, done: (answer: Message | null) => void }} Waiting */

/**
 * Requests that wait for their answers, in the order in which they were made.
 * @extends {Map<number, Waiting>}
 */
export class Pending extends Map {
  number = 0; // of the last request

  /** All requests, the oldest one first. */
  get requests() { return [...this.values()].map(({ request }) => request); }

  /** Numbers and adds a request; `answer` resolves to its answer, or to null if it is dropped. */
  add(/** @type {Request} */ request) {
    const numbered = { id: ++this.number, ...request };
    /** @type {Promise<Message | null>} */
    const answer = new Promise((done) => this.set(numbered.id, { request: numbered, done }));
    return { request: numbered, answer };
  }

  /** Resolves the request with the id of an answer; returns false if there is none. */
  settle(/** @type {Message} */ answer) {
    const id = answer.id ?? 0;
    this.get(id)?.done(answer);
    return this.delete(id);
  }

  /** Resolves all requests, or the oldest ones, to null, and returns them. */
  drop(most = Infinity) {
    const lost = [...this.values()].slice(0, most);
    for (const { request, done } of lost) {
      this.delete(request.id);
      done(null);
    }
    return lost.map(({ request }) => request);
  }
}
