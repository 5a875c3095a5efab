// WebDriver BiDi, the protocol of W3C by which both browsers are driven: commands and events as JSON over a WebSocket.

import { createRequire } from "node:module";

/** Debian's node-ws, or null. A node of another source does not look where Debian has it. */
function nodeWs() {
  const require = createRequire(import.meta.url);
  for (const name of ["ws", "/usr/share/nodejs/ws"]) {
    try {
      return require(name);
    } catch (error) {
      if (error.code !== "MODULE_NOT_FOUND") throw error;
    }
  }
  return null;
}

/** Node's own is taken where node-ws is not there: that of node 20 masks each message from the 4,098th on by 0, as its
 * random bytes have ended, and then Firefox closes the connection. */
const fromDebian = nodeWs();
const Socket = fromDebian ?? globalThis.WebSocket;
const MOST = fromDebian ? Infinity : 4097;

export class Bidi {
  #socket;
  #last = 0;
  #waits = new Map();
  #told = [];

  constructor(socket) {
    this.#socket = socket;
    socket.onmessage = ({ data }) => this.#take(JSON.parse(data));
    socket.onclose = () => this.#end("the browser has closed the connection" + this.#why());
  }

  static open(url) {
    if (!Socket) throw new Error("there is no WebSocket: install node-ws");
    return new Promise((done, fail) => {
      const socket = new Socket(url);
      socket.onopen = () => done(new Bidi(socket));
      socket.onerror = () => fail(new Error(`no connection to ${url}`));
    });
  }

  /** Has `call` told of the parameters of each event. */
  listen(call) {
    this.#told.push(call);
  }

  #take(message) {
    if (message.type === "event") for (const call of this.#told) call(message.params);
    else this.#answer(message.id, message);
  }

  #answer(id, message) {
    this.#waits.get(id)?.(message);
    this.#waits.delete(id);
  }

  /** What is known of a connection that the browser has closed. */
  #why() {
    return this.#last > MOST ? `, after ${MOST} messages of node's own WebSocket: install node-ws` : "";
  }

  #end(error) {
    for (const id of [...this.#waits.keys()]) this.#answer(id, { type: "error", error });
  }

  async send(method, params = {}) {
    if (this.#socket.readyState !== Socket.OPEN) throw new Error(`${method}: there is no connection to the browser`);
    const id = ++this.#last;
    const answer = new Promise((done) => this.#waits.set(id, done));
    this.#socket.send(JSON.stringify({ id, method, params }));
    const { type, result, error, message } = await answer;
    if (type === "error") throw new Error(`${method}: ${error}, ${message}`);
    return result;
  }
}
