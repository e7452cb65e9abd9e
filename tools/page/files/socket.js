// The connection to the server: calls with their results, and the news that it tells.

const KEY = "key";

// The address that was printed leads here with the key behind #, which is kept for this server alone and leaves the address.
export function takeFragment() {
  const given = new URLSearchParams(location.hash.slice(1));
  if (given.has(KEY)) localStorage.setItem(KEY, given.get(KEY));
  if (location.hash) history.replaceState(null, "", "/");
  return given.get("question");
}

export class Connection extends EventTarget {
  constructor() {
    super();
    this.calls = new Map();
    this.number = 0;
    this.open();
  }

  open() {
    this.socket = new WebSocket(`ws://${location.host}/socket`);
    this.socket.onopen = () => this.socket.send(JSON.stringify({ key: localStorage.getItem(KEY) }));
    this.socket.onmessage = (message) => this.take(JSON.parse(message.data));
    this.socket.onclose = (event) => this.closed(event);
  }

  take(message) {
    if (message.event) {
      this.dispatchEvent(new CustomEvent(message.event, { detail: message }));
      return;
    }
    const call = this.calls.get(message.number);
    this.calls.delete(message.number);
    if (!call) return;
    if ("error" in message) call.reject(new Error(message.error));
    else call.resolve(message.result);
  }

  closed(event) {
    for (const call of this.calls.values()) call.reject(new Error("The server has gone."));
    this.calls.clear();
    this.dispatchEvent(new CustomEvent("gone", { detail: event.code }));
    if (event.code !== 4403) setTimeout(() => this.open(), 2000);
  }

  call(name, given = {}) {
    if (this.socket.readyState !== WebSocket.OPEN) return Promise.reject(new Error("The server has gone."));
    const number = ++this.number;
    return new Promise((resolve, reject) => {
      this.calls.set(number, { resolve, reject });
      this.socket.send(JSON.stringify({ number, call: name, with: given }));
    });
  }
}
