/** Requests to the server that sent the page. */

/** Sends requests. The server answers `made`, `refused` with a text and perhaps a position, or `ended` with a text. */
export class Asking {
  constructor(token) {
    this.token = token;
  }

  /** Sends a request; `signal` ends it, and with it what the server does for it. */
  async ask(path, given, signal = undefined) {
    const headers = { "Content-Type": "application/json", "X-Nooks-Token": this.token };
    try {
      const answer = await fetch(path, { method: "POST", headers, body: JSON.stringify(given), signal });
      return await answer.json();
    } catch (error) {
      if (signal?.aborted) return { ended: { text: "stopped" } };
      return { refused: { text: `the server does not answer (${error.message}): is \`nooks-bench serve\` still running?` } };
    }
  }
}
