// SPDX-License-Identifier: MIT
// The core in a worker, for PSBTs: so a long answer doesn't stop the page, and can be ended.

const MOST_MEMORY = 1 << 26; // An instance whose memory has grown over this is replaced before the next question.

// What the worker does with a question. It is read there, beside the calls of the core, and names nothing else of the page.
async function onAsked({ data: [bytes, program, words, source] }) {
  try {
    core = core || (await Core.of(bytes));
    if (!core.calls || core.taken > MOST_MEMORY) await core.renew();
    const told = core.answer(program, words, source);
    postMessage(told, [told.report.buffer]);
  } catch (error) {
    postMessage({ failed: String(error.message || error) });
  }
}

class Worked {
  constructor(bytes) {
    this.bytes = bytes;
    this.worker = null;
    this.turn = Promise.resolve();
  }

  start() {
    const constants = `const [NO_MEMORY, UNREADABLE, LEAST_ROOM, MOST_MEMORY] = [${[NO_MEMORY, UNREADABLE, LEAST_ROOM, MOST_MEMORY]}];`;
    const text = ['"use strict";', constants, "let core = null;", Core, lined, answered, onAsked, "onmessage = onAsked;"].join("\n");
    const place = URL.createObjectURL(new Blob([text], { type: "text/javascript" }));
    this.worker = new Worker(place);
    URL.revokeObjectURL(place);
  }

  // What the program answers, one question after the other. Where the engine throws the promise fails, and so it does where it is ended.
  answer(program, words, source) {
    const asked = this.turn.then(
      () =>
        new Promise((then, failed) => {
          if (!this.worker) this.start();
          this.end = () => failed(new Error("ended"));
          this.worker.onmessage = ({ data }) => (data.failed ? failed(new Error(data.failed)) : then(data));
          this.worker.onerror = (event) => failed(new Error(event.message || "the worker doesn't start"));
          this.worker.postMessage([this.bytes, program, words, source]);
        }),
    );
    this.turn = asked.catch(() => null);
    return asked;
  }

  // Ends what is asked, if anything is.
  stop() {
    if (this.worker) this.worker.terminate();
    this.worker = null;
    if (this.end) this.end();
    this.end = null;
  }
}
