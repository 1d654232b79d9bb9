// Puts by Node's `fetch`: `node ask.mjs KIND URL TOKEN FILE`. See ../real_clients.py for the kinds.
import { readFileSync } from "node:fs";

const [kind, url, token, file] = process.argv.slice(2);
const body = readFileSync(file);
const headers = { Authorization: `Bearer ${token}` };

async function ask(more) {
  const reply = await fetch(url, { method: "POST", headers, body, ...more });
  console.log(`HTTP/1.1 ${reply.status}\n${await reply.text()}`);
}

function inPieces() {
  const pieces = Array.from({ length: Math.ceil(body.length / 1000) }, (_, at) => body.subarray(1000 * at, 1000 * (at + 1)));
  return new ReadableStream({
    pull(stream) {
      const piece = pieces.shift();
      if (piece) stream.enqueue(piece);
      else stream.close();
    },
  });
}

const asked = {
  async kept() {
    for (let at = 0; at < 5; at++) await ask({});
  },
  expected: () => ask({ headers: { ...headers, Expect: "100-continue" } }),
  chunked: () => ask({ body: inPieces(), duplex: "half" }),
  together: () => Promise.all(Array.from({ length: 20 }, () => ask({}))),
};

const begin = performance.now();
try {
  await asked[kind]();
} catch (fault) {
  console.log(`fault ${fault.cause?.message ?? fault.message}`);
}
console.log(`seconds ${(performance.now() - begin) / 1000}`);
