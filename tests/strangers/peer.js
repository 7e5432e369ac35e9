// A client and a back end of Node's http, for tests/strangers.py, which does what tests/strangers/peer.go does:
//
//     node peer.js send ADDRESS     posts each message of standard input, and prints what each was told
//     node peer.js serve            listens at a free port, which it prints, and answers each post by chance
"use strict";

const http = require("http");
const readline = require("readline");

const AT_ONCE = 4;

function bytes(text) {
  return Buffer.from(text, "base64").toString("latin1");
}

function print(what) {
  process.stdout.write(JSON.stringify(what) + "\n");
}

function told(agent, host, port, message) {
  return new Promise((done) => {
    const answer = { Number: message.Number, Status: 0, Type: "", Error: "", Length: 0, Closes: false };
    const body = Buffer.from(message.Body || "", "base64");
    const fields = message.Fields.flatMap(([name, value]) => [bytes(name), bytes(value)]);
    const waits = message.Fields.some(([name]) => bytes(name).toLowerCase() === "expect");
    const asked = http.request({ agent, host, port, method: message.Method, path: message.Target, headers: fields });
    asked.on("response", (reply) => {
      answer.Status = reply.statusCode;
      answer.Type = reply.headers["content-type"] || "";
      answer.Closes = (reply.headers.connection || "").toLowerCase() === "close";
      reply.on("data", (piece) => { answer.Length += piece.length; });
      reply.on("end", () => done(answer));
      reply.on("error", (fault) => { answer.Error = String(fault); done(answer); });
    });
    asked.on("error", (fault) => { answer.Error = String(fault); done(answer); });
    if (waits) {
      asked.on("continue", () => asked.end(body));
      asked.flushHeaders();
    } else {
      const cut = Math.floor(body.length / 2);
      asked.write(body.subarray(0, cut));
      asked.end(body.subarray(cut));
    }
  });
}

async function send(address) {
  const [host, port] = address.split(":");
  const agent = new http.Agent({ keepAlive: true, maxSockets: AT_ONCE });
  const messages = [];
  for await (const line of readline.createInterface({ input: process.stdin })) {
    messages.push(JSON.parse(line));
  }
  await Promise.all(Array.from({ length: AT_ONCE }, async () => {
    while (messages.length > 0) {
      print(await told(agent, host, port, messages.shift()));
    }
  }));
  agent.destroy();
}

function below(most) {
  return Math.floor(Math.random() * most);
}

const STATUSES = [200, 200, 200, 200, 200, 200, 200, 200, 429, 502, 503, 504, 400, 500, 301];

function answer(status, reply) {
  for (let left = [0, 0, 1, 15][below(4)]; left > 0; left -= 1) {
    [() => reply.writeContinue(), () => reply.writeProcessing(), () => reply.writeEarlyHints({ link: "</x>; rel=preload" })][below(3)]();
  }
  // An empty partial success.
  const content = status === 200 ? (below(2) ? Buffer.from([10, 0]) : Buffer.alloc(0)) : Buffer.alloc(below(300));
  const fields = {};
  for (let left = below(20); left > 0; left -= 1) {
    fields[`X-${left}`] = "v".repeat(below(60));
  }
  if (below(2)) {
    reply.writeHead(status, { ...fields, "Content-Length": content.length });
    reply.end(content);
    return;
  }
  reply.writeHead(status, { ...fields, Trailer: "X-Trailer" });
  const cut = below(content.length + 1);
  for (const piece of [content.subarray(0, cut), content.subarray(cut)]) {
    if (piece.length > 0) {
      reply.write(piece);
    }
  }
  reply.addTrailers({ "X-Trailer": "v" });
  reply.end();
}

function serve() {
  const end = http.createServer((asked, reply) => {
    const pieces = [];
    asked.on("data", (piece) => pieces.push(piece));
    asked.on("end", () => {
      const fields = {};
      for (const [name, value] of Object.entries(asked.headers)) {
        fields[name] = [value];
      }
      const status = STATUSES[below(STATUSES.length)];
      const head = `${asked.method} ${asked.url} HTTP/${asked.httpVersion} ${asked.headers.host}`;
      print({ Head: head, Fields: fields, Body: Buffer.concat(pieces).toString("base64"), Status: status });
      answer(status, reply);
    });
  });
  end.listen(0, "127.0.0.1", () => process.stdout.write(`${end.address().port}\n`));
  process.stdin.on("end", () => process.exit(0)).resume();
}

if (process.argv[2] === "send") {
  send(process.argv[3]);
} else {
  serve();
}
