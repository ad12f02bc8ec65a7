// A WebSocket relay between the page and the server, which can cut connections and change what is said.
import { createHash } from "node:crypto";
import { createServer } from "node:http";

const MAGIC = "258EAFA5-E914-47DA-95CA-C5AB0DC85B11";

/** A text message as one frame of a server. */
function frame(text, opcode = 1) {
  const body = Buffer.from(text);
  const head = body.length < 126 ? Buffer.from([0x80 | opcode, body.length])
    : body.length < 65_536 ? Buffer.from([0x80 | opcode, 126, body.length >> 8, body.length & 255])
      : Buffer.concat([Buffer.from([0x80 | opcode, 127, 0, 0, 0, 0]), Buffer.from(new Uint32Array([body.length]).buffer).reverse()]);
  return Buffer.concat([head, body]);
}

/** Reads a client's frames from bytes, as `[opcode, body]`, and answers those that are whole and what is left. */
function frames(bytes) {
  const read = [];
  for (;;) {
    if (bytes.length < 2) return [read, bytes];
    const short = bytes[1] & 127;
    const head = short === 126 ? 4 : short === 127 ? 10 : 2;
    if (bytes.length < head + 4) return [read, bytes];
    const length = short === 126 ? bytes.readUInt16BE(2) : short === 127 ? Number(bytes.readBigUInt64BE(2)) : short;
    if (bytes.length < head + 4 + length) return [read, bytes];
    const mask = bytes.subarray(head, head + 4);
    const body = bytes.subarray(head + 4, head + 4 + length).map((byte, at) => byte ^ mask[at % 4]);
    read.push([bytes[0] & 15, Buffer.from(body).toString()]);
    bytes = bytes.subarray(head + 4 + length);
  }
}

export async function startRelay(server) {
  const relay = {
    /** What becomes of a line from the page: `pass(line)` sends it on, `answer(line)` answers it. */
    onAsked: (line, { pass }) => pass(line),
    /** What becomes of a line from the server; null keeps it from the page. */
    onTold: (line) => line,
    /** Whether connections are taken at all, and whether those that are taken hear anything. */
    open: true,
    /** How many milliseconds a line takes each way. */
    delay: 0,
    silent: false,
    connections: 0,
    standing: () => sockets.size,
    asked: [],
    cut() { sockets.forEach((socket) => socket.destroy()); },
    say(line) { sockets.forEach((socket) => socket.write(frame(line))); },
    close() { relay.cut(); http.close(); },
  };
  const sockets = new Set();
  const http = createServer((request, response) => response.writeHead(404).end());
  http.on("upgrade", (request, socket) => {
    if (!relay.open) return socket.destroy();
    if (relay.silent) return;
    relay.connections++;
    sockets.add(socket);
    const accept = createHash("sha1").update(request.headers["sec-websocket-key"] + MAGIC).digest("base64");
    const upstream = new WebSocket(server);
    const early = [];
    const slowly = (run) => relay.delay ? setTimeout(run, relay.delay) : run();
    const pass = (line) => upstream.readyState === WebSocket.OPEN ? upstream.send(line) : early.push(line);
    upstream.onopen = () => early.splice(0).forEach((line) => upstream.send(line));
    upstream.onmessage = ({ data }) => slowly(() => {
      const told = relay.onTold(data);
      if (told !== null && !socket.destroyed) socket.write(frame(told));
    });
    upstream.onclose = () => socket.end(frame(Buffer.from([3, 232]), 8));
    let rest = Buffer.alloc(0);
    socket.write(`HTTP/1.1 101 Switching Protocols\r\nUpgrade: websocket\r\nConnection: Upgrade\r\nSec-WebSocket-Accept: ${accept}\r\n\r\n`);
    socket.on("data", (data) => {
      const [read, left] = frames(Buffer.concat([rest, data]));
      rest = left;
      read.forEach(([opcode, line]) => {
        if (opcode === 8) return socket.end();
        relay.asked.push(line);
        slowly(() => relay.onAsked(line, { pass, answer: (said) => slowly(() => socket.write(frame(said))) }));
      });
    });
    const over = () => { sockets.delete(socket); upstream.close(); };
    socket.on("end", () => socket.end());
    socket.on("close", over);
    socket.on("error", over);
  });
  await new Promise((done) => http.listen(0, "127.0.0.1", done));
  relay.address = `ws://127.0.0.1:${http.address().port}/`;
  return relay;
}
