// Tells a story over WebSockets: those of a browser, where a page loads this file, and those of Node's package ws.
//
// Usage in Node: story.js URL STORY, where STORY is a JSON list of steps, each a list of a word, the connection that
// it is about, and perhaps a text. What comes on each connection is said where the story waits for it.
"use strict";

async function tell(Socket, url, story, say) {
  const sockets = {};
  for (const [word, who, text] of story) {
    const socket = sockets[who];
    if (word === "open") {
      sockets[who] = await opened(new Socket(url));
    } else if (word === "say") {
      socket.send(text);
    } else if (word === "binary") {
      socket.send(new Uint8Array([0, 255]));
    } else if (word === "close") {
      socket.close(1000);
    } else if (word === "ping") {
      socket.ping();
      await new Promise((done) => socket.once("pong", done));
      say(`${who} pong`);
    } else {
      say(`${who} ${await socket.next()}`);
    }
  }
}

// Waits until a socket is open. From then on `next` gives what comes, and at last how the connection ended.
function opened(socket) {
  const came = [];
  const waiting = [];
  const take = (text) => (waiting.length ? waiting.shift()(text) : came.push(text));
  socket.next = () => new Promise((done) => (came.length ? done(came.shift()) : waiting.push(done)));
  socket.onmessage = (event) => take(event.data);
  socket.onclose = (event) => take(`close ${event.code} ${event.wasClean ? "clean" : "unclean"}`);
  return new Promise((done, fail) => {
    socket.onopen = () => done(socket);
    socket.onerror = () => fail(new Error("a socket failed"));
  });
}

if (typeof require === "function") {
  tell(require("ws"), process.argv[2], JSON.parse(process.argv[3]), console.log);
}
