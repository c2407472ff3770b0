#!/usr/bin/env node
"use strict";
const { printRefusal, wordsOf } = require("./client.js");
const { NotSent, Refused, Unknown, connect } = require("./js/maproom.js");

const USAGE = "socket_client.js [--follow] URL ROOM NAME [MESSAGE..]";
const HELP = `A client of a room over WebSockets, for the command line.

    socket_client.js ws://127.0.0.1:9001 village anna '{"do":"undo"}' '{"do":"undos"}'
    socket_client.js --follow ws://127.0.0.1:9001 village anna

It prints the answer to each message. With --follow it stays, and prints each change as one line of JSON, with each
element before and after. After a gap it prints one line with "reset", and all elements that differ. If the room refuses
a message, it prints the reason on standard error, and its status is 1.

For an address with a name, such as wss://lina@maps.example.org/hamlet, the password is MAPROOM_PASSWORD of the
environment.

If Node has no WebSocket of its own, the client needs the package ws (Debian: node-ws). A Node that is not Debian's
finds Debian's package with NODE_PATH=/usr/share/nodejs.

The library clients/js/maproom.js does the work, and programs can use it, too. docs/CLIENT.md describes it.

  MESSAGE     a message without its id
  -h, --help  print this help
  --follow    stay, and print each change as a line of JSON`;

/**
 * An address with the password of the environment, if it has a name and no password. Others can read the arguments.
 * @param {string} text
 */
function withPassword(text) {
  const password = process.env.MAPROOM_PASSWORD ?? "";
  try {
    const url = new URL(text);
    if (!url.username || url.password || !password) return text;
    url.password = password;
    return url.href;
  } catch {
    return text; // which no connection can be made to
  }
}

/** @param {unknown} error */
const isRefusal = (error) => [NotSent, Refused, Unknown].some((kind) => error instanceof kind);

async function main() {
  const { isFollowing, words: [url, room, name], messages } = wordsOf(3, USAGE, HELP);
  /** @type {import("./js/maproom.js").Room | null} */
  let joined = null;
  try {
    const session = await connect(withPassword(url), { room, name });
    joined = session;
    const ended = new Promise((_, fail) => session.addEventListener("error", ({ error }) => fail(error)));
    ended.catch(() => {}); // without --follow, a message that waits reports it
    if (isFollowing) {
      session.addEventListener("change", ({ seq, by, rows }) => console.log(JSON.stringify({ seq, by, rows })));
      session.addEventListener("reset", ({ seq, restarted, rows }) => {
        console.log(JSON.stringify({ seq, reset: true, restarted, rows }));
      });
    }
    for (const message of messages) {
      try {
        console.log(JSON.stringify(await session.ask(message)));
      } catch (error) {
        if (!isRefusal(error)) throw error;
        printRefusal(/** @type {Error} */(error));
      }
    }
    if (isFollowing) await ended;
  } catch (error) {
    process.exitCode = 1;
    const place = url.replace(/^(\w+:\/\/)[^/?#]*@/, "$1"); // without a password
    if (error instanceof Refused) printRefusal(error);
    else console.error(`socket_client: ${/** @type {Error} */ (error).message}\nsocket_client: no session at ${place}`);
  } finally {
    joined?.close();
  }
}

if (require.main === module) main();
