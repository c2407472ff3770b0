#!/usr/bin/env node
"use strict";

/** @typedef {import("./js/maproom.js").Message} Message */

const { Core, HelloRefused, OutOfStep, errorOf, shortWords } = require("./js/maproom.js");

const USAGE = "client.js [--follow] ROOM NAME [CHANGE..]";
const HELP = `An example of a client that keeps a mirror of a room's map, over the texts alone.

It reads what the room sends from standard input: one text a line, and an empty line if the session was closed. It
prints what it sends, and an empty line when it leaves a session. At the end of input it prints the elements of its
mirror. If the room refuses a change, it prints the reason on standard error, and its status is 1.

The library clients/js/maproom.js does the work. socket_client.js uses it over WebSockets.

  CHANGE      a message without its id, such as {"do":"undo"}
  -h, --help  print this help
  --follow    also print each change as a line of JSON, with each element before and after`;

/**
 * A message that is an argument of the command line. Throws if the argument is no message.
 * @param {string} word
 * @returns {Message}
 */
function messageOf(word) {
  let message = null;
  try {
    message = JSON.parse(word);
  } catch {
    // Reported below.
  }
  if (message !== null && typeof message === "object" && !Array.isArray(message)) return message;
  throw new SyntaxError(`no message, which is an object of JSON: ${word}`);
}

/**
 * Whether --follow is there, then `count` arguments of the command line, and the messages after them. If the arguments
 * are wrong, or ask for the help, the program ends.
 * @param {number} count
 * @param {string} usage
 * @param {string} help
 * @returns {{ isFollowing: boolean, words: string[], messages: Message[] }}
 */
function wordsOf(count, usage, help) {
  const all = process.argv.slice(2);
  if (all.includes("--help") || all.includes("-h")) {
    console.log(`usage: ${usage}\n\n${help}`);
    process.exit(0);
  }
  const words = all.filter((word) => word !== "--follow");
  try {
    if (words.length < count) throw new SyntaxError("too few arguments");
    const messages = words.slice(count).map(messageOf);
    return { isFollowing: words.length < all.length, words: words.slice(0, count), messages };
  } catch (error) {
    console.error(`usage: ${usage}\n${usage.split(" ")[0]}: error: ${/** @type {Error} */ (error).message}`);
    return process.exit(2);
  }
}

/**
 * Reports a refusal. The program will have failed.
 * @param {Error} error
 */
function printRefusal(error) {
  process.exitCode = 1;
  console.error(`refused: ${shortWords(error)}`);
}

module.exports = { printRefusal, wordsOf };

function main() {
  const { isFollowing, words: [room, name], messages } = wordsOf(2, USAGE, HELP);
  const core = new Core(room, name);
  const lines = require("node:readline").createInterface({ input: process.stdin });
  let isRefused = false;
  /** @param {string[]} texts */
  const print = (texts) => texts.forEach((text) => console.log(text));
  /**
   * @param {string} text
   * @returns {string[]}
   */
  const take = (text) => {
    try {
      return text === "" ? core.begin() : core.take(text);
    } catch (error) {
      if (error instanceof OutOfStep) return ["", ...core.begin()];
      if (!(error instanceof HelloRefused)) throw error;
      isRefused = true;
      printRefusal(errorOf(error.no));
      lines.close();
      return [];
    }
  };
  /** @param {string} line */
  const onLine = (line) => {
    const texts = take(line.trim());
    const events = core.events.splice(0).map((event) => JSON.stringify(event));
    print(isFollowing ? [...events, ...texts] : texts);
  };
  for (const message of messages) {
    core.ask(message, ({ no }) => no && printRefusal(errorOf(no, core.authors.get(no.with))));
  }
  print(core.begin());
  lines
    .on("line", (line) => isRefused || onLine(line))
    .on("close", () => isRefused || core.elements.forEach((element) => console.log(JSON.stringify(element))));
}

if (require.main === module) main();
