// Plays a text of tests/texts/clients over the core of maproom.js, as play.py does over that of the Python package.
"use strict";
const { Core, HelloRefused, OutOfStep } = require("../../../clients/js/maproom.js");

const core = new Core("paris", "anna", 2, 3);
const asked = new Map();
const print = (text) => process.stdout.write(`${text}\n`);

const words = {
  connect: () => core.begin(),
  lost: () => core.end() ?? [],
  ask(word) {
    const number = core.nextId;
    asked.set(number, core.add(JSON.parse(word), (answer) => print(`answer ${number} ${JSON.stringify(answer)}`)));
    return core.sendMore();
  },
  mirror() {
    const texts = [...core.elements.values()].map((element) => `element ${JSON.stringify(element)}`);
    return [`entry ${core.seq}`, ...texts, `authors ${JSON.stringify([...core.authors])}`];
  },
  give_up: (number) => core.giveUp(asked.get(Number(number))) ?? [],
  close: () => core.close({ why: "closed" }) ?? [],
  probe: () => core.probe(),
  name: (kind) => [core.newName(kind)],
  pending: () => [core.pending()],
};

for (const line of require("node:fs").readFileSync(0, "utf8").split("\n").slice(0, -1)) {
  const [, word, argument] = /^(\S*) ?(.*)$/.exec(line);
  let texts;
  try {
    texts = Object.hasOwn(words, word) ? words[word](argument) : core.take(line);
  } catch (error) {
    if (error instanceof OutOfStep) texts = ["out of step"];
    else if (error instanceof HelloRefused) texts = [`refused ${JSON.stringify(error.no)}`];
    else throw error;
  }
  for (const text of [...core.events.splice(0).map((event) => JSON.stringify(event)), ...texts, ""]) print(text);
}
