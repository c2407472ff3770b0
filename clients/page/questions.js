// Questions about values that two mappers changed at once. The mapper chooses for each value whose it is to be.
"use strict";

/**
 * Values that the mapper has to choose, until all are chosen (`done`) or nobody needs them any more (`fail`).
 * @typedef {{ disputes: Dispute[], done: () => void, fail: (error: Error) => void }} Question
 */

class Questions {
  /** @param {Page} page */
  constructor(page) {
    this.page = page;
    /** @type {Question[]} */
    this.open = []; // the first of them is shown
    this.asked = 0;
  }

  /**
   * Asks whose each value is to be. What the mapper chooses is noted in its claim.
   * @param {Dispute[]} disputes
   * @returns {Promise<void>}
   */
  ask(disputes) {
    this.asked += 1;
    return new Promise((done, fail) => {
      this.open.push({ disputes, done: () => done(undefined), fail });
      this.show();
    });
  }

  /**
   * Takes all questions back, for a reason.
   * @param {() => Error} reason
   */
  drop(reason) {
    for (const { fail } of this.open.splice(0)) fail(reason());
    this.show();
  }

  show() {
    this.page.panels.put("question", () => this.put());
  }

  put() {
    const [question] = this.open;
    $("question").hidden = !question;
    if (!question) return;
    const { disputes } = question;
    const names = [...new Set(disputes.map(({ by }) => by ?? "Somebody"))];
    $("question-title").textContent = `${names.join(" and ")} changed this meanwhile, too. Whose is right?`;
    $("question-values").replaceChildren(...disputes.map((dispute) => this.part(question, dispute)));
  }

  /**
   * @param {Question} question
   * @param {Dispute} dispute
   */
  part(question, { claim, by, theirs }) {
    const { page } = this;
    const row = page.elements.get(claim.el);
    const what = `${claim.what} ${row ? titleOf(row) : claim.el}`.trim();
    /** @param {"isLeft" | "isForced"} choice */
    const choose = (choice) => () => {
      claim[choice] = true;
      question.disputes = question.disputes.filter((each) => each.claim !== claim);
      if (question.disputes.length === 0) this.end(question);
      this.show();
    };
    const whose = by ? `${by}’s` : "Theirs";
    return make("div", { className: "dispute", role: "group", label: what },
      make("p", { textContent: what }),
      line(button(`Yours: ${claim.mine}`, choose("isForced")),
        button(`${whose}: ${theirs}`, choose("isLeft")),
        button("Show it", () => page.show(claim.el))));
  }

  /** @param {Question} question */
  end(question) {
    this.open = this.open.filter((each) => each !== question);
    question.done();
  }
}
