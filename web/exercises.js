"use strict";
// The exercises of docs/TEACHING.md, which stands in the page: each with its source and letters ready, its answer hidden.

// The text below each heading of a form, by its number.
function partsOf(text, heading) {
  const found = [...text.matchAll(new RegExp(`^### ${heading}(?:\\. )?(.*)\\n((?:(?!##).*\\n?)*)`, "gm"))];
  return found.map(([, number, title, body]) => ({ number, title, body }));
}

// Paragraphs and indented blocks of a text.
function blocksOf(text) {
  return text.replace(/^\n+/, "").split(/\n{2,}/).filter((each) => each.trim()).reduce((out, each) => {
    const isCode = each.startsWith("    "), plain = isCode ? each.replace(/^ {4}/gm, "") : each.trim().replace(/\n/g, " ");
    if (isCode && out.at(-1)?.isCode && !isCommand(out.at(-1).text) && !isCommand(plain)) out.at(-1).text += `\n\n${plain}`;
    else out.push({ isCode, text: plain.replace(/\n+$/, "") });
    return out;
  }, []);
}

const isCommand = (text) => /^(\.\/m88|\{)/.test(text);
const inline = (text) => escaped(text).replace(/`([^`]+)`/g, "<code>$1</code>").replace(/\[([^\]]+)\]\([^)]*\)/g, "$1");
const shownBlock = ({ isCode, text }) => (isCode ? `<pre>${escaped(text)}</pre>` : `<p>${inline(text)}</p>`);

function exercisesOf(text) {
  const answers = partsOf(text, "Answer (\\d)");
  return partsOf(text, "(\\d)").map(({ number, title, body }) => {
    const blocks = blocksOf(body), [source, shell] = blocks.filter(({ isCode }) => isCode).map((block) => block.text);
    const answer = blocksOf(answers.find((each) => each.number === number).body);
    return { number, title, source, shell, question: blocks.filter(({ isCode }) => !isCode), answer };
  });
}

// A button that puts the source of an exercise at the left, with the words of a command.
const tryButton = (number, shell, told) => `<p><button type="button" data-try="${number}" data-shell="${escaped(shell)}">${told}</button></p>`;
// An answer, with a button at each command.
const answerOf = ({ answer, number }) => answer.map((block) => (block.isCode && isCommand(block.text)
  ? tryButton(number, block.text, `Try <code>${escaped(block.text.replace(/^.*\.\/|< exercise.s$/g, ""))}</code>`) : shownBlock(block))).join("");

const exerciseText = (each) => `<details data-exercise="${each.number}"><summary>${each.number}. ${escaped(each.title)}</summary>
  ${tryButton(each.number, each.shell, "Put it at the left")}
  ${each.question.map(shownBlock).join("")}
  <p><button type="button" data-answer="${each.number}" aria-expanded="false" aria-controls="answer-${each.number}">Show the answer</button>
  </p><div id="answer-${each.number}" class="answer" role="region" aria-label="Answer ${each.number}" hidden>${answerOf(each)}</div>
  </details>`;

function beginExercises(take) {
  const all = exercisesOf(find("teaching").textContent), place = find("exercise-list");
  place.innerHTML = all.map(exerciseText).join("\n");
  place.addEventListener("click", ({ target }) => {
    const button = target.closest("button"), number = button?.dataset.try ?? button?.dataset.answer, each = all[number - 1];
    if (!each) return;
    if (button.dataset.answer) {
      const answer = find(`answer-${each.number}`);
      answer.hidden = !answer.hidden;
      button.setAttribute("aria-expanded", String(!answer.hidden));
      button.textContent = answer.hidden ? "Show the answer" : "Hide the answer";
      return;
    }
    const shell = button.dataset.shell, script = /printf '([^']*)'/.exec(shell)?.[1].replaceAll("\\n", "\n") ?? "";
    take({ ...formOfShell(shell), name: `exercise ${each.number}`, source: `${script}${each.source}\n` });
  });
}
