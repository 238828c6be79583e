// "Guess first": the class answers before anything is shown. What would tell is not in the document until then.
import { byId, element, putBack, setText, takeOut } from './dom.js';
import { endOf, switchedOn } from '../display.js';
import { LEAST_PAGES } from '../firmware.js';
import { N } from '../numbers.js';
import { missingPages } from '../pages.js';
import { lampOf, verdictOf } from '../verdict.js';
import { text } from '../text.js';

const LETTERS = ['A', 'B'];
const TELLING = ['shown', 'wrong-label'];
const MOST_PAGES = 24;

export class GuessView {
  // `transfer` has the session, and plays it.
  constructor(transfer) {
    this.transfer = transfer;
    this.out = false;
    byId('guess-on').addEventListener('change', () => this.set(byId('guess-on').checked));
  }

  get on() {
    return byId('guess-on').checked;
  }

  set(on) {
    byId('guess-on').checked = on;
    this.restart();
  }

  // From the first question; where the class does not guess, everything is shown.
  restart() {
    const hide = this.on;
    if (hide !== this.out) for (const id of TELLING) (hide ? takeOut : putBack)(byId(id));
    this.out = hide;
    byId('guess').hidden = !hide;
    byId('guess').replaceChildren();
    if (hide) this.begin();
    else this.transfer.redraw();
  }

  // Which receiver is A, and which B: fixed by the list, and not by which is right.
  sides() {
    const { session, lessonId, plan } = this.transfer;
    const sum = [...`${lessonId} ${plan.seed} ${session.arrivals.length}`].reduce((a, c) => (a * 31 + c.charCodeAt(0)) % 65521, 7);
    const runs = sum % 2 === 0 ? session.runs : [...session.runs].reverse();
    return runs.map((run, k) => ({ run, letter: LETTERS[k] }));
  }

  begin() {
    this.cards = this.sides().map(({ run, letter }) => ({ run, letter, said: element('div', {}), card: null }));
    for (const one of this.cards) one.card = element('article', { className: 'receiver guess-card', 'data-letter': one.letter }, element('h2', { textContent: text.guess.display(one.letter) }), one.said);
    this.questions = element('div', { className: 'guess-questions' });
    byId('guess').append(element('p', { className: 'hint', textContent: text.guess.hint }), element('div', { className: 'columns' }, ...this.cards.map(({ card }) => card)), this.questions);
    this.askComplete();
  }

  // A question with hands to count, and Show. `after(counts)` tells the sentences that follow.
  ask(question, options, after) {
    const fields = options.map(([id, words]) => {
      const hands = element('input', { type: 'number', min: 0, max: 999, className: 'hands', 'aria-label': text.guess.hands(words) });
      return { id, hands, label: element('label', { className: 'guess-option' }, `${words} `, hands) };
    });
    const show = element('button', { className: 'main-button', textContent: text.guess.show });
    const result = element('p', { className: 'note', role: 'status' });
    const part = element('fieldset', { className: 'guess-question' }, element('legend', { textContent: question }), ...fields.map(({ label }) => label), show, result);
    this.questions.append(part);
    show.addEventListener('click', async () => {
      show.disabled = true;
      for (const { hands } of fields) hands.disabled = true;
      const counts = Object.fromEntries(fields.map(({ id, hands }) => [id, Math.max(0, Math.floor(Number(hands.value) || 0))]));
      setText(result, (await after(counts)).filter(Boolean).join(' '));
    });
    show.focus({ preventScroll: true });
  }

  rightOf(counts, right) {
    const all = Object.values(counts).reduce((a, b) => a + b, 0);
    return all > 0 ? text.guess.wereRight(all, right.reduce((sum, id) => sum + (counts[id] ?? 0), 0)) : '';
  }

  letters(some) {
    return some.length === 0 ? text.guess.neither : some.map(({ letter }) => letter).join(` ${text.guess.and} `);
  }

  askComplete() {
    const two = this.cards.length === 2;
    const options = [...this.cards.map(({ letter }) => [letter, letter]), ...(two ? [['both', text.guess.both]] : []), ['neither', text.guess.neither]];
    this.ask(text.guess.complete, options, async (counts) => {
      await this.transfer.goTo(this.transfer.length);
      const { session } = this.transfer;
      for (const { run, said } of this.cards) {
        const lamp = lampOf(run, verdictOf(session, run));
        said.append(element('p', { className: 'lamp-words', textContent: `${lamp.mark} ${lamp.words}` }));
      }
      const done = this.cards.filter(({ run }) => run.receiver.transfer.state === 'done');
      const right = done.length === 0 ? 'neither' : done.length === 2 ? 'both' : done[0].letter;
      this.askPage();
      return [text.guess.saysComplete(this.letters(done)), this.rightOf(counts, [right])];
    });
  }

  // Of the display that is not the proved one, where there are two.
  askPage() {
    const { session } = this.transfer;
    const { run, letter } = this.cards.find((one) => one.run === session.wrong) ?? this.cards[0];
    const file = session.fileOf(run);
    const numbers = file.pages.slice(0, MOST_PAGES).map(({ number, name }) => [String(number), name ? text.guess.page(number, text.pages[name]) : String(number)]);
    this.ask(text.guess.whichPage(letter), [['none', text.guess.none], ...numbers], async (counts) => {
      for (const card of this.cards) this.showVerdict(card);
      const missing = missingPages(run, file).map(({ number }) => String(number));
      this.askClimb();
      return [this.rightOf(counts, missing.length > 0 ? missing : ['none'])];
    });
  }

  showVerdict({ run, said }) {
    const { session } = this.transfer;
    const { words, lines } = verdictOf(session, run);
    said.append(element('p', { className: 'state', textContent: words }), ...lines.map((line) => element('p', { textContent: line })));
  }

  // The last question: then everything is shown, with names.
  askClimb() {
    const { session } = this.transfer;
    const options = [...this.cards.map(({ letter }) => [letter, letter]), ['neither', text.guess.neither]];
    this.ask(text.guess.climb, options, async (counts) => {
      const trusted = this.cards.filter(({ run }) => this.endsTrusted(session, run));
      for (const one of this.cards) this.unmask(one);
      for (const id of TELLING) putBack(byId(id));
      this.out = false;
      this.transfer.redraw();
      this.transfer.switchOn();
      const all = Object.values(counts).reduce((a, b) => a + b, 0);
      const climbed = trusted.reduce((sum, { letter }) => sum + counts[letter], 0);
      return [trusted.length > 0 ? text.guess.trusted(this.letters(trusted)) : text.guess.noneTrusted, all > 0 && trusted.length > 0 ? text.guess.climbed(all, climbed) : ''];
    });
  }

  unmask({ run, letter, card }) {
    const { session } = this.transfer;
    const name = run === session.proved ? text.proved.title : byId('wrong-name').textContent;
    const stamp = run === session.proved ? text.proved.mark : byId('wrong-stamp').textContent;
    card.classList.add(run === session.proved ? 'proved' : 'wrong');
    card.firstChild.replaceChildren(`${text.guess.display(letter)}: `, element('span', { className: 'stamp', textContent: stamp }), ` ${name}`);
  }

  // Whether the model of the display is green at the end of the scene, with nobody there.
  endsTrusted(session, run) {
    const file = session.files[0].read(session.proved.receiver);
    if (!file.sample || file.total < LEAST_PAGES) return false;
    const place = session.proved.receiver.place(file.family);
    return endOf(switchedOn(run.receiver.transfer, run.receiver.bytes('flash'), place.answer === N.UF2_ANSWER_FOUND ? place.start : 0)) === 'trusted';
  }
}
