// "Switch it on": the displays in service after the update, what each shows, and the truth above them.
import { byId, element, setText } from './dom.js';
import { SCENE, endOf, faceAt, isNever, somebodyThere, stretches, switchedOn } from '../display.js';
import { LEAST_PAGES, versionOf } from '../firmware.js';
import { N } from '../numbers.js';
import { verdictOf } from '../verdict.js';
import { text } from '../text.js';

// The sentences at the end. Told besides: that another firmware than the file's starts though the receiver said complete, and that the proof does not speak of the list.
function endLines(display, shown) {
  const end = endOf(display);
  const words = text.service.ends[end];
  const lines = [typeof words === 'function' ? words(shown) : words];
  if (display.mode === 'on' && display.told === 'done' && display.version !== display.wanted) lines.push(text.service.ends.other(display));
  if (display.unspoken) lines.push(text.service.ends.unspoken);
  return lines;
}

// What the display took from its flash.
function readsWords(display) {
  const words = text.service.reads[isNever(display) ? 'never' : display.mode];
  const reads = typeof words === 'function' ? words(display) : words;
  return display.mode === 'on' && display.told === 'running' ? `${reads} ${text.service.deafHint}` : reads;
}

class Face {
  constructor(articleId, stamp, className) {
    this.screen = element('div', { className: 'screen', role: 'img' });
    this.strip = element('div', { className: 'strip', 'aria-hidden': 'true' });
    this.reads = element('p', { className: 'hint reads' });
    this.verdict = element('div', { className: 'verdict', role: 'status', 'aria-live': 'polite' });
    this.stamp = element('span', { className: 'stamp', textContent: stamp });
    const head = element('h3', {}, this.stamp, ` ${text.service.display}`);
    this.article = element('article', { id: articleId, className: `receiver ${className}` }, head, this.screen, this.strip, this.verdict, this.reads);
  }

  show(display, time) {
    const shown = { ...display, ...faceAt(display, time) };
    const { face } = shown;
    const { heads, below, marks } = text.service;
    const head = face === 'green' && !Number.isFinite(shown.reading) ? heads.noReading : heads[face];
    const said = [head, below[face]].map((words) => (typeof words === 'function' ? words(shown) : words));
    this.screen.dataset.face = face;
    this.screen.replaceChildren(
      element('span', { className: 'face-mark', textContent: marks[face] }),
      element('strong', { textContent: said[0] }),
      element('span', { textContent: said[1] }),
    );
    this.screen.setAttribute('aria-label', said.filter(Boolean).join('. '));
    this.showStrip(display, time);
    setText(this.reads, readsWords(display));
    const over = time >= SCENE.length;
    this.verdict.dataset.kind = over ? endOf(display) : '';
    this.verdict.replaceChildren(...(over ? endLines(display, shown).map((words) => element('p', { textContent: words })) : []));
  }

  // The scene from its begin to its end, and a hand at the time.
  showStrip(display, time) {
    const parts = stretches(display).map(({ from, to, face }) => {
      const part = element('span', { 'data-face': face, textContent: text.service.short[face] });
      part.style.width = `${(100 * (to - from)) / SCENE.length}%`;
      return part;
    });
    const hand = element('i', { className: 'hand' });
    hand.style.left = `${(100 * time) / SCENE.length}%`;
    this.strip.replaceChildren(...parts, hand);
  }
}

export class ServiceView {
  // `sendAgain()` sends the whole file once more to both receivers.
  constructor(sendAgain) {
    this.faces = { proved: new Face('service-proved', text.proved.mark, 'proved'), wrong: new Face('service-wrong', text.wrong.mark, 'wrong') };
    byId('service-faces').replaceChildren(this.faces.proved.article, this.faces.wrong.article);
    byId('service-on').addEventListener('click', () => this.start());
    // not while the class guesses
    byId('to-service').addEventListener('click', () => byId('service').isConnected && this.start());
    byId('service-again').addEventListener('click', () => sendAgain());
    byId('service-deaf').addEventListener('change', () => !byId('service-scene').hidden && this.start());
    byId('service-time').max = SCENE.length;
    byId('service-time').step = SCENE.step;
    byId('service-time').addEventListener('input', () => this.stopAt(Number(byId('service-time').value)));
  }

  // The session at its position. Another list, or another position in it, takes the displays out of service.
  reset(session) {
    if (this.session === session && this.position === session.position) return;
    this.stop();
    Object.assign(this, { session, position: session.position });
    const file = session.files[0].read(session.proved.receiver);
    const ended = session.position === session.arrivals.length && session.arrivals.length > 0;
    const isSample = file.sample && file.total >= LEAST_PAGES;
    byId('service-on').disabled = byId('to-service').disabled = !ended || !isSample;
    byId('service-controls').hidden = byId('service-intro').hidden = !isSample;
    setText(byId('service-hint'), isSample ? (ended ? text.service.ready : text.service.waiting) : text.service.none);
    byId('service-scene').hidden = true;
    byId('service-again').hidden = true;
  }

  // The stamp of the second face: a wrong receiver's, or one's own.
  stampWrong(isYours) {
    setText(this.faces.wrong.stamp, isYours ? text.yours.mark : text.wrong.mark);
    this.faces.wrong.article.classList.toggle('yours', isYours);
  }

  stop() {
    clearInterval(this.timer);
  }

  // What a receiver's display takes from its flash.
  displayOf(run, file, base) {
    const { receiver } = run;
    const display = switchedOn(receiver.transfer, receiver.bytes('flash'), base, byId('service-deaf').checked);
    const first = file.pages.find((page) => page.number === 0 && page.piece);
    const unspoken = verdictOf(this.session, run).kind === 'unspoken';
    return { ...display, told: receiver.transfer.state, wanted: first ? versionOf(first.piece) : display.version, unspoken };
  }

  start() {
    const { session } = this;
    const file = session.files[0].read(session.proved.receiver);
    const place = session.proved.receiver.place(file.family);
    const base = place.answer === N.UF2_ANSWER_FOUND ? place.start : 0;
    const names = Object.keys(this.faces).filter((name) => session[name]);
    this.displays = Object.fromEntries(names.map((name) => [name, this.displayOf(session[name], file, base)]));
    this.faces.wrong.article.hidden = !session.wrong;
    byId('service-scene').hidden = false;
    byId('service-intro').hidden = true;
    byId('service-again').hidden = file.pages.some((page) => !page.piece);
    byId('service').scrollIntoView({ block: 'start' });
    this.play();
  }

  // In real time; at once at the end where motion is not wanted.
  play() {
    this.stop();
    const still = window.matchMedia('(prefers-reduced-motion: reduce)').matches;
    this.show(still ? SCENE.length : 0);
    if (still) return;
    const began = performance.now();
    this.timer = setInterval(() => {
      const time = Math.min(SCENE.length, Math.floor((performance.now() - began) / SCENE.step) * SCENE.step);
      this.show(time);
      if (time >= SCENE.length) this.stop();
    }, SCENE.step);
  }

  stopAt(time) {
    this.stop();
    this.show(time);
  }

  show(time) {
    byId('service-time').value = time;
    setText(byId('service-clock'), text.service.clock(time));
    const there = somebodyThere(time);
    byId('service-truth').dataset.there = there;
    setText(byId('service-truth-words'), there ? text.service.truth.somebody : text.service.truth.nobody(time - SCENE.dies));
    for (const [name, display] of Object.entries(this.displays)) this.faces[name].show(display, time);
  }
}
