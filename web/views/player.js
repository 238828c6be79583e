// The buttons and keys that play a list: start, back, play, step, end, and the speed.
import { byId, setText } from './dom.js';
import { text } from '../text.js';

const DELAYS = [1600, 1100, 800, 550, 380, 250, 150, 80, 30, 0];

export class Player {
  // `ids` names the buttons; `list` has `length`, `position`, and `goTo(k)`, which may take its time.
  constructor(ids, list) {
    this.list = list;
    this.playing = false;
    this.buttons = Object.fromEntries(Object.entries(ids).map(([name, id]) => [name, byId(id)]));
    const { start, back, play, step, end } = this.buttons;
    start.addEventListener('click', () => this.jump(0));
    back.addEventListener('click', () => this.jump(this.list.position - 1));
    play.addEventListener('click', () => this.toggle());
    step.addEventListener('click', () => this.jump(this.list.position + 1));
    end.addEventListener('click', () => this.jump(this.list.length));
  }

  jump(target) {
    this.pause();
    return this.list.goTo(Math.max(0, Math.min(this.list.length, target)));
  }

  pause() {
    this.playing = false;
    setText(this.buttons.play, text.controls.play);
  }

  async toggle() {
    if (this.playing) {
      this.pause();
      return;
    }
    this.playing = true;
    setText(this.buttons.play, text.controls.pause);
    if (this.list.position >= this.list.length) await this.list.goTo(0);
    while (this.playing && this.list.position < this.list.length) {
      const stride = Math.ceil(this.list.length / 400);
      await this.list.goTo(this.list.position + stride);
      await new Promise((done) => setTimeout(done, DELAYS[Number(this.buttons.speed.value) - 1]));
    }
    this.pause();
  }

  // A key of the whole page; whether it was one of the player's.
  key(event) {
    const act = {
      ' ': () => this.toggle(),
      ArrowRight: () => this.jump(this.list.position + 1),
      ArrowLeft: () => this.jump(this.list.position - 1),
      Home: () => this.jump(0),
      End: () => this.jump(this.list.length),
    }[event.key];
    if (!act) return false;
    event.preventDefault();
    act();
    return true;
  }

  // Buttons that would do nothing are off.
  refresh() {
    const { start, back, step, end } = this.buttons;
    start.disabled = back.disabled = this.list.position <= 0;
    step.disabled = end.disabled = this.list.position >= this.list.length;
  }
}
