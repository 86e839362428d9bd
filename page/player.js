// @ts-check
// Plays a run: takes the chosen moment through the time that is shown. A reader who asks for less motion steps by hand.

import { byId, setText } from './dom.js';

/** @typedef {{ from: number, to: number, moment: number, isPlayed: boolean, point(time: number): void }} Shown */

// The milliseconds that the time which is shown takes, and the part of it that a step is.
const LASTS = 15000, STEP = 1 / 20;

export class Player {
  /** @param {Shown} shown */
  constructor(shown) {
    this.shown = shown;
    this.button = byId('play');
    this.still = matchMedia('(prefers-reduced-motion: reduce)');
    this.frame = 0;
    this.button.onclick = () => this.press();
    this.still.onchange = () => this.stop();
    this.stop();
  }

  press() {
    const { from, to, moment } = this.shown;
    if (this.frame) {
      this.stop();
      return;
    }
    const at = moment >= to ? from : moment;
    if (this.still.matches) {
      this.shown.point(Math.min(to, at + (to - from) * STEP));
    } else {
      this.shown.isPlayed = true;
      this.play(at, performance.now());
      setText(this.button, 'Pause');
    }
  }

  /** @param {number} at @param {number} last */
  play(at, last) {
    this.shown.point(at);
    this.frame = requestAnimationFrame(now => {
      const { from, to } = this.shown, next = Math.max(from, at) + (to - from) * (now - last) / LASTS;
      if (next < to) {
        this.play(next, now);
      } else {
        this.shown.point(to);
        this.stop();
      }
    });
  }

  stop() {
    cancelAnimationFrame(this.frame);
    this.frame = 0;
    this.shown.isPlayed = false;
    setText(this.button, this.still.matches ? 'Step' : 'Play');
  }
}
