// A sound and a notification before a window's end, if the person has chosen them.

import {counted} from "./page.js";

/** The seconds before the end at which the alarm comes. */
export const MARKS = [300, 60, 20];
const HIGH = 880, LOUD = 0.2, TONE = 0.18; // hertz, part of the greatest loudness, seconds

/**
 * The mark that was passed between two moments of the same window, or 0. Each is { phase, seconds }
 * of the timetable.
 */
export function passed(before, now) {
  if (before.phase !== "open" || now.phase !== "open") return 0;
  if (before.seconds === null || now.seconds === null) return 0;
  const marks = MARKS.filter((mark) => before.seconds > mark && now.seconds <= mark);
  return marks.length ? Math.min(...marks) : 0;
}

/** What the alarm says when so many seconds are left. */
export function alarmWords(seconds, round) {
  const left =
    seconds < 60 ? counted(seconds, "second") : counted(Math.round(seconds / 60), "minute");
  return `${left} left in round ${round}`;
}

export class Alarm {
  #sound = null; // the browser's sound, once the person has chosen it

  get isOn() { return this.#sound !== null; }

  /** Turns the alarm on, after a click; returns what is said of it. */
  async on() {
    this.#sound = new AudioContext();
    this.#beep();
    const may = await globalThis.Notification?.requestPermission().catch(() => "denied");
    return may === "granted" ? "The alarm is on: a sound and a notification."
                             : "The alarm is on: a sound. The browser allows no notification.";
  }

  off() {
    this.#sound?.close();
    this.#sound = null;
  }

  /** Gives the alarm, which says a title and words. */
  ring(title, words) {
    if (!this.isOn) return;
    this.#beep();
    if (globalThis.Notification?.permission === "granted")
      new Notification(title, { body: words, tag: "time", requireInteraction: false });
  }

  /** Two short tones. */
  #beep() {
    for (const after of [0, 2 * TONE]) {
      const tone = this.#sound.createOscillator(), volume = this.#sound.createGain();
      tone.frequency.value = HIGH;
      volume.gain.value = LOUD;
      tone.connect(volume).connect(this.#sound.destination);
      tone.start(this.#sound.currentTime + after);
      tone.stop(this.#sound.currentTime + after + TONE);
    }
  }
}
