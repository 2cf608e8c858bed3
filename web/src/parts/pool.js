// Workers made of the text that the page carries, and errands handed to whichever is free. An errand may be called off.
import { allowWorker } from './trust.js';

/** @typedef {{worker:Worker, busy:Job|null}} Hand */
/** @typedef {{message:any, group:object|null, done:(v:any)=>void, failed:(e:Error)=>void}} Job */

/** What an errand that was called off fails with. */
export class CalledOff extends Error {}

export class Pool {
  /** @param {string} source @param {Uint8Array} wasm @param {number} size */
  constructor(source, wasm, size) {
    this.url = URL.createObjectURL(new Blob([source], { type: 'text/javascript' }));
    allowWorker(this.url);
    this.wasm = wasm;
    this.size = size;
    /** @type {Hand[]} */ this.hands = [];
    /** @type {Job[]} */ this.waiting = [];
    this.hire();
  }

  hire() {
    const worker = new Worker(this.url);
    /** @type {Hand} */ const hand = { worker, busy: null };
    worker.postMessage({ id: 0, op: 'start', wasm: this.wasm });
    worker.onmessage = e => {
      if (e.data.id === 0) return;
      const job = hand.busy;
      hand.busy = null;
      if (job) e.data.error === undefined ? job.done(e.data.value) : job.failed(new Error(e.data.error));
      this.next();
    };
    worker.onerror = e => this.dismiss(hand, new Error(e.message || 'the worker stopped'));
    this.hands.push(hand);
    return hand;
  }

  /** A worker ended, and its errand with it. Another takes its place when there is work.
   *  @param {Hand} hand @param {Error} why */
  dismiss(hand, why) {
    this.hands = this.hands.filter(h => h !== hand);
    hand.worker.terminate();
    hand.busy?.failed(why);
    hand.busy = null;
    this.next();
  }

  next() {
    while (this.waiting.length > 0) {
      const hand = this.hands.find(h => !h.busy) ?? (this.hands.length < this.size ? this.hire() : null);
      if (!hand) return;
      hand.busy = /** @type {Job} */ (this.waiting.shift());
      hand.worker.postMessage({ ...hand.busy.message, id: 1 });
    }
  }

  /** @param {any} message @param {object} [group] what it can be called off by @returns {Promise<any>} */
  ask(message, group) {
    return new Promise((done, failed) => { this.waiting.push({ message, group: group ?? null, done, failed }); this.next(); });
  }

  /** All errands of a group called off: those that wait are not begun, and the workers of the others end at once.
   *  @param {object} group */
  callOff(group) {
    const gone = this.waiting.filter(j => j.group === group), why = new CalledOff('called off');
    this.waiting = this.waiting.filter(j => j.group !== group);
    for (const j of gone) j.failed(why);
    for (const h of this.hands.filter(hand => hand.busy?.group === group)) this.dismiss(h, why);
  }
}
