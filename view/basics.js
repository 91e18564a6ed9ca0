"use strict";
/* The page's one namespace, and what all of its parts use: numbers as words, and searches in ordered lists. */
const Life = {};

Life.basics = (() => {
  /* As many frames may wait. */
  const MOST_WAITING = 256;

  const byId = (id) => document.getElementById(id);

  const number = (n) => String(n).replace(/\B(?=(\d{3})+(?!\d))/g, ",");
  const count = (n, one, many) => number(n) + " " + (n === 1 ? one : many || one + "s");
  const range = (first, last) => (first === last ? number(first) : number(first) + "\u2013" + number(last));

  /* Eight ticks of 125 microseconds are a millisecond. */
  function milliseconds(ticks) {
    const [whole, part] = (ticks / 8).toFixed(3).replace(/\.?0+$/, "").split(".");
    return number(whole) + (part ? "." + part : "");
  }

  /* What octets in so many ticks are in megabits a second: eight bits each, 125 microseconds a tick. */
  const megabits = (octets, ticks) => number((8 * octets / (125 * ticks)).toFixed(2).replace(/\.?0+$/, "")) + " Mbit/s";

  const ENTITIES = { "&": "&amp;", "<": "&lt;", ">": "&gt;", '"': "&quot;" };
  const escapeHtml = (text) => text.replace(/[&<>"]/g, (c) => ENTITIES[c]);

  /* The first index below n at which a test holds that goes from false to true; n where there is none. */
  function firstWhere(n, test) {
    let low = 0, high = n;
    while (low < high) {
      const middle = (low + high) >> 1;
      if (test(middle)) high = middle; else low = middle + 1;
    }
    return low;
  }

  /* Of runs from `first` to below `end`, in order, the one that holds a place. */
  function runAt(runs, place) {
    const i = firstWhere(runs.length, (n) => runs[n].end > place);
    return i < runs.length && runs[i].first <= place ? runs[i] : null;
  }

  /* The packet that governs a row, and the first row that a packet governs; before row 24 there is none. */
  const packetOf = (row) => (row < 24 ? -1 : Math.floor((row - 24) / 16));
  const rowOf = (packet) => 16 * packet + 24;
  /* Step j is made in tick 16 j + 8. */
  const stepsOf = (ticks) => Math.max(0, Math.ceil((ticks - 8) / 16));

  const clamp = (value, least, most) => Math.max(least, Math.min(most, value));

  return { MOST_WAITING, byId, number, count, range, milliseconds, megabits, escapeHtml, firstWhere, runAt, packetOf, rowOf, stepsOf, clamp };
})();
