// Reads the data of the run, and refuses a form that this script doesn't know. DATA.md has the form.

export const FORM = 1;

// The kinds of a trace's items, as numbered in the data.
export const RD = 0, WR = 1, ACQ = 2, REL = 3, FORK = 4, JOIN = 5, ENTER = 6, EXIT = 7;
export const KINDS = ["rd", "wr", "acq", "rel", "fork", "join", "enter", "exit"];

// All that the page knows of the run: `data` as it was read, and what `prepare` of start.js derives from it.
export const run = {data: null, from: 0, to: 0, of: 0, states: [], count: 0};

// Returns the data of a text, or a sentence that says why it is refused.
export function readData(text) {
  let data = null;
  try {
    data = JSON.parse(text);
  } catch (error) {
    return {refusal: "The data of this page is damaged: it isn't JSON. Make the page again."};
  }
  if (data === null || typeof data !== "object" || data.form !== FORM) {
    const form = data === null || typeof data !== "object" ? "none" : String(data.form);
    return {refusal: "The data of this page has the form " + form + ", and its script reads form " + FORM +
      " alone. Make the page again, by one version of jvmx."};
  }
  return {data};
}

// Returns the thread of turn p.
export const chooser = p => run.data.choices[p - run.from - 1];

// Returns the state at position p: after turn p.
export const state = p => run.states[p - run.from];

// Says whether the page has the run's last turn.
export const hasEnd = () => run.to === run.of;
