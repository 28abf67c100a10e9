// Predicates to begin from.

/** @typedef {{title?: string, name: string, processes: number, inputs: string, values: string, code: string, names?: string, inputNames?: string,
 *   symmetric?: boolean, first?: string}} Own   what the fields of one's own task have */

/** @type {Record<string, Own>} */
export const EXAMPLES = {
  consensus: { title: "Consensus: all decide one participant's input", name: "mine", processes: 2, inputs: "0 1", values: "0, 1", code:
`function legal(start, end) {
  // one value, and somebody began with it
  return distinct(end) === 1
    && values(end).every(v => values(start).includes(v));
}` },
  vote: { title: "A vote in which at most one abstains", name: "vote-1", processes: 3, inputs: "0|1 0|1 0|1", values: "0-2",
    names: "0=no, 1=yes, 2=abstain", inputNames: "0=no, 1=yes", code:
`function legal(start, end) {
  const wanted = values(start);
  const cast = values(end).filter(v => v !== 2);
  const abstained = values(end).length - cast.length;
  const most = distinct(start) === 1 ? 0 : 1;
  return distinct(cast) <= 1
    && cast.every(v => wanted.includes(v))
    && abstained <= most;
}` },
  approximate: { title: "Approximate agreement in thirds", name: "thirds", processes: 2, inputs: "0|3 0|3", values: "0-3", code:
`function legal(start, end) {
  const low = Math.min(...values(start));
  const high = Math.max(...values(start));
  const ends = values(end);
  return ends.every(v => low <= v && v <= high)
    && Math.max(...ends) - Math.min(...ends) <= 1;
}` },
  agreement: { title: "2-set agreement of three", name: "two-of-three", processes: 3, inputs: "0 1 2", values: "0-2", code:
`function legal(start, end) {
  // at most two values, all of them inputs
  return distinct(end) <= 2
    && values(end).every(v => values(start).includes(v));
}` },
  renaming: { title: "Renaming: three processes, five names", name: "renaming", processes: 3, inputs: "0 0 0", values: "0-4", symmetric: true, code:
`function legal(start, end) {
  // all names differ
  return distinct(end) === values(end).length;
}` },
  leader: { title: "A leader, and everybody knows whether it leads", name: "leader", processes: 3, inputs: "0 0 0", values: "0, 1",
    names: "0=follow, 1=lead", code:
`function legal(start, end) {
  // exactly one of those who take part leads
  return values(end).filter(v => v === 1).length === 1;
}` },
};
