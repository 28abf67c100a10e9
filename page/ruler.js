// The worker that tells a map as rules: they are a matter of a second or two, and the page stays alive.
import { rulesOfMap } from "./ruling.js";

onmessage = ({ data }) => {
  try {
    postMessage({ rules: rulesOfMap(data.text, data.rounds, data.values, data.names) });
  } catch (error) {
    postMessage({ rules: null, error: String(error) });
  }
};
