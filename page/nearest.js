// Which word of some is the nearest, as difflib.get_close_matches of Python has it.

/** A nearest word is at least so much like the other. */
const LEAST_RATIO = 0.6;

/** The longest run that two words have in common: its places in both, and its length; of several the first. */
function longestRun(one, other) {
  let best = { from: 0, at: 0, size: 0 };
  for (let from = 0; from < one.length; from++) {
    for (let at = 0; at < other.length; at++) {
      let size = 0;
      while (from + size < one.length && one[from + size] === other[at + size]) size++;
      if (size > best.size) best = { from, at, size };
    }
  }
  return best;
}

/** How many characters match: those of the longest run, and of what stands before and after it. */
function matching(one, other) {
  const { from, at, size } = longestRun(one, other);
  if (size === 0) return 0;
  return size + matching(one.slice(0, from), other.slice(0, at)) + matching(one.slice(from + size), other.slice(at + size));
}

/** The nearest of the words, or undefined where none is near. Of two that are as near it is the later by the alphabet. */
export function nearestOf(word, words) {
  const rated = words.map((it) => ({ it, ratio: (2 * matching(it, word)) / (it.length + word.length) }));
  const near = rated.filter(({ ratio }) => ratio >= LEAST_RATIO);
  return near.sort((a, b) => b.ratio - a.ratio || (a.it < b.it ? 1 : -1))[0]?.it;
}
