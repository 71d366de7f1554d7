/**
 * A history has an entry for each event of a part, or each item of a burst, at which a row changed: its number, and
 * what the row says from there on.
 */

/** The last entry at or before a number; null if there is none. */
export function at(history, number) {
  let low = 0;
  let high = history.length;
  while (low < high) {
    const middle = (low + high) >> 1;
    if (history[middle][0] <= number) low = middle + 1;
    else high = middle;
  }
  return low > 0 ? history[low - 1] : null;
}

/** The rows of a section that exist at a number: name, what it says, and whether that is new there. */
export function rowsAt(section, number) {
  const rows = [];
  for (const [name, history] of Object.entries(section)) {
    const entry = at(history, number);
    if (entry !== null && entry[1] !== null) rows.push({ name, says: entry[1], isNew: entry[0] === number && number > 0 });
  }
  return rows;
}
