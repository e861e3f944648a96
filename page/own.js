// One's own script, which the browser keeps from one visit to the next. It may keep none, as where cookies are refused, or none so long.

const KEPT_NAME = "pidtab script";

/** Has the browser keep a script with its bound; whether it does. */
export function keepScript({ script, pidMax }) {
  try {
    localStorage.setItem(KEPT_NAME, JSON.stringify({ script, pidMax }));
    return true;
  } catch {
    return false;
  }
}

/** The script that was kept, with its bound; null where there is none. */
export function keptScript() {
  try {
    const { script, pidMax } = JSON.parse(localStorage.getItem(KEPT_NAME));
    return typeof script === "string" && typeof pidMax === "string" ? { script, pidMax } : null;
  } catch {
    return null;
  }
}
