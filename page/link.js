// A script in the address of the page, after `#script=`, in the way in which a URL writes any text.

const BEGINNING = "#script=";

/** What stands after the sign of the address: the hash of the page with the script. */
export function hashOf(script) {
  return BEGINNING + encodeURIComponent(script.toWellFormed?.() ?? script);
}

/** The script of a hash; null where there is none, and an Error where it cannot be read. */
export function scriptOf(hash) {
  if (!hash.startsWith(BEGINNING)) return null;
  try {
    return decodeURIComponent(hash.slice(BEGINNING.length));
  } catch {
    throw new Error("The script in the address cannot be read: part of it is missing or is no text.");
  }
}
