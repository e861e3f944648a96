// What a table is made with and asked: a TypeError for what is no number and for options that are none, and a RangeError for a number that is out of range.

/** The greatest number of 64 bits. */
export const GREATEST_LONG = 2n ** 64n - 1n;

/** What is thrown for a number that is none of those from the least to the greatest. */
function faultOfNumber(name, number, least, greatest) {
  const said = `${name} is an integer, ${least} to ${greatest}`;
  if (typeof number !== "number" && typeof number !== "bigint") return new TypeError(`${said}, not a ${typeof number}`);
  return new RangeError(`${said}, not ${number}`);
}

/** The number, if it is an integer in the range. */
export function checkRange(name, number, least, greatest) {
  if (Number.isInteger(number) && least <= number && number <= greatest) return number;
  throw faultOfNumber(name, number, least, greatest);
}

/** The number, if it has 32 bits and no sign. */
export function checkNumber(name, number) {
  if (number >>> 0 === number) return number;
  throw faultOfNumber(name, number, 0, 2 ** 32 - 1);
}

/** The number, if it has 32 bits, one of which is its sign. */
export function checkSigned(name, number) {
  return checkRange(name, number, -(2 ** 31), 2 ** 31 - 1);
}

/** The options of a call, if they are an object and each of its keys is a known one. */
export function checkOptions(options, ...known) {
  if (typeof options !== "object" || options === null) throw new TypeError(`options are an object, not ${options === null ? "null" : `a ${typeof options}`}`);
  const other = Object.keys(options).find((key) => !known.includes(key));
  if (other !== undefined) throw new TypeError(`an option is one of ${known.join(", ")}, not ${other}`);
  return options;
}

/** The number of 64 bits that a BigInt is, or a number that is a safe integer. */
export function checkLong(name, number, least = 0n) {
  const long = Number.isSafeInteger(number) ? BigInt(number) : number;
  if (typeof long === "bigint" && least <= long && long <= GREATEST_LONG) return long;
  throw faultOfNumber(name, number, least, `2^64 - 1, or at most 2^53 - 1 where it is no BigInt`);
}
