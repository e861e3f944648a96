// The colours of the page, light and dark: each text is told from what is after it as WCAG 2.1 asks (1.4.3, at least 4.5 to 1).

import assert from "node:assert/strict";
import { test } from "node:test";

import { read } from "./stored.js";

const [LIGHT, DARK] = [...read("page/page.css").matchAll(/:root \{([^}]*)\}/g)].map(([, text]) =>
  Object.fromEntries([...text.matchAll(/--([\w-]+): (#[0-9a-f]{6});/g)].map(([, name, colour]) => [name, colour])),
);
const GROUNDS = ["ground", "panel", "band", "space"];
const TEXTS = ["text", "quiet", "accent", "new", "changed", "ended"];

/** The relative luminance of a colour, as WCAG 2.1 defines it. */
function luminance(colour) {
  const parts = [1, 3, 5].map((at) => parseInt(colour.slice(at, at + 2), 16) / 255);
  const [red, green, blue] = parts.map((part) => (part <= 0.03928 ? part / 12.92 : ((part + 0.055) / 1.055) ** 2.4));
  return 0.2126 * red + 0.7152 * green + 0.0722 * blue;
}

function contrast(one, other) {
  const [dark, light] = [luminance(one), luminance(other)].sort((a, b) => a - b);
  return (light + 0.05) / (dark + 0.05);
}

test("the contrast of black and white is 21", () => {
  assert.ok(Math.abs(contrast("#000000", "#ffffff") - 21) < 1e-9);
});

for (const [name, colours] of Object.entries({ light: LIGHT, dark: DARK })) {
  test(`texts on their grounds, ${name}`, () => {
    const pairs = TEXTS.flatMap((text) => GROUNDS.map((ground) => [text, ground, contrast(colours[text], colours[ground])]));
    assert.equal(pairs.length, 24);
    assert.deepEqual(pairs.filter(([, , found]) => !(found >= 4.5)), []);
  });
}
