// What the UTF-16 units of a text are: how much room each takes, and which of them show nothing.
export { HIDDEN, JOINED, WIDE, isHigh, isLow, isSimple, kindsOfUnits, visible };

const PLAIN = 1;
const WIDE = 2;
const JOINED = 3;
const HIDDEN = 4;
let kinds = null;

// What becomes of each unit: a plain character, a wide one, one that is joined to that before it, or one that shows nothing.
function kindsOfUnits() {
  if (kinds) return kinds;
  kinds = new Uint8Array(65536).fill(PLAIN);
  const hidden = /[\p{Cc}\p{Cf}\p{Zl}\p{Zp}]/u;
  const joined = /\p{M}/u;
  for (let code = 0; code < 65536; code += 1) {
    if (code === 0x7f || code < 0x20) kinds[code] = HIDDEN;
    else if (code > 0x7f && (code < 0xd800 || code > 0xf8ff)) {
      const character = String.fromCharCode(code);
      if (hidden.test(character)) kinds[code] = HIDDEN;
      else if (joined.test(character)) kinds[code] = JOINED;
    }
  }
  const ranges = [
    [0x1100, 0x115f], [0x2e80, 0x303e], [0x3041, 0x33ff], [0x3400, 0x4dbf], [0x4e00, 0x9fff], [0xa000, 0xa4cf],
    [0xac00, 0xd7a3], [0xf900, 0xfaff], [0xfe30, 0xfe6f], [0xff01, 0xff60], [0xffe0, 0xffe6],
  ];
  for (const [low, high] of ranges) {
    for (let code = low; code <= high; code += 1) if (kinds[code] === PLAIN) kinds[code] = WIDE;
  }
  return kinds;
}

// The fonts that are asked for have these in the width of a digit.
const isSimple = (code) => (code >= 0x20 && code < 0x7f) || (code > 0xa0 && code < 0x180 && code !== 0xad);
const isHigh = (code) => (code & 0xfc00) === 0xd800;
const isLow = (code) => (code & 0xfc00) === 0xdc00;

// A name with what shows nothing, or turns the direction of what follows, written out.
function visible(text) {
  return text.replace(/[\p{Cc}\p{Cf}\p{Zl}\p{Zp}\p{Cs}]/gu, (character) =>
    `\\u${character.codePointAt(0).toString(16).padStart(4, '0')}`,
  );
}
