// Elements of registers and of memory, from bytes in hexadecimal, and their texts.

export const REGISTER_BITS = 256;
export const LETTER = 0.602; // width of a letter of the fonts of `--mono`, in their size

/** @typedef {"signed" | "unsigned" | "hexadecimal"} NumberForm */
/** @typedef {Record<string, string>} Registers the 32 bytes of each register by its number, byte 0 first */

/**
 * Returns the unsigned little-endian number in bytes of hexadecimal digits.
 * @param {string} bytes
 */
export const littleEndian = (bytes) => BigInt("0x" + (bytes.match(/../g) ?? ["0"]).reverse().join(""));

/**
 * Returns bit `index` of a register as 0n or 1n.
 * @param {string} bytes
 * @param {number} index
 */
export const bitOf = (bytes, index) => BigInt((parseInt(bytes.slice(2 * (index >> 3), 2 * (index >> 3) + 2), 16) >> (index & 7)) & 1);

/**
 * Returns an unsigned element of a register group; with a width of 1 a bit of the one register of a mask.
 * @param {Registers} registers
 * @param {number} first the number of the group's first register
 * @param {number} width of elements, in bits
 * @param {number} index
 */
export function elementOf(registers, first, width, index) {
  if (width === 1) return bitOf(registers[first], index);
  const register = first + Math.floor((index * width) / REGISTER_BITS);
  const start = ((index * width) % REGISTER_BITS) / 4;
  return littleEndian(registers[register].slice(start, start + width / 4));
}

/**
 * Returns an unsigned number of `bits` bits, 8 or a multiple, from memory; null where its bytes aren't shown.
 * A row that isn't listed has zeros if another row of its page is listed.
 * @param {Record<string, string> | undefined} rows of 16 bytes by address
 * @param {bigint} address
 * @param {number} bits
 */
export function memoryElement(rows, address, bits) {
  const bytes = Array.from({ length: bits / 8 }, (_, place) => byteAt(rows ?? {}, BigInt.asUintN(64, address + BigInt(place))));
  return bytes.includes("") ? null : littleEndian(bytes.join(""));
}

/**
 * Returns the two digits of a byte; "" where no row of its page is listed.
 * @param {Record<string, string>} rows
 * @param {bigint} address
 */
function byteAt(rows, address) {
  const row = (address - (address % 16n)).toString(16);
  const place = 2 * Number(address % 16n);
  if (rows[row]) return rows[row].slice(place, place + 2);
  return Object.keys(rows).some((each) => BigInt("0x" + each) >> 12n === address >> 12n) ? "00" : "";
}

/**
 * Returns a number of `width` bits as text, with a true minus sign; a bit of a mask is 0 or 1 in all forms.
 * @param {bigint} value unsigned
 * @param {number} width
 * @param {NumberForm} form
 */
export function numberText(value, width, form) {
  if (width === 1) return `${value}`;
  if (form === "hexadecimal") return value.toString(16).padStart(width / 4, "0");
  return `${form === "signed" ? BigInt.asIntN(width, value) : value}`.replace("-", "−");
}

/**
 * Returns the name of a register, or of several in a row: `v8–v11`.
 * @param {number} first
 * @param {number} last
 */
export const registersText = (first, last) => (first === last ? `v${first}` : `v${first}–v${last}`);
