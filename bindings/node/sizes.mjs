// A host's own limits, below those of images' formats: index.d.mts says what each call does.
import { TooLarge } from "./told.mjs";

const [FRONT, NUMBERS, GATE] = [8, 28, 8]; // bytes before the first sandbox's numbers, of these, and of a gate
const MOST = 16; // sandboxes of an image

export function check(image, { code = Infinity, data = Infinity } = {}) {
  const bytes = ArrayBuffer.isView(image) ? new DataView(image.buffer, image.byteOffset, image.byteLength) : new DataView(image);
  const number = (at) => bytes.getUint32(at, true);
  const count = bytes.byteLength < FRONT ? 0 : Math.min(number(4), MOST);
  for (let sandbox = 0, at = FRONT; sandbox < count && at + NUMBERS <= bytes.byteLength; sandbox++) {
    const sizes = { code: number(at + 4), data: number(at + 12) };
    if (sizes.code > code) throw new TooLarge(sandbox, "code", sizes.code, code);
    if (sizes.data > data) throw new TooLarge(sandbox, "data", sizes.data, data);
    at += NUMBERS + GATE * number(at + 20) + sizes.code + number(at + 24);
  }
}
