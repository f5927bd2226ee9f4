// Tests of a host's own limits, on bytes that are spelled here as docs/IMAGE.md has them.
import assert from "node:assert/strict";
import { TooLarge, sizes } from "./index.mjs";

// The bytes of an image in words whose sandboxes have so much code and data, two gates and three first data bytes.
function image(...sandboxes) {
  const words = (...numbers) => Buffer.from(Uint32Array.from(numbers).buffer);
  return Buffer.concat([Buffer.from("SFIW"), words(sandboxes.length), ...sandboxes.flatMap(([code, data], number) => {
    const base = (number + 1) << 24;
    return [words(base, code, base + (1 << 23), data, base, 2, 3, base, 0, base + 16, 1), Buffer.alloc(code, "0290", "hex"), Buffer.from("abc")];
  })]);
}

const GIVEN = image([256, 4096], [1024, 1 << 22]);

function refused(most, wanted, given = GIVEN) {
  assert.throws(() => sizes.check(given, most), (error) => {
    assert(error instanceof TooLarge);
    assert.deepEqual([error.sandbox, error.what, error.size, error.most], wanted);
    return true;
  });
}

export const sizeTests = {
  "a host's own limits"() {
    sizes.check(GIVEN);
    sizes.check(GIVEN, { code: 1024, data: 1 << 22 });
    refused({ code: 1023 }, [1, "code", 1024, 1023]);
    refused({ data: 4096 }, [1, "data", 1 << 22, 4096]);
    refused({ code: 255, data: 4095 }, [0, "code", 256, 255]);
    assert.equal(new TooLarge(1, "code", 1024, 1023).message, "sandbox 1 has 1024 bytes of code, and this host takes at most 1023");
  },

  "limits and what is no image"() {
    for (let length = 0; length < GIVEN.length; length++) sizes.check(GIVEN.subarray(0, length), { code: 1024, data: 1 << 22 });
    refused({ data: 256 }, [0, "data", 4096, 256], GIVEN.subarray(0, 36));
    sizes.check(GIVEN.subarray(0, 35), { code: 0, data: 0 });
    sizes.check(new Uint8Array(64).fill(255).buffer);
  },
};
