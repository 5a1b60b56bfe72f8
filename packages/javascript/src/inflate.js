
/**
 * The bytes of a text in base64 that DEFLATE (RFC 1951, without a header) packed, so many. No browser unpacks at once,
 * and a script without `await` can be part of any bundle.
 */
function inflate(text, size) {
  const packed = Uint8Array.from(atob(text), (it) => it.charCodeAt(0)), out = new Uint8Array(size);
  let bit = 0, at = 0;
  const bits = (count) => {
    let value = 0;
    for (let i = 0; i < count; i++, bit++) value |= ((packed[bit >> 3] >> (bit & 7)) & 1) << i;
    return value;
  };
  // A code: how many words of each length it has, and what they mean, in the order of the words.
  const codeOf = (lengths) => ({
    counts: Array.from({ length: 16 }, (_, length) => lengths.filter((it) => it === length && it > 0).length),
    meanings: [...lengths.keys()].filter((it) => lengths[it] > 0)
      .sort((one, other) => lengths[one] - lengths[other] || one - other) });
  const next = ({ counts, meanings }) => {
    for (let length = 1, word = 0, first = 0, before = 0; length < 16; length++) {
      word = 2 * word + bits(1);
      first *= 2;
      if (word - first < counts[length]) return meanings[before + word - first];
      first += counts[length];
      before += counts[length];
    }
    throw new Error("the packed module is damaged");
  };
  const read = (count, of) => Array.from({ length: count }, of);
  const usual = [144, 112, 24, 8].flatMap((count, index) => Array(count).fill([8, 9, 7, 8][index]));
  /** The lengths of the words of both codes, which are packed themselves. */
  const lengthsOf = () => {
    const [literals, distances, count] = [bits(5) + 257, bits(5) + 1, bits(4) + 4],
      order = [16, 17, 18, 0, 8, 7, 9, 6, 10, 5, 11, 4, 12, 3, 13, 2, 14, 1, 15];
    const given = read(count, () => bits(3)), code = codeOf(read(19, (_, it) => given[order.indexOf(it)] ?? 0)),
      found = [];
    while (found.length < literals + distances) {
      const it = next(code), times = it < 16 ? 1 : [3 + bits([2, 3, 7][it - 16]), 0][0] + (it === 18 ? 8 : 0);
      found.push(...Array(times).fill(it < 16 ? it : it === 16 ? found[found.length - 1] : 0));
    }
    return [found.slice(0, literals), found.slice(literals)];
  };
  for (let isLast = 0; !isLast; ) {
    isLast = bits(1);
    const kind = bits(2);
    if (kind === 0) {
      const start = (bit + 7 >> 3) + 4, length = packed[start - 4] + 256 * packed[start - 3];
      out.set(packed.subarray(start, start + length), at);
      at += length;
      bit = 8 * (start + length);
      continue;
    }
    const [literals, distances] = (kind === 1 ? [usual, Array(30).fill(5)] : lengthsOf()).map(codeOf);
    for (let it; (it = next(literals)) !== 256; ) {
      if (it < 256) {
        out[at++] = it;
        continue;
      }
      const extra = it < 265 || it === 285 ? 0 : it - 261 >> 2,
        length = it === 285 ? 258 : it < 265 ? it - 254 : 3 + ((4 + (it - 261 & 3)) << extra) + bits(extra);
      const far = next(distances), more = Math.max(0, (far >> 1) - 1),
        distance = 1 + (far < 4 ? far : ((2 + (far & 1)) << more) + bits(more));
      for (let i = 0; i < length; i++, at++) out[at] = out[at - distance];
    }
  }
  return out;
}
