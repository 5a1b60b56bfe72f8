// The search of the page: which of the known targets some words are about. `build` writes TARGETS, which are those of
// packages/names/targets.csv and rustc's that parse, and VALUES, what tools/names/names.tsv says of the fields' values.
// What words say that none of these has, by the targets that they are about.
const ABOUT = [
  [/^(mac|macos|macosx|osx|macbook|imac)$/, /-apple-darwin$/], [/^(m\d|silicon)$/, /^aarch64-apple-darwin$/],
  [/^(iphone|ipad|ipados)$/, /^aarch64-apple-ios$/], [/^apple$/, /-apple-/], [/^watch$/, /-apple-watchos/],
  [/^tv$/, /-apple-tvos/], [/^vision$/, /-apple-visionos/], [/^simulator$/, /-sim$|^(x86_64|i386)-apple-(ios|tvos)$/],
  [/^emulator$/, /^(aarch64|x86_64|i686)-linux-android$/], [/^(mobile|phone)$/, /-android|-apple-ios$/],
  [/^(raspberry|pi)$/, /^(aarch64-unknown-linux-(gnu|musl)|arm(v[67])?-unknown-linux-(gnu|musl)eabihf)$/],
  [/^pi1$/, /^arm(v6)?-unknown-linux-(gnu|musl)eabihf$/], [/^(pico|rp2040|nrf51\d*|microbit)$/, /^thumbv6m-/],
  [/^(pi2|beaglebone)$/, /^armv7-unknown-linux-(gnu|musl)eabihf$/], [/^(nrf52\d*|microbit)$/, /^thumbv7em-/],
  [/^pi[345]/, /^(aarch64-unknown-linux-(gnu|musl)|armv7-unknown-linux-(gnu|musl)eabihf)$/],
  [/^(pico2|rp2350)$/, /^thumbv8m\.main-.*hf$|^riscv32imac-unknown-none/], [/^stm32/, /^thumbv[678]e?m/],
  [/^(arduino|uno|attiny\d*|atmega\w*)$/, /^avr-/], [/^esp32c[23]$/, /^riscv32imc-/], [/^esp32p4$/, /^riscv32imafc-/],
  [/^esp32(c[56]|h2)$/, /^riscv32imac-/], [/^armv7a$/, /^(armv7a?|thumbv7(a|neon))-/], [/^webassembly$/, /^wasm/],
  [/^(microcontroller|embedded|bare|metal|cortex)$/, /^(?!.*-linux-).*-none(-e|$)|^avr/],
  [/^(wasmtime|wasmer)$/, /^wasm32-wasi/], [/^(intel|amd|pc)$/, /^(x86_64|i[3-6]86)-/], [/^mainframe$/, /^s390x-/],
  [/^(browser|cloudflare|workers)$/, /^wasm(32|64)-unknown-(unknown|emscripten)/], [/^arm$/, /^(aarch64|arm|thumb)/],
  [/^power([89]|1\d)$/, /^powerpc64le-/], [/^snapdragon$/, /^aarch64-(linux-android|pc-windows-msvc)$/],
  [/^(jetson|graviton\d?|ampere)$/, /^aarch64-unknown-linux-gnu$/], [/^steamdeck$/, /^x86_64-unknown-linux-gnu$/],
  [/^(nvidia|cuda)$/, /^nvptx/], [/^(radeon|rocm)$/, /^amdgcn/], [/^gpu$/, /^(nvptx|amdgcn)/], [/^ebpf$/, /^bpf/],
  [/^(win|windows|microsoft)$/, /-windows-/], [/^win64$/, /^x86_64-.*-windows-/], [/^(msys2?|ucrt64)$/, /-windows-gnu/],
  [/^(ubuntu|debian|fedora|redhat|rhel|centos|alma|rocky|amazon|(open)?suse|arch|mint|nixos)$/, /-linux-gnu/],
  [/^alpine$/, /-linux-musl/], [/^termux$/, /-linux-android/], [/^harmonyos$/, /-linux-ohos$/],
  [/^wsl\d?$/, /^x86_64-unknown-linux-(gnu|musl)$/], [/^raspbian$/, /^arm(v6)?-unknown-linux-gnueabihf$/],
  [/^(aws|ec2|lambda|chrom(e|ium|ebook))$/, /^(aarch64|x86_64)-unknown-linux-(gnu|musl)$/],
  [/^(docker|podman|kubernetes|containers?)$/, /-linux-(gnu|musl)/],
];

// What is one word, and the word that names of targets or ABOUT have for it.
const WORDS = [[/\brisc[- ]v/g, "riscv"], [/\bcortex[- ]m[01]\b\+?/g, "thumbv6m"], [/\bcortex[- ]m3\b/g, "thumbv7m"],
  [/\bcortex[- ]m[47]f?\b/g, "thumbv7em"], [/\bcortex[- ]m23\b/g, "thumbv8m.base"], [/\bmicro:bit\b/g, "microbit"],
  [/\bcortex[- ]m\d\d/g, "thumbv8m.main"], [/\bcortex[- ]r[4578]f?\b/g, "armv7r"], [/\bcortex[- ]r52\b/g, "armv8r"],
  [/\bcortex[- ]a([5789]|1[257]|32)\b/g, "armv7a"], [/\bcortex[- ]a\d+/g, "aarch64"],
  [/\b(raspberry )?(pi )?pico[- ]?(2?)( ?w)?\b/g, "pico$3"], [/\bpi[- ]zero[- ]2( ?w)?\b/g, "pi3"],
  [/\bpi[- ]zero( ?w)?\b/g, "pi1"], [/\br?pi[- ]?(\d)/g, "pi$1"], [/\besp32[- ]([chps]\d)/g, "esp32$1"],
  [/\bsteam ?(deck|os)\b/g, "steamdeck"], [/\bnvidia jetson\b/g, "jetson"], [/\bwindows 7\b/g, "win7"],
  [/\b(iphone|ipad) simulator\b/g, "ios simulator"], [/\b(ibm|system) z\b/g, "mainframe"],
  [/\biphone 5c?\b/g, "armv7s ios"], [/\biphone (3g|4)(s?)\b/g, "iphone$1$2"], [/\bos x\b/g, "osx"]];

// Words that say nothing; and those that a text has of something else than its target.
const SILENT = /^(an?|and|for|in|my|of|on|or|os|the|to|with)$/, FOREIGN = /^(switch|rust)$/;

// The most usual machines, the usual ones, and the usual systems.
const USUAL = [/^aarch64-|^x86_64-(?!apple-|linux-android)/,
  /^(x86_64|aarch64|i686|armv7|thumbv7em|riscv64gc|wasm32)-/,
  /-unknown-(linux-(gnu|musl)(eabihf)?|unknown)$|^(x86_64|aarch64)-apple-darwin$|6(86|4)-(pc|win7)-windows-msvc$/];

const split = (text, by) => text.toLowerCase().split(by).filter(Boolean);

/** What a target is searched by: parts of its names in all tools, and words of its facts and of its values' texts. */
export function about(target, triple, texts) {
  const facts = triple.facts(), { pointerWidth: width, endianness, cLibrary, floatAbi } = facts;
  const names = [target, ...Object.values(triple.names()).filter(Boolean)];
  return { parts: names.flatMap((name) => [name.toLowerCase(), ...split(name, /[-/ .]/)]),
    facts: [...width ? [`${width}`, `${width}bit`, "bit", "bits"] : [], endianness, endianness && "endian", cLibrary,
      floatAbi, floatAbi && "float"],
    texts: Object.entries(texts).flatMap(([field, of]) => split(of[triple[field]] ?? "", /[^a-z0-9]+/)) };
}

/**
 * Those of the targets that most of the words are about: a part of a name in any tool begins so, a fact or ABOUT says
 * it, or, of a word that none of these has, a text. First those in which the words are whole parts, of these those of
 * the usual machines and systems, and the shortest. `unknown` are the words that are about no target, and `isAll` says
 * whether all others are about those that are found.
 */
export function found(query, known) {
  const text = WORDS.reduce((text, [of, word]) => text.replace(of, word), query.toLowerCase());
  const words = split(text, /[^a-z0-9_.]+/).filter((it) => !SILENT.test(it));
  const rows = [...known].map(([target, { parts, facts, texts }]) => {
    const isWhole = (word) => parts.includes(word) || facts.includes(word)
      || ABOUT.some(([of, it]) => of.test(word) && it.test(target));
    const begins = (word) => (words[1] ? /[a-z]./ : /[a-z]/).test(word) && parts.some((it) => it.startsWith(word));
    return [target, words.map((word) => isWhole(word) ? 0 : begins(word) ? 1
      : word.length > 3 && !FOREIGN.test(word) && texts.includes(word) ? 2 : 3)];
  });
  const nearest = words.map((_, at) => Math.min(...rows.map(([, ranks]) => ranks[at])));
  // Beside a word that no target is about, one that only texts have means something else: `google cloud`.
  const isOther = nearest.some((rank, at) => rank === 3 && /[a-z]/.test(words[at])),
    best = nearest.map((rank) => rank === 2 && isOther ? 3 : rank), unknown = words.filter((_, at) => best[at] === 3);
  const misses = (ranks) => ranks.filter((rank, at) => rank > Math.max(best[at], 1)).length,
    fewest = Math.min(...rows.map(([, ranks]) => misses(ranks)));
  const ranked = rows.filter(([, ranks]) => unknown.length < words.length && misses(ranks) === fewest)
    .map(([target, ranks]) => [ranks.reduce((sum, it) => sum + it, 0),
      USUAL.filter((it) => !it.test(target)).length, target.length, target]);
  const order = (one, other) => one.reduce((found, it, at) => found || it - other[at], 0) || 0;
  return { targets: ranked.sort(order).map((it) => it[3]), unknown, isAll: fewest === 0 };
}
