// Tests the calls of target-lexicon.js: node calls.mjs LEXICON_JS ANSWERS. Its last line is `N passed, M failed`.
// ANSWERS is what `test` wrote of the command; the other tests are of what the command doesn't have.
import assert from "node:assert/strict";
import { readFileSync } from "node:fs";
import { inspect } from "node:util";
import { pathToFileURL } from "node:url";
import { rowOf } from "../page/rows.mjs";
import { differences } from "./compare.mjs";

const [script, file_of_answers] = process.argv.slice(2), file = script.replace(/js$/, "wasm");
const all = await import(pathToFileURL(script));
const { DIALECTS, FIELDS, ParseError, Triple, changes, host, load, meanings, namesOf } = all;
const { settleAll, translate, version } = all;
const refusal = (text, call = Triple.parse) => {
  try {
    call(text);
  } catch (error) {
    assert(error instanceof ParseError && error instanceof Error, error);
    assert.equal(error.text.slice(error.start, error.end), error.part);
    return error;
  }
  assert.fail(`${text} was not refused`);
};
const { written: WRITTEN, answers } = JSON.parse(readFileSync(file_of_answers, "utf8"));
const wasm = () => new WebAssembly.Module(readFileSync(file));

// The table of names that the package has. Stars are numbers: 13 and 2 here.
const table = JSON.parse(readFileSync(new URL("names.json", pathToFileURL(script)), "utf8"));
const rows = table.names.map(({ name, triple, ...others }) => ({
  name: name.replace("*", "13").replace("*", "2"),
  triple: triple?.replaceAll("*", name.split("*").length > 2 ? "13.2.0" : "13.0.0"), ...others }));

const tests = {
  "nothing works before the module is loaded": async () => {
    assert.throws(() => Triple.parse("x86_64"), /load/);
    await load(readFileSync(file));
    assert.match(version(), /^\d+\.\d+\.\d+( \([0-9a-f]{12}(-dirty)?\))?$/);
    assert.deepEqual([version().split(" ")[0], DIALECTS], [table.version, table.tools.map((it) => it.tool)]);
    assert.deepEqual(WebAssembly.Module.imports(wasm()), []);
  },
  "targets are found in any text": () => {
    const name = "x86_64-linxu", found = all.targetsIn(`\u00e9 \`avr-none\`: \u{1f600} ${name}, foo`);
    assert.deepEqual(found, [{ text: "avr-none", start: 3, end: 11 }, { text: name, start: 17, end: 29 }]);
    assert.deepEqual([all.targetsIn(""), all.targetsIn("- avr\n".repeat(50000)).length], [[], 50000]);
    assert.throws(() => all.targetsIn(1), TypeError);
  },
  "what is wrong in a text is found": () => {
    const text = "\u00e9 platform: [linux/amd64, linux/amd46, \u{1f600} linux/foo]\ntarget: arm64-apple-darwn22\n",
      found = all.check(text);
    const said = ({ text, part, suggestion, field, isUnclear }) => [text, part, suggestion, field, isUnclear];
    assert.deepEqual(found.map(said),
      [["linux/amd46", "linux/amd46", "linux/amd64", null, false], ["linux/foo", "linux/foo", null, null, true],
        ["arm64-apple-darwn22", "darwn22", "darwin22", "operatingSystem", false]]);
    assert.deepEqual(found.map(({ start, end }) => text.slice(start, end)), found.map(({ part }) => part));
    assert.deepEqual([all.check(""), all.check("target: x86_64-linux-gnuu\n".repeat(500)).length], [[], 500]);
    assert.throws(() => all.check(1), TypeError);
  },
  "answers are the command's": () => {
    assert(answers.facts.length > 20000 && Object.keys(answers).length > 30);
    assert.deepEqual(differences({ ...all, WRITTEN }, answers).slice(0, 5), []);
  },
  "what the page says of a target": () => {
    const said = (text) => {
      const { kind, wrong, suggestion = null, tools = [], others, nearest = [] } = rowOf(all, text, []);
      return [kind, wrong?.part ?? null, suggestion, ...tools,
        ...nearest.map(({ name, tools }) => `${name} of ${tools}`),
        ...others.map(({ tools, meant, reason }) => `${tools}: ${meant ?? reason}`)];
    };
    for (const [text, ...wanted] of [
      ["arm-unknown-linux-gnueabihf", "other", null, null], ["x86_64-sony-linux", "other", null, null],
      ["x86_64-linx-gnu", "suspicious", "linx", "linux"], ["x86_64-pc-windws-msvc", "refused", "windws", "windows"],
      ["aarch64-macos", "suspicious", "macos", null, "spelling: aarch64-unknown-macosx", "zig: aarch64-apple-darwin"],
      ["i686-w64-windows-gnu", "suspicious", "w64", null, "spelling: i686-pc-windows-gnu"],
      ["amd64", "other", null, null, "debian", "rpm", "go: a machine without a system",
        "oci: half of a platform: containerd adds that of the host"],
      ["linux/amd46", "refused", "linux/amd46", null, "linux/amd64 of go,oci"], ["amd65", "refused", "amd65", null],
      ["linux/amd65", "refused", "amd65", "amd64"], ["linux/arm/v9", "refused", "linux/arm/v9", null],
      ["universal2", "refused", "universal2", null, "python: x86_64-apple-darwin", "python: aarch64-apple-darwin"],
    ]) assert.deepEqual(said(text), wanted);
    const { triple, stated, fields } = rowOf(all, "linux/arm64", ["musl"]);
    assert.deepEqual([`${triple}`, `${stated}`, fields.environment],
      ["aarch64-unknown-linux-musl", "aarch64-unknown-linux", { origin: "chosen", part: "musl" }]);
    // None of rustc's targets is suspicious or has a suggestion, and each that is refused has one reason.
    for (const { name } of rows.filter((it) => it.tool === "rust" && it.sources.includes("rustc"))) {
      const { kind, suggestion = null, others } = rowOf(all, name, []);
      assert(kind !== "suspicious" && suggestion === null && others.every((it) => it.reason), name);
      assert(kind === "refused" ? others.length === 1 : others.length < 2, name);
    }
  },
  "names in dialects are those of the table": () => {
    const counts = { read: 0, written: 0, reason: 0 };
    for (const { tool, name, triple, read, written, reason } of rows) {
      if (read) assert.equal(`${Triple.read(name, tool)}`, triple, name), counts.read++;
      if (written) assert.equal(Triple.parse(triple).nameIn(tool), name, name), counts.written++;
      if (reason) assert.equal(refusal(name, (it) => Triple.read(it, tool)).reason, reason, name), counts.reason++;
    }
    assert(counts.read > 200 && counts.written > 200 && counts.reason > 30, JSON.stringify(counts));
    assert(table.names.every(({ reason }) => !/--/.test(reason ?? "")), "a reason names an option of the command");
    assert.equal(Triple.read("linux/arm64", "docker").nameIn("npm"), "linux-arm64");
  },
  "a triple never changes": () => {
    const it = Triple.parse("aarch64-acme_1.0-ios65535.255.255");
    assert.deepEqual({ ...it }, { architecture: "aarch64", vendor: "acme_1.0", operatingSystem: "ios",
      environment: "unknown", binaryFormat: "macho",
      version: { major: 65535, minor: 255, patch: 255 }, hasCustomVendor: true });
    for (const change of [() => (it.vendor = "pc"), () => (it.version.major = 1), () => (it.canonical = "x"),
      () => new Triple()]) assert.throws(change, TypeError);
    assert.equal(JSON.stringify([Triple.parse("wasm32-unknown-wasi")]), '["wasm32-wasi"]');
    assert(!it.sameTarget(Triple.parse("aarch64-acme_1.1-ios65535.255.255")) &&
      !it.equals(Triple.parse("aarch64-acme_1.1-ios65535.255.255")));
    const odd = Triple.parse("clever-unknown-unknown-none");
    assert.deepEqual([odd.comesBack(), odd.equals(odd.settle()), odd.sameTarget(odd.settle())], [false, false, true]);
  },
  "each export and each member has a type": () => {
    const types = readFileSync(script.replace(/js$/, "d.ts"), "utf8"), triple = Triple.parse("x86_64");
    assert.deepEqual([...types.matchAll(/^export (?:class|const|function) (\w+)/gm)].map((it) => it[1]).sort(),
      Object.keys(all).sort());
    const members = [Triple, Triple.prototype, triple].flatMap(Object.getOwnPropertyNames)
      .filter((it) => !["length", "name", "prototype"].includes(it));
    for (const it of members)
      assert.match(types.match(/export class Triple \{(.*?)^\}/ms)[1],
        new RegExp(`^  (?:private |static |readonly |get )*${it}[(:]`, "m"));
    for (const it of [...Object.keys(refusal("")), "suggestion", "report"].filter((it) => it !== "name"))
      assert.match(types, new RegExp(`^  readonly ${it}: `, "m"));
  },
  "ranges are in units of UTF-16": () => {
    for (const [text, field, part, start] of [
      ["", "architecture", "", 0], ["x86_64-\u{1f600}-b", "vendor", "\u{1f600}", 7],
      ["\ufeffx86_64", "architecture", "\ufeffx86_64", 0], ["x86_64-elf-linux", null, "linux", 11],
      ["x86_64-linux-gnu-中文-中", "binaryFormat", "中文", 17], ["x86_64-\udc00-linux", "vendor", "\udc00", 7],
      [`${"x".repeat(99)}\ude00`, "architecture", `${"x".repeat(99)}\ude00`, 0],
    ]) {
      const error = refusal(text);
      assert.deepEqual([error.field, error.part, error.start, error.end, Triple.tryParse(text)],
        [field, part, start, start + part.length, null], JSON.stringify(text));
    }
    assert.deepEqual(changes("amd64-\u{1f600}-macos13").slice(1),
      [{ part: "macos13", start: 9, end: 16, names: "macosx13" }]);
    const { fields, error } = Triple.explain("arm64-acme-\u{1f600}-x");
    assert.deepEqual([fields.vendor, error.start, error.end],
      [{ value: "acme", origin: "given", part: "acme", start: 6, end: 10 }, 11, 13]);
    assert.deepEqual([fields.architecture.value, fields.operatingSystem],
      ["aarch64", { value: null, origin: "not given", part: null }]);
    assert.throws(() => Triple.of({ vendor: "\ud800" }), RangeError);
  },
  "an error of a name": () => {
    const error = (...words) => refusal(words[0],
      () => (words.length > 2 ? translate(...words) : Triple.read(...words)));
    const unknown = error("linux/amd46", "go"), without = error("sunos-x64", "node"),
      unsaid = error("linux/arm64", "oci", "debian"), none = error("windows/amd64", "oci", "debian", "musl");
    const said = ({ message, field, suggestion, needsLibc }) => [message.split("\n")[0], field, suggestion, needsLibc];
    assert.deepEqual([unknown, without, unsaid, none].map(said), [
      ["Unknown name: linux/amd46", null, "linux/amd64", false],
      ["No triple has this name: sunos-x64", null, null, false],
      ["No name in the other dialect: linux/arm64", null, null, true],
      ["No name in the other dialect: windows/amd64", null, null, false]]);
    assert(unsaid.message.endsWith("^ it depends on the C library: say glibc or musl"));
    for (const it of [unknown, without, unsaid, none]) assert.equal(it.message, it.report);
    assert.equal(unknown.report, "Unknown name: linux/amd46\n  linux/amd46\n  ^^^^^^^^^^^ did you mean `linux/amd64`?");
    assert.equal(without.report,
      "No triple has this name: sunos-x64\n  sunos-x64\n  ^^^^^^^^^ two systems: Solaris and illumos");
    assert.deepEqual([unknown.reason, unsaid.reason, refusal("x86_64-pc-linx").reason],
      [null, Triple.parse("arm64-linux").reasonWithoutName("debian"), null]);
    assert.deepEqual([Triple.parse("arm64-linux").reasonWithoutName("go"), error("linx", null, "oci").field],
      [null, "architecture"]);
  },
  "an error says in its message and in JSON what was meant, and which call reads the name of another tool": () => {
    const note = "\n  note: it is a name of another tool: use ", other = (text) => refusal(text).message.split(note)[1];
    assert.equal(refusal("x86_64-pc-linx").message,
      "Unrecognized operating system: linx\n  x86_64-pc-linx\n            ^^^^ did you mean `linux`?");
    assert.equal(other("linux/amd64"), 'Triple.read(text, "go") or Triple.read(text, "oci")');
    assert.equal(other("amd64-pc-freebsd13.2"), "Triple.read(text)");
    for (const [text, said] of [["js/wasm", "go without a triple: a module for Go's own JavaScript; "],
      ["macosx_11_0_universal2", "python without a triple: several machines"]])
      assert(refusal(text).message.split("\n")[3].startsWith(`  note: it is a name of ${said}`), text);
    for (const text of ["x86_64-linux-foo", "linux/amd46", "foo"])
      assert.equal(refusal(text).message, refusal(text).report);
    const error = refusal("linux/amd64"), { name, message, field, text, part, start, end } = error;
    const { suggestion, reason, needsLibc } = error;
    assert.deepEqual(JSON.parse(JSON.stringify({ error })).error,
      { name, message, field, text, part, start, end, suggestion, reason, needsLibc });
    error.message = "mine";
    assert.deepEqual([error.message, JSON.parse(JSON.stringify(error)).message], ["mine", "mine"]);
  },
  "the module is asked no more than it must, and is replaced after an exception": () => {
    const { Instance } = WebAssembly, asked = [];
    let made = 0, isCutOff = false;
    const counted = ([name, it]) => [name, typeof it !== "function" ? it : (...values) => {
      if (isCutOff) throw new Error("cut off");
      asked.push(name.replace("lexicon_", ""));
      return it(...values);
    }];
    WebAssembly.Instance = function (module) {
      made++;
      return { exports: Object.fromEntries(Object.entries(new Instance(module).exports).map(counted)) };
    };
    load(wasm());
    const askedBy = (call) => (asked.length = 0, call(), asked.join(" "));
    assert.equal(askedBy(() => Triple.tryParse("x86_64-pc-linx")), "parse");
    assert.equal(askedBy(() => refusal("x86_64-pc-linx")), "parse suggestion error_text");
    assert.equal(askedBy(() => refusal("aarch64--netbsd")), "parse suggestion error_text note readers");
    assert.equal(askedBy(() => refusal("linux/amd46", (it) => Triple.read(it, "go"))),
      "read name_suggestion error_text note");
    assert.equal(askedBy(() => settleAll(["avr", "x", "arm64"])), "settle_lines");
    assert.equal(askedBy(() => all.check("target: x86_64-linxu")), "check"); // once, though its answer has any length
    isCutOff = true;
    assert.throws(() => Triple.parse("avr"), { message: "cut off" });
    isCutOff = false;
    assert.deepEqual([made, Triple.parse("avr").vendor, made], [1, "unknown", 2]);
    WebAssembly.Instance = Instance;
    load(wasm());
  },
  "an error has its stack and its report, in another thread too": () => {
    const error = refusal("x86_64-pc-linx"), other = refusal("x86_64-linux-gnuu");
    for (let i = 0; i < 100; i++) Triple.parse("avr").facts();
    assert.deepEqual([error.suggestion, other.suggestion, error.suggestion, refusal("x86_64-\u{1f600}").suggestion],
      ["linux", "gnu", "linux", null]);
    assert(error.stack.startsWith(`ParseError: ${error.report}\n`) && /\n +at .*calls\.mjs/.test(error.stack));
    assert.equal(inspect(error).split("\n")[2], "            ^^^^ did you mean `linux`?");
    assert.equal(structuredClone(error).message, error.message); // as it comes from a worker
    assert.equal(refusal("x86_64-\u{1f600}\n-x").report,
      "Unrecognized vendor: \\u{1f600}\\n\n  x86_64-\\u{1f600}\\n-x\n         ^^^^^^^^^^^");
  },
  "a wrong argument has its error": () => {
    const linux = Triple.parse("x86_64-unknown-linux-gnu"), ios = Triple.parse("aarch64-apple-ios17");
    const values = "values is an object such as { architecture: \"x86_64\" }, not ",
      form = "version is an object such as { major: 17, minor: 2 }, not ";
    const whole = (part, most) => `a version's ${part} is a whole number up to ${most}`;
    for (const call of [Triple.parse, Triple.tryParse, Triple.explain, Triple.read, changes, meanings,
      (it) => Triple.read(it, "go")]) {
      for (const [it, kind] of [[7, "a number"], [7n, "a bigint"], [null, "null"], [["avr"], "an array"],
        [new String("avr"), "a String"], [() => "avr", "a function"]])
        assert.throws(() => call(it), { name: "TypeError", message: `text is a string, not ${kind}` }, `${call}`);
    }
    for (const [kind, message, ...calls] of [
      [TypeError, "targets is an iterable of strings, not a number", () => settleAll(7)],
      [TypeError, "targets is an iterable of strings, not a string", () => settleAll("avr")],
      [TypeError, "targets[1] is a string, not null", () => settleAll(["avr", null])],
      [TypeError, "other is a Triple, not a string", () => linux.equals("x"), () => linux.sameTarget("x")],
      [TypeError, "name is a string, not an object", () => translate({}, "go", "oci")],
      [TypeError, "from is a string, not an object", () => translate("x", {}, "oci")],
      [TypeError, "to is a string, not null", () => translate("x", "go", null)],
      [TypeError, "dialect is a string, not undefined", () => linux.nameIn(), () => linux.reasonWithoutName()],
      [TypeError, "dialect is a string, not a symbol", () => Triple.read("x", Symbol("go"))],
      [TypeError, "libc is a string, not an object", () => linux.complete({}), () => translate("x", "go", "oci", {})],
      [TypeError, "field is a string, not a number", () => namesOf(7)],
      [TypeError, "versions is an object such as { glibc: { major: 2, minor: 17 } }, not a string",
        () => linux.nameIn("python", "2.17"), () => translate("linux/amd64", "go", "python", "glibc", "2.17")],
      [TypeError, "there is no dialect Debian; did you mean debian?", () => linux.nameIn("Debian"),
        () => linux.reasonWithoutName("Debian"), () => translate("x", "Debian", "go"),
        () => translate("x", "go", "Debian")],
      [TypeError, "there is no dialect golang; did you mean go?", () => Triple.read("x", "golang")],
      [TypeError, "there is no dialect deb; did you mean debian?", () => Triple.read("x", "deb")],
      [TypeError, "there is no dialect dotent; did you mean dotnet?", () => linux.nameIn("dotent")],
      [TypeError, "there is no dialect Docker; did you mean docker?", () => linux.nameIn("Docker")],
      [TypeError, `there is no dialect podman: they are ${DIALECTS.join(", ")}`, () => linux.nameIn("podman")],
      [TypeError, "there is no C library MUSL; did you mean musl?", () => linux.complete("MUSL"),
        () => translate("amd64", "debian", "go", "MUSL")],
      [TypeError, "there is no C library gnu; did you mean glibc or mingw?", () => linux.complete("gnu")],
      [TypeError, "a triple has no os", () => namesOf("os"), () => Triple.of({ os: "linux" }),
        () => linux.with({ os: "linux" })],
      [TypeError, `${values}undefined`, () => Triple.of(), () => linux.with()],
      [TypeError, `${values}null`, () => Triple.of(null)],
      [TypeError, `${values}an array`, () => Triple.of(["x86_64"])],
      [TypeError, `${values}a Map`, () => Triple.of(new Map([["architecture", "x86_64"]]))],
      [TypeError, `${values}an Error`, () => linux.with(new Error("avr"))],
      [TypeError, `${values}a string`, () => Triple.of("avr"), () => linux.with("avr")],
      [TypeError, "architecture is a string, not a number", () => Triple.of({ architecture: 7 })],
      [TypeError, "environment is a string, not a symbol", () => linux.with({ environment: Symbol("x") })],
      [RangeError, "no environment has the name mulsl; did you mean musl?", () => linux.with({ environment: "mulsl" })],
      [RangeError, "no vendor has the name ACME", () => Triple.of({ vendor: "ACME" })],
      [RangeError, "no architecture has the name amd64; did you mean x86_64?",
        () => Triple.of({ architecture: "amd64" })],
      [RangeError, "no operatingSystem has the name ios17; did you mean ios?",
        () => Triple.of({ operatingSystem: "ios17" })],
      [RangeError, "no operatingSystem has the name win32; did you mean windows?",
        () => Triple.of({ operatingSystem: "win32" })],
      [RangeError, "no vendor has the name linux", () => Triple.of({ vendor: "linux" })],
      [RangeError, "the operating system linux has no version", () => linux.with({ version: { major: 1 } })],
      [RangeError, "a name states at most two numbers of a version",
        () => linux.nameIn("python", { glibc: { major: 2, minor: 17, patch: 1 } })],
      [TypeError, "there are no versions of gnu", () => linux.nameIn("python", { gnu: { major: 2 } })],
      ...[[TypeError, `${form}an array`, [17, 2]], [TypeError, `${form}a string`, "17.2"],
        [TypeError, "a version has a major: { major: 17, minor: 2 }", {}],
        [TypeError, "a version has no micro", { major: 17, micro: 2 }],
        [RangeError, whole("major", 65535), { major: 65536 }],
        [TypeError, "major is a number, not a string", { major: "17" }],
        [RangeError, whole("minor", 255), { major: 1, minor: -1 }],
        [RangeError, whole("patch", 255), { major: 1, patch: 1.5 }],
      ].map(([kind, message, it]) => [kind, message, () => ios.with({ version: it }),
        () => Triple.of({ operatingSystem: "ios", version: it }), () => ios.nameIn("python", { ios: it })]),
    ]) for (const call of calls) assert.throws(call, (it) => it.constructor === kind && it.message === message,
      `${message}: ${call}`);
  },
  "a name with a version": () => {
    const named = (text, version) => [Triple.parse(text).nameIn("python", version),
      Triple.parse(text).reasonWithoutName("python", version)?.slice(-19) ?? null];
    const versions = { glibc: { major: 2, minor: 17 }, macos: { major: 11 } };
    assert.deepEqual(named("x86_64-unknown-linux-gnu", versions), ["manylinux_2_17_x86_64", null]);
    assert.deepEqual(named("aarch64-apple-darwin", versions), ["macosx_11_0_arm64", null]);
    assert.deepEqual(named("arm64-apple-darwin", { macos: { major: 2, minor: 17 } }), [null, "macOS 10.x or later"]);
    assert.equal(named("x86_64-unknown-freebsd", versions)[0], null);
    assert.equal(translate("linux/amd64", "oci", "python", "glibc", versions), "manylinux_2_17_x86_64");
  },
  "many targets are one call": () => {
    const targets = ["arm64-linux-gnu", "x86_64-pc-linx", "", "x86_64-linux\n", "x86_64-\udc00-linux",
      "x86_64-\u{1f600}", `arm64-${"a".repeat(500)}-linux`, "arm64-linux\r", "avr",
      ...Array.from({ length: 50000 }, (_, at) => `arm64-apple-ios${at % 250}.${at % 199}`)];
    assert.deepEqual(settleAll(targets), targets.map((it) => Triple.tryParse(it)?.canonical ?? null));
    assert.deepEqual([settleAll([]), settleAll([""]), settleAll(new Set(["avr"]))],
      [[], [null], ["avr-unknown-unknown"]]);
  },
  "names of fields": () => {
    for (const field of FIELDS)
      for (const name of namesOf(field)) assert.equal(Triple.of({ [field]: name })[field], name);
    assert.deepEqual([Triple.of({ architecture: "arm64" }).architecture, Triple.of({ vendor: "acme" }).hasCustomVendor],
      ["aarch64", true]);
    for (const values of [{ vendor: "ACME" }, { environment: "bar" }, { operatingSystem: "macosx10.7" }])
      assert.throws(() => Triple.of(values), RangeError);
    assert.deepEqual(["FAMILIES", "numberOf", "numbers"].filter((it) => it in all || it in Triple.parse("avr")), []);
  },
  "a triple of values": () => {
    const ios = Triple.parse("aarch64-apple-ios17"), linux = Triple.parse("x86_64-unknown-linux-gnu");
    assert(Triple.of({ architecture: "arm64", vendor: "apple", operatingSystem: "ios",
      version: { major: 17 } }).equals(ios));
    assert.deepEqual(["elf", "unknown", "unknown"],
      [Triple.of({ operatingSystem: "linux" }), Triple.of({ operatingSystem: "linux", binaryFormat: "unknown" }),
      Triple.of({})].map((it) => it.binaryFormat));
    for (const [triple, printed] of [
      [linux.with({ operatingSystem: "windows" }), "x86_64-unknown-windows-gnu"],
      [Triple.parse("x86_64-linux-macho").with({ operatingSystem: "windows" }), "x86_64-unknown-windows-macho"],
      [ios.with({ vendor: "acme" }), "aarch64-acme-ios17.0.0"],
      [ios.with({ operatingSystem: "tvos" }), "aarch64-apple-tvos"], [ios.with({ version: null }), "aarch64-apple-ios"],
      [ios.with({ version: { major: 17, minor: 2 } }), "aarch64-apple-ios17.2.0"],
      // What is undefined is as if left out, as in a call that passes its own optional argument on.
      [linux.with({ environment: undefined, version: undefined, binaryFormat: undefined }), `${linux}`],
      [ios.with({ operatingSystem: undefined }), `${ios}`],
      [Triple.of({ architecture: undefined }), "unknown-unknown-unknown"],
    ]) assert.equal(`${triple}`, printed);
  },
  "a triple that was spread, cloned, sent or shown": async () => {
    for (const text of ["x86_64-acme-linux-gnu", "arm64-apple-ios17.1", "x86_64-linux-macho", "unknown"]) {
      const it = Triple.parse(text), { port1, port2 } = new MessageChannel();
      const sent = new Promise((resolve) => { port2.onmessage = ({ data }) => resolve(data); });
      port1.postMessage(it);
      for (const copy of [{ ...it }, structuredClone(it), await sent, it])
        assert(Triple.of(copy).equals(it) && it.with(copy).equals(it), text);
      port1.close();
    }
    const pc = Triple.of({ ...Triple.parse("x86_64-acme-linux"), vendor: "pc" }),
      odd = Triple.parse("clever-unknown-unknown-none");
    assert.deepEqual([pc.hasCustomVendor, `${pc}`], [false, "x86_64-pc-linux"]);
    assert.equal(inspect([Triple.parse("avr")]), '[ Triple.parse("avr-unknown-unknown") ]');
    assert(Triple.of(JSON.parse(inspect(odd).match(/^Triple\.of\((.*)\)$/)[1])).equals(odd));
  },
  "the host": () => {
    const process = Object.getOwnPropertyDescriptor(globalThis, "process");
    const hostOf = (arch, platform, variables = {}, header = {}) => {
      const report = header && { excludeNetwork: false, getReport() {
        return { header: this.excludeNetwork && header };
      } };
      Object.defineProperty(globalThis, "process",
        { value: { arch, platform, config: { variables }, report }, configurable: true });
      try {
        return `${host()}`;
      } finally {
        Object.defineProperty(globalThis, "process", process);
        assert(!report?.excludeNetwork);
      }
    };
    const glibc = { glibcVersionRuntime: "2.36" };
    for (const [wanted, ...given] of [
      ["x86_64-unknown-linux-gnu", "x64", "linux", {}, glibc], ["x86_64-unknown-linux-musl", "x64", "linux"],
      ["armv6-unknown-linux-gnueabihf", "arm", "linux", { arm_version: "6" }, glibc],
      ["armv7-linux-androideabi", "arm", "android"],
      ["powerpc64le-unknown-linux-gnu", "ppc64", "linux", { node_byteorder: "little" }, glibc],
      ["powerpc64-ibm-aix", "ppc64", "aix"], ["x86_64-unknown-linux", "x64", "linux", {}, null],
      ["powerpc64-unknown-linux-gnu", "ppc64", "linux", { node_byteorder: "big" }, glibc],
      ["aarch64-apple-darwin", "arm64", "darwin"], ["i686-pc-windows-msvc", "ia32", "win32"],
      ["x86_64-unknown-unknown-elf", "x64", "beos"], ["x86_64-unknown-unknown-elf", "x64", "sunos"],
      ["riscv64gc-unknown-freebsd", "riscv64", "freebsd"], ["unknown-unknown-linux", "vax", "linux"],
    ]) assert.equal(hostOf(...given), wanted);
    for (const { name } of rows.filter((it) => it.tool === "node" && it.read && it.written)) {
      if (name === "wasm32-wasi") continue; // napi-rs's, of no host
      const [platform, arch, library] = name.split("-"), named = Triple.read(name, "node");
      const found = Triple.parse(hostOf(arch, platform, {},
        { gnu: glibc, gnueabihf: glibc, gnuabi64: glibc, musl: {}, musleabihf: {}, muslabi64: {} }[library] ?? null));
      assert.deepEqual([found.facts().family, found.vendor, found.operatingSystem, found.environment],
        [named.facts().family, named.vendor, named.operatingSystem, platform === "win32" ? "msvc" : named.environment],
        name);
    }
    assert.throws(() => hostOf(undefined, undefined), /Node/);
    for (const [name, meant] of [["Linux_x86_64", "x86_64-unknown-linux"], ["macOS_arm_64", "aarch64-apple-darwin"],
      ["Windows_x86_32", "i686-pc-windows"]]) assert.equal(`${meanings(name)[0].triple}`, meant); // by userAgentData
    assert.equal(host().facts().endianness, "little");
  },
  "what Node says of itself is a name, or has a reason": () => {
    const without = [];
    for (const [platform, system, machines] of [
      ["aix", "aix", "ppc ppc64"], ["android", "linux", "arm arm64 ia32 riscv64 x64"],
      ["darwin", "darwin", "arm64 ia32 x64"], ["freebsd", "freebsd", "arm arm64 ia32 ppc64 riscv64 x64"],
      ["linux", "linux", "arm arm64 ia32 loong64 mips mipsel mips64el ppc ppc64 riscv64 s390 s390x x32 x64"],
      ["netbsd", "netbsd", "arm arm64 ia32 x64"], ["haiku", "haiku", "ia32 x64"], ["sunos", null, "ia32 x64"],
      ["openbsd", "openbsd", "arm arm64 ia32 ppc64 riscv64 x64"], ["win32", "windows", "arm arm64 ia32 x64"],
    ]) {
      for (const name of machines.split(" ").map((machine) => `${platform}-${machine}`)) {
        if (meanings(name).some((it) => it.dialect === "node" && it.reason)) without.push(name);
        else assert.equal(Triple.read(name, "node").operatingSystem, system, name);
      }
    }
    assert.deepEqual(without, ["freebsd-ppc64", "linux-ppc", "linux-s390", "linux-x32", "sunos-ia32", "sunos-x64"]);
  },
  "strings of any length": () => {
    for (const size of [60, 64, 65, 128, 65535, 65536, 300000, 30000000]) {
      const vendor = "a".repeat(size), it = Triple.parse(`x86_64-${vendor}-linux`);
      assert(it.vendor === vendor && [`${it}`, it.llvmTarget()].every((string) => string === `x86_64-${vendor}-linux`),
        `${size}`);
      assert(it.equals(it) && it.settle().vendor === vendor && it.comesBack() &&
        it.rustcCfg().target_vendor === vendor);
      const error = refusal(`x86_64-${"\u{1f600}".repeat(size / 60)}`);
      assert(error.start === 7 && error.message.startsWith(`Unrecognized vendor: \\u{1f600}`));
      assert.equal(`${Triple.parse("wasm32-unknown-wasi")}`, "wasm32-wasi");
    }
    assert.equal(refusal("-".repeat(1000000)).end, 0);
    assert.deepEqual(refusal(`x86_64-${"a".repeat(999)}-${"Z".repeat(999)}-${"b".repeat(999)}`).report,
      [`Unrecognized operating system: ${"Z".repeat(200)}...`,
        `  ...${"a".repeat(199)}-${"Z".repeat(200)}...-${"b".repeat(199)}...`,
        `  ${" ".repeat(203)}${"^".repeat(203)}`].join("\n"));
  },
  "a full stack spoils nothing, and the module can be loaded again": () => {
    const before = Triple.parse("x86_64-acme-linux"), deeper = () => {
      Triple.parse("x86_64-unknown-linux-gnu").facts();
      deeper();
    };
    assert.throws(deeper, RangeError);
    for (let i = 0; i < 3; i++) assert.equal(`${Triple.parse("wasm32-unknown-wasi")}`, "wasm32-wasi");
    load(wasm());
    assert(before.equals(Triple.parse("x86_64-acme-linux")));
  },
};

let failed = 0;
for (const [name, test] of Object.entries(tests)) {
  try {
    await test();
  } catch (error) {
    failed++;
    console.log(`FAILED ${name}: ${error.stack}`);
  }
}
console.log(`${Object.keys(tests).length - failed} passed, ${failed} failed`);
process.exit(failed ? 1 : 0);
