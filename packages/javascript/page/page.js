// The page: shows the targets and names of the text field in the table. rows.mjs says what they are, entries.mjs what
// is copied, search.mjs what is found. `build` puts target-lexicon.js, the module, these and this file into one script.
import { DIALECTS, FIELDS, WRITTEN } from "../src/names.js";
import { ParseError, Triple, check, load, meanings, targetsIn, translate } from "../src/target-lexicon.js";
import { namesEntry, toolNames, versionOf } from "./entries.mjs";
import { byReason, driverFacts, factsCopied, grouped, plainRow, rowOf } from "./rows.mjs";
import { about, found } from "./search.mjs";

const lexicon = { DIALECTS, FIELDS, ParseError, Triple, WRITTEN, check, meanings, translate };

const LABELS = { architecture: "Architecture", vendor: "Vendor", operatingSystem: "System", environment: "Environment",
  binaryFormat: "Format" };
// The tools as they write themselves, where that isn't the dialect's name with a capital. A string that is only spelled
// like a triple is LLVM's.
const TOOLS = { oci: "containers", gnu: "GNU", rust: "rustc", uname: "uname", rpm: "RPM", apk: "apk", pacman: "pacman",
  dotnet: ".NET", conda: "conda", spelling: "LLVM", triple: "a triple" };
const toolName = (tool) => TOOLS[tool] ?? tool[0].toUpperCase() + tool.slice(1);
// The targets of which there are chips, with the word for one and for more. Those of a kind that is a mistake come
// first.
const KINDS = { all: ["target", "targets"], refused: ["refused"], suspicious: ["suspicious"],
  duplicate: ["duplicate", "duplicates"] };
const ORDER = ["refused", "suspicious", "other"];
const LONGEST_LINK = 32000;
const SLICE = 30; // milliseconds of work between two chances for input
const MOST_FOUND = 12;
const UNFOLDED = 3; // of more targets than these, the names in other tools are folded, and on a phone the cards

const byId = (id) => document.getElementById(id);
const field = byId("targets"), table = byId("table");

const element = (name, attributes = {}, ...inside) => {
  const made = document.createElement(name);
  for (const [attribute, value] of Object.entries(attributes)) made.setAttribute(attribute, value);
  made.append(...inside);
  return made;
};
/**
 * A string of the user as it is shown: all but printable ASCII is escaped, and of a long one only the ends are there.
 * The text field has the whole.
 */
const HIDDEN = /[^ -~]/gu;
const SHOWN = 60, HEAD = 36;
function shown(text) {
  const letters = [...text.replace(HIDDEN, (it) => `\\u{${it.codePointAt(0).toString(16)}}`)];
  return letters.length <= SHOWN ? letters.join("")
    : `${letters.slice(0, HEAD).join("")}\u2026${letters.slice(HEAD - SHOWN).join("")}`;
}
const code = (text) => element("code", {}, shown(text));
const small = (...inside) => element("small", {}, ...inside);
const dim = (...inside) => element("span", { class: "dim" }, ...inside);
const cell = (label, ...inside) =>
  element("td", { role: "cell", "data-label": label }, element("div", {}, ...inside));

/**
 * The targets in a text, and the words that `check` refuses, which may be spelled like none. A list has only items. Of
 * another text `others` are words that may be targets: names of a machine only, and those that aren't understood, which
 * are items if no other word is one.
 */
function wordsIn(text) {
  const targets = targetsIn(text), starts = [...targets.map((it) => it.start), Infinity],
    rest = starts.map((start, index) => text.slice(targets[index - 1]?.end ?? 0, start)).join(" ");
  if (!/\w/.test(rest)) return { items: targets, others: [] };
  const wordOf = (it, start = text.lastIndexOf(it.text, it.start)) => ({ ...it, start, end: start + it.text.length }),
    refused = check(text).map((it) => wordOf(it)).filter((it) => !starts.includes(it.start)),
    certain = refused.filter((it) => !it.isUnclear), hasCertain = targets.length + certain.length > 0;
  const items = [...targets, ...hasCertain ? certain : refused].sort((one, other) => one.start - other.start),
    words = new Set(rest.replace(/(^|\s)#.*/gm, "").match(/[\w./+-]+/g)),
    machines = targetsIn(`arch: ${[...words].join(" ")}`).filter((it) => /^\w+$/.test(it.text));
  const others = new Set([...refused, ...machines].map((it) => it.text));
  for (const { text } of items) others.delete(text);
  return { items, others: [...others] };
}

let lastRead = {}; // the last text, and its words
const wordsOf = (text) => lastRead.text === text ? lastRead : lastRead = { text, ...wordsIn(text) };
const linesOf = (text) => wordsOf(text).items.map((item) => item.text);

// ---- rows

function markOf({ origin, part }, text, isCustom) {
  if (isCustom) return [small("custom")];
  if (origin === "chosen") return [small("chosen")];
  if (origin === "alias")
    return [part === text && part.includes("-") ? small("from the whole") : small("alias ", code(part))];
  return origin === "implied" ? [element("span", { class: "aside" }, " implied")] : [];
}

function fieldCell(triple, name, source, text) {
  const value = code(triple[name] + (name === "operatingSystem" ? versionOf(triple) ?? "" : ""));
  if (source.part === null) value.className = "dim";
  return cell(LABELS[name], value, ...markOf(source, text, name === "vendor" && triple.hasCustomVendor));
}

function offer(name, text, fixed) {
  const button = element("button",
    { type: "button", class: "offer", "aria-label": `${shown(name)}: replace ${shown(text)} by ${shown(fixed)}` },
    shown(name));
  button.addEventListener("click", () => replaceTarget(text, fixed));
  return button;
}

/** The question whether another name was meant by a part. */
const question = (name, text, { start, end }) =>
  ["Did you mean ", offer(name, text, text.slice(0, start) + name + text.slice(end)), "?"];

const header = (text, ...inside) => element("th", { role: "rowheader", scope: "row" },
  element("div", { class: "target" }, ...inside.map((it) => typeof it === "string" ? shown(it) : it)));

/** The printed form, where that is neither the target nor its canonical form, and the latter. */
function* forms(triple, text) {
  const printed = `${triple}`, { canonical } = triple;
  if (printed !== text && printed !== canonical) yield small("prints ", code(printed));
  yield canonical === text ? small("is canonical") : small("canonical: ", code(canonical));
}

function foldButton(row, text) {
  const button = element("button", { type: "button", class: "fold", "aria-label": `Details of ${shown(text)}` });
  row.fold = (isFolded) => {
    row.classList.toggle("folded", isFolded);
    button.setAttribute("aria-expanded", !isFolded);
  };
  button.addEventListener("click", () => {
    row.fold(!row.classList.contains("folded"));
    if (!row.classList.contains("folded")) row.showNames(true);
  });
  return button;
}

const listOf = (words) => words.length < 2 ? words.join()
  : `${words.slice(0, -1).join(", ")} and ${words[words.length - 1]}`;
const toolsOf = (tools) => listOf(tools.map(toolName));

/** The C libraries that are chosen for targets that state none. */
const CHOICES = ["linux", "windows"];
const chosenLibcs = () => CHOICES.map((id) => byId(id).value).filter(Boolean);

/** A name that a click copies. */
function copied(name) {
  const button = element("button", { type: "button", class: "copied", "aria-label": `Copy ${shown(name)}` },
    code(name));
  button.addEventListener("click", () => copy(button, name, `Copied ${shown(name)}.`));
  return button;
}

const pair = (term, ...answer) => element("div", {}, element("dt", {}, term), element("dd", {}, ...answer));

/** What each tool calls the target of a row, and for those that have no name why. */
function namesShown({ text, stated: triple, level, tools }) {
  const { names, reasons } = toolNames(lexicon, text, { triple, level, tools }, chosenLibcs());
  const named = WRITTEN.filter((dialect) => names[dialect] !== null);
  const list = element("dl", {}, ...named.map((dialect) => pair(toolName(dialect), copied(names[dialect]))));
  const noneIn = ([reason, tools]) => element("p", {}, dim(`None in ${toolsOf(tools)}: `), `${reason}.`);
  return [list, ...[...byReason(reasons)].map(noneIn)];
}

/** The cell with the button for names and facts, and the cell of these, which are looked up when they are shown. */
function detailCells(target) {
  const inside = element("div"),
    details = element("td", { role: "cell", class: "names", colspan: 8, "aria-colspan": 8, hidden: "" }, inside);
  const button = element("button", { type: "button", "aria-label": `Names and facts: ${shown(target.text)}` },
    element("span", {}, "names"));
  const show = (isOpen) => {
    details.hidden = !isOpen;
    button.setAttribute("aria-expanded", isOpen);
    if (!isOpen || inside.firstChild) return;
    const facts = driverFacts(target.triple).map(([term, answer]) => pair(term, answer));
    inside.append(element("h2", {}, "In each tool"), ...namesShown(target),
      element("h2", {}, "For a linker and a driver"), element("dl", {}, ...facts));
  };
  button.addEventListener("click", () => show(details.hidden));
  return [show, element("td", { role: "cell", class: "elsewhere" }, button), details];
}

/** What tools mean by a text. */
const meaningLines = ({ text, others }) => others.map(({ tools, meant, reason }) => element("p", {},
  ...meant ? [`In ${toolsOf(tools)} it is `, offer(meant, text, meant), "."]
    : [tools.length ? `In ${toolsOf(tools)} no triple means it: ${reason}.`
      : `${reason[0].toUpperCase()}${reason.slice(1)}.`]));

/** The head of a row, in which the part that is wrong or odd is marked. */
function headOf({ text, kind, wrong }) {
  if (!wrong) return header(text, text);
  const part = shown(text.slice(wrong.start, wrong.end)) || "(empty)",
    marked = kind === "refused" ? element("strong", { class: "wrong" }, part) : element("span", { class: "odd" }, part);
  return header(text, text.slice(0, wrong.start), marked, text.slice(wrong.end));
}

/** Fills a row with what a triple is. */
function fillTriple(row, target) {
  const { text, triple, kind, fields, wrong, suggestion, tools, level, isSeveral } = target, facts = triple.facts(),
    isSuspicious = kind === "suspicious", head = headOf(target), others = meaningLines(target);
  if (suggestion) head.append(small(...question(suggestion, text, wrong)));
  if (tools) head.append(small("a name of ", toolsOf(tools), level === null ? "" : `, for the machine's level ${level}`,
    isSeveral ? ", of several machines" : ""));
  head.classList.add("folds");
  head.append(...forms(triple, text));
  row.replaceChildren(head, ...FIELDS.map((name) => fieldCell(triple, name, fields[name], text)));
  if (isSuspicious) row.children[2].querySelector("code").className = "odd";
  if (facts.objectFormat !== triple.binaryFormat) row.lastChild.append(small("objects ", code(facts.objectFormat)));
  const [showNames, ...details] = detailCells(target),
    pointers = cell("Pointers", facts.pointerWidth ? `${facts.pointerWidth} bits` : dim("unknown"));
  pointers.firstChild.append(small(facts.endianness ? `${facts.endianness}-endian` : "byte order unknown"));
  row.append(pointers, details[0]);
  if (others.length)
    row.append(element("td", { role: "cell", class: "others", colspan: 8, "aria-colspan": 8 }, ...others));
  row.append(details[1]);
  row.double = head.appendChild(small());
  head.append(foldButton(row, text));
  row.showNames = showNames;
}

function soFar(fields) {
  const given = FIELDS.filter((name) => fields[name].part !== null);
  if (!given.length) return [];
  const parts = given.flatMap((name, at) => [at ? ", " : "", LABELS[name].toLowerCase(), " ", code(fields[name].part)]);
  return [small("Before it: ", ...parts)];
}

function fillRefused(row, target) {
  const { text, error, wrong, fields, suggestion, nearest } = target, inside = meaningLines(target);
  if (!inside.length) {
    inside.push(element("p", { class: "message" }, `${error.report.split(":", 1)[0]}: ${shown(error.part)}`));
    if (suggestion) inside.push(element("p", {}, ...question(suggestion, text, wrong)));
    const [, it, meant] = /^i(n ASCII it is|ts words name) `?([^`, ]+)`?$/.exec(error.note) ?? [];
    if (meant) inside.push(element("p", {}, `I${it} `, offer(meant, text, meant), "."));
    else if (error.note && !suggestion && !nearest.length) inside.push(element("p", {}, `Note: ${error.note}`));
    for (const { name, tools } of meant ? [] : nearest)
      inside.push(element("p", {}, "Did you mean ", offer(name, text, name), ` of ${toolsOf(tools)}?`));
    inside.push(...soFar(fields));
  }
  const answer = element("td", { role: "cell", class: "refused", colspan: 7, "aria-colspan": 7 }, ...inside);
  row.replaceChildren(headOf(target), answer);
}

function showDouble({ double, earlier, target }) {
  double.replaceChildren(...(earlier === undefined ? [] : earlier === target ? ["repeated"]
    : ["the same target as ", code(earlier)]));
}

/** The row of a target, which has only its head before it is filled. */
function rowFor(text, isFilled) {
  const libcs = chosenLibcs(), plain = isFilled ? null : plainRow(lexicon, text, libcs),
    target = plain ?? rowOf(lexicon, text, libcs), { kind, triple, tools } = target;
  const row = element("tr", { role: "row", class: kind === "other" ? "" : kind });
  Object.assign(row, { target: text, kind, canonical: triple?.canonical, isName: Boolean(tools) });
  row.fill = (target = rowOf(lexicon, text, libcs)) => {
    row.fill = null;
    (kind === "refused" ? fillRefused : fillTriple)(row, target);
    if (row.double) showDouble(row);
    row.fold?.(!wereFew);
    row.showNames?.(wereFew);
  };
  if (isFilled) row.fill(target);
  else row.append(header(text, text));
  return row;
}

/** Says of a row if an earlier one is of the same target. `first` has the first target of each canonical form. */
function markDouble(row, first) {
  row.earlier = first.get(row.canonical);
  if (row.earlier === undefined) first.set(row.canonical, row.target);
  row.classList.toggle("duplicate", row.earlier !== undefined);
  if (row.double) showDouble(row);
  return row.earlier !== undefined;
}

const rowsInSight = () => [...table.querySelectorAll("tbody > tr")].filter((row) => row.getClientRects().length > 0);

/** Types over a range of the text field, so that undo takes it back. An engine that can't leaves undo as it was. */
function typeOver(start, end, text) {
  field.focus();
  field.setSelectionRange(start, end);
  if (!document.execCommand("insertText", false, text)) field.setRangeText(text, start, end);
}

/**
 * Replaces the target in the text field, and shows it. The focus goes to the next mistake, or if there is none to the
 * row of the target.
 */
async function replaceTarget(text, fixed) {
  const item = wordsOf(field.value).items.find((it) => it.text === text);
  if (!item) return;
  const place = rowsInSight().findIndex((row) => row.target === text);
  typeOver(item.start, item.end, fixed);
  await edited(true);
  const rows = rowsInSight(), next = rows[Math.min(place, rows.length - 1)];
  const row = next && next.kind !== "other" ? next : rows.find((row) => row.target === fixed);
  row?.fill?.();
  row?.firstChild.setAttribute("tabindex", "-1");
  row?.firstChild.focus();
}

// ---- which rows are shown

let shownKind = "all";

function showOnly(kind) {
  shownKind = table.dataset.show = kind;
  for (const chip of byId("chips").children) chip.setAttribute("aria-pressed", chip.dataset.show === kind);
}

/** The counts of the chips. A kind that has no target any more isn't shown. */
function showCounts(counts) {
  for (const chip of byId("chips").children) {
    const kind = chip.dataset.show, count = counts[kind], [one, more = one] = KINDS[kind];
    chip.textContent = `${countOf(count)} ${count === 1 ? one : more}`;
    chip.disabled = count === 0;
  }
  if (counts[shownKind] === 0) showOnly("all");
  byId("chips").hidden = counts.all === 0;
}

let calm;

/** While somebody types, the status changes and isn't announced; after a pause it is. */
function isTyping() {
  clearTimeout(calm);
  byId("status").setAttribute("aria-live", "off");
  calm = setTimeout(() => {
    byId("status").setAttribute("aria-live", "polite");
    byId("status").replaceChildren(byId("status").textContent);
  }, 700);
}

/** Says something in the status; `isAside` if the chips show it too. */
function say(text, isAside = false) {
  byId("status").textContent = text;
  byId("status").classList.toggle("aside", isAside);
}

// ---- showing, in slices

// The rows are in groups, of which only those that are near the screen, and some of the first rows, are filled and laid
// out.
const GROUP = 100, FILLED = 300;
const near = new IntersectionObserver((entries) => {
  for (const { isIntersecting, target } of entries) {
    target.isNear = isIntersecting;
    if (isIntersecting) for (const row of target.rows) row.fill?.();
  }
}, { rootMargin: "1000px" });

let runs = 0, wereFew = false;

const pause = () => new Promise((resolve) => setTimeout(resolve));

/** The row that is there for each line, or undefined. All other rows are removed. */
function rowsFor(lines) {
  const there = grouped([...table.querySelectorAll("tbody > tr")].reverse().map((row) => [row.target, row]));
  const found = lines.map((line) => there.get(line)?.pop());
  for (const rows of there.values()) for (const row of rows) row.remove();
  return found;
}

/** The group of rows of a kind with this number. Those of a kind are together, in the order of the kinds. */
function group(kind, index) {
  const bodies = [...table.tBodies], found = bodies.filter((it) => it.dataset.kind === kind)[index];
  if (found) return found;
  const later = bodies.find((it) => ORDER.indexOf(it.dataset.kind) > ORDER.indexOf(kind));
  const made = table.insertBefore(element("tbody", { role: "rowgroup", "data-kind": kind }), later ?? null);
  near.observe(made);
  return made;
}

/** Makes the rows those of the lines, and keeps each row that is there. A later call ends an earlier one. */
async function show() {
  const run = ++runs, { items, others } = wordsOf(field.value), lines = items.map((item) => item.text),
    progress = byId("progress"), begin = performance.now();
  const found = rowsFor(lines), first = new Map(),
    counts = { all: lines.length, refused: 0, suspicious: 0, other: 0, duplicate: 0, named: 0 };
  const places = Object.fromEntries(ORDER.map((kind) => [kind, {}])), areFew = lines.length <= UNFOLDED,
    unfolds = areFew && !wereFew;
  wereFew = areFew;
  let until = performance.now() + SLICE;
  table.hidden = lines.length === 0;
  table.setAttribute("aria-busy", "true");
  for (const [index, line] of lines.entries()) {
    const row = found[index] ?? rowFor(line, index < FILLED), { kind } = row, place = places[kind];
    if (counts[kind] % GROUP === 0) {
      place.body = group(kind, counts[kind] / GROUP);
      place.next = place.body.firstElementChild;
    }
    counts[kind]++;
    if (place.body.isNear) row.fill?.();
    if (found[index] && unfolds) {
      row.fold?.(false);
      row.showNames?.(true);
    }
    if (row === place.next) place.next = place.next.nextElementSibling;
    else place.body.insertBefore(row, place.next);
    if (row.canonical && markDouble(row, first)) counts.duplicate++;
    if (row.isName) counts.named++;
    if (performance.now() < until) continue;
    if (performance.now() - begin > 300) {
      if (progress.hidden) say(`Reading ${countOf(lines.length)} targets.`);
      progress.hidden = false;
      progress.max = lines.length;
      progress.value = index;
      showCounts({ ...counts, all: index + 1 });
    }
    await pause();
    if (run !== runs) return;
    until = performance.now() + SLICE;
  }
  for (const body of [...table.tBodies]) if (!body.firstChild) body.remove();
  progress.hidden = true;
  table.removeAttribute("aria-busy");
  showCounts(counts);
  if (lines.length) {
    const others = ["suspicious", "duplicate"].filter((kind) => counts[kind]);
    const more = others.map((kind) => `, ${chipOf(kind).textContent}`).join("");
    const named = counts.named ? `, ${countOf(counts.named)} named by tools` : "";
    const parsed = countOf(lines.length - counts.refused - counts.named);
    say(`${chipOf("all").textContent}: ${parsed} parsed${named}, ${chipOf("refused").textContent}${more}.`, true);
  } else {
    const whyNone = isLongLink()
      ? `The link isn't followed: its targets are longer than ${countOf(LONGEST_LINK)} characters. ` : "";
    say(whyNone + (/\w/.test(field.value)
      ? "No word of this text is clearly a target. Search finds targets by other words. Of a list, one a "
        + "line and without spaces, each is shown."
      : "No targets. Paste some above, or names of any tool: one a line, or any text that has some, such as a "
        + "workflow."));
  }
  byId("notice").textContent =
    [...unread.map((it) => `A target of the link can't be read: ${shown(it)}.`), ...leftOut(others)].join(" ");
  byId("notice").hidden = byId("notice").textContent === "";
}

/** That words of a text may be targets, and aren't shown; of many, the first ones are named. */
const leftOut = (words) => words.length
  ? [`Not shown, since this isn't only a list, and perhaps targets (${countOf(words.length)}): `
    + `${words.slice(0, 5).map(shown).join(", ")}${words.length > 5 ? ", .." : "."}`] : [];

const chipOf = (kind) => byId("chips").querySelector(`[data-show=${kind}]`);
const countOf = (count) => count.toLocaleString("en");

// ---- the link and the copy

/** Where this page is, with the host: a path alone that begins with two slashes would be another host. */
const pageUrl = () => location.href.split(/[?#]/, 1)[0];

/** What is chosen and searched, as the query of a link. */
const chosen = () => {
  const chosen = [...CHOICES.map((id) => [id, id]), ["q", "search"]].map(([name, id]) => [name, byId(id).value]);
  const query = new URLSearchParams(chosen.filter(([, value]) => value)).toString();
  return query && `?${query}`;
};

const isLongLink = () => location.hash.length > LONGEST_LINK;

/** The link to what is in the text field, or null if that is too long for one. */
function linkOf(lines) {
  const hash = lines.map((line) => encodeURIComponent(line.replace(/\p{Surrogate}/gu, "\ufffd"))).join(",");
  // also without targets: an address without # shows the first ones
  return hash.length > LONGEST_LINK ? null : `${pageUrl()}${chosen()}#${hash}`;
}

/** What can't be read of the link that was followed. */
let unread = [];

/** Opens the targets and choices of a link; those that it can't decode are said. */
function followLink() {
  const lines = [], query = new URLSearchParams(location.search);
  for (const id of CHOICES) {
    byId(id).value = query.get(id) ?? "";
    if (byId(id).selectedIndex < 0) byId(id).value = "";
  }
  unread = [];
  if (query.has("q")) {
    byId("search").value = query.get("q");
    search();
  }
  if (isLongLink()) {
    field.value = history.state?.text ?? ""; // then what is shown is why
    return;
  }
  for (const item of location.hash.slice(1).split(",").filter(Boolean)) {
    try {
      lines.push(decodeURIComponent(item));
    } catch {
      unread.push(item);
    }
  }
  field.value = history.state?.text ?? (location.href.includes("#") ? lines.join("\n") : field.defaultValue);
  linked = location.href;
}

let linking = null, linked; // what the address will be

function stopLinking() {
  clearTimeout(linking);
  linking = null;
}

/**
 * Shows what was edited, and makes the address the link to it: after a pause, since browsers don't let a page do that
 * often. What was there before a button is a page to go back to.
 */
function edited(isPage = false) {
  const before = linked, isWaiting = linking !== null;
  unread = [];
  stopLinking();
  linked = linkOf(linesOf(field.value)) ?? pageUrl() + chosen();
  if (isPage) {
    if (isWaiting) history.replaceState(history.state, "", before);
    history.pushState({ text: field.value }, "", linked);
  } else {
    linking = setTimeout(() => {
      stopLinking();
      history.replaceState({ text: field.value }, "", linked);
    }, 400);
  }
  return show();
}

let known; // the targets, with what they are searched by
let heard;

/** Shows the targets that the words of the search are about, which a click adds to the user's. A pause says them. */
function search() {
  known ??= new Map(TARGETS.map((target) => [target, about(target, Triple.parse(target), VALUES)]));
  const { targets: all, unknown, isAll } = found(byId("search").value, known);
  const offers = all.slice(0, MOST_FOUND).map((target) => {
    const button = element("button", { type: "button", class: "offer", "aria-label": `Add ${target}` }, target);
    button.addEventListener("click", () => {
      typeOver(0, field.value === field.defaultValue ? field.value.length : 0, `${target}\n`);
      button.focus();
      edited(true);
    });
    return button;
  });
  // A number that no target is about is the version of a system.
  const isVersion = (word) => all.length > 0 && /^[\d.]+$/.test(word), version = unknown.find(isVersion);
  const more = all.length - offers.length, of = unknown.filter((it) => !isVersion(it)).map(shown).join(" or ");
  byId("found").replaceChildren(...of ? [dim(`No target is about ${of}.`)] : [],
    ...version ? [dim(`The names of these targets state no version, such as ${version}.`)] : [],
    ...isAll ? [] : [dim("No target has all these words, but some of them:")], ...offers,
    ...more > 0 ? [dim(`and ${more} more`)] : []);
  clearTimeout(heard);
  heard = setTimeout(() => {
    byId("heard").textContent = [...byId("found").childNodes].map((it) => it.textContent).join(" ");
  }, 700);
}

async function copy(button, text, said) {
  try {
    await navigator.clipboard.writeText(text);
  } catch {
    const hidden = element("textarea", { "aria-hidden": "true", style: "position: fixed; opacity: 0" });
    hidden.value = text;
    document.body.append(hidden);
    hidden.select();
    document.execCommand("copy");
    hidden.remove();
    button.focus();
  }
  say(said);
}

const copyJson = (button, entryOf) => copy(button, JSON.stringify(linesOf(field.value).map(entryOf), null, 2),
  `Copied ${chipOf("all").textContent} as JSON.`);

function copyLink(button) {
  const link = linkOf(linesOf(field.value));
  return link === null ? say("These targets are too long for a link.")
    : copy(button, link, "Copied the link to these targets.");
}

// ---- the beginning

async function begin() {
  await load(unpacked());
  let waiting;
  field.addEventListener("input", () => {
    isTyping();
    clearTimeout(waiting);
    waiting = setTimeout(edited, 50);
  });
  addEventListener("popstate", () => {
    stopLinking();
    followLink();
    for (const body of [...table.tBodies]) body.remove();
    show();
  });
  byId("search").addEventListener("input", search);
  byId("search").addEventListener("keyup", ({ key }) =>
    key === "Enter" && byId("found").querySelector("button")?.focus());
  const entries = { copy_names: (text) => namesEntry(lexicon, text, chosenLibcs()),
    copy_facts: (text) => factsCopied(lexicon, text, chosenLibcs()) };
  for (const [id, entryOf] of Object.entries(entries))
    byId(id).addEventListener("click", ({ currentTarget }) => copyJson(currentTarget, entryOf));
  byId("copy_link").addEventListener("click", ({ currentTarget }) => copyLink(currentTarget));
  for (const id of CHOICES) {
    byId(id).addEventListener("change", () => {
      for (const body of [...table.tBodies]) body.remove();
      edited(true);
    });
  }
  byId("clear").addEventListener("click", () => { typeOver(0, field.value.length, ""); edited(true); });
  byId("chips").addEventListener("click", ({ target }) => target.dataset.show && showOnly(target.dataset.show));
  followLink();
  await show();
}

begin().catch((error) => {
  say(`The page can't work: ${error.message}`);
});
