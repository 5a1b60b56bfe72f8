/* Makes the calls of calls.c with arbitrary bytes and arbitrary structs, and checks what the header promises of each:
   for libFuzzer, or, with -DLINES, with each line of the input. Each string, struct and buffer ends where a page ends
   that may not be touched, so that the library is watched too, which has no sanitizer. */
#define _DEFAULT_SOURCE
#define PROMISES
#include <sys/mman.h>

#include "calls.c"

static const char *const dialects[] = {LEXICON_DIALECT_NAMES};
enum { ROOM = 1 << 16, PAGE = 4096, REGIONS = 8, LAST_DIALECT = sizeof dialects / sizeof *dialects };

/* Memory of a size, before a page that may not be touched. */
static void *before_guard(int region, size_t size) {
  static char *ends[REGIONS];
  if (ends[region] == NULL) {
    char *at = (char *)mmap(NULL, ROOM + PAGE, PROT_READ | PROT_WRITE, MAP_PRIVATE | MAP_ANONYMOUS, -1, 0);
    if (at == MAP_FAILED || mprotect(at + ROOM, PAGE, PROT_NONE) != 0) abort();
    ends[region] = at + ROOM;
  }
  return ends[region] - size;
}

struct input { const uint8_t *at; size_t size; };

static void take(struct input *input, void *to, size_t size) {
  size_t given = size < input->size ? size : input->size;
  memset(to, 0, size);
  if (given) memcpy(to, input->at, given);
  input->at += given;
  input->size -= given;
}

/* A text of at most this size, null if it is empty. */
static const char *take_text(struct input *input, int region, size_t most, size_t *size) {
  *size = most < input->size ? most : input->size;
  char *text = (char *)before_guard(region, *size);
  take(input, text, *size);
  return *size ? text : NULL;
}

/* ---- a call with each size of buffer that matters */

/* The calls that have an answer for each triple, those that may have none, and those of a string. */
static writes *const always[] = {print, rustc_cfg, llvm_target, program_suffix, settled, facts};
static writes *const sometimes[] = {written, versioned, multiarch_tuple, macos_version, completed, vendor_suggestion};
static writes *const of_strings[] = {parsed, strict, sources, read, reason, translated, translate_reason,
    translated_versioned, number, name, note, name_suggestion, suggestion, error_text, settled_lines};
#define EACH(call, calls) for (writes *const *call = calls; call < calls + sizeof calls / sizeof *calls; call++)

/* At LEXICON_OK what is written is ASCII without controls, except line feeds. A smaller buffer is unchanged, or has the
   first characters; at another status nothing is written. */
static enum lexicon_status try_call(writes *call, const struct asked *it, char **text) {
  size_t length = 77, again = 77;
  enum lexicon_status status = call(it, NULL, 0, &length);
  const bool has_text = status == LEXICON_TOO_SMALL;
  const size_t room = has_text ? length : 64;
  EXPECT(room < ROOM);
  char *out = (char *)before_guard(2, room);
  fill(out, room);
  EXPECT(call(it, out, room, &again) == status && again == length && (has_text || length == 77));
  EXPECT(is_filled(out, room) || (has_text && strlen(out) < room && (call == error_text || call == settled_lines)));
  if (!has_text) return status;
  *text = (char *)before_guard(2, length + 1);
  again = 77;
  EXPECT(call(it, *text, length + 1, &again) == LEXICON_OK && again == length && strlen(*text) == length);
  for (const char *byte = *text; *byte; byte++) EXPECT((*byte >= ' ' && *byte <= '~') || *byte == '\n');
  return LEXICON_OK;
}

/* ---- triples */

/* Whether every field that is not read is 0. */
static bool has_zeros(const struct lexicon_triple *it) {
  bool no_vendor = it->custom_vendor == NULL && it->custom_vendor_size == 0;
  bool no_version = it->major == 0 && it->minor == 0 && it->patch == 0;
  return (it->vendor == LEXICON_VENDOR_CUSTOM || no_vendor) && (it->has_version || no_version);
}

static bool has_name(uint32_t field, uint32_t of) {
  const char *it = lexicon_name(field, of);
  uint32_t found = ~of;
  EXPECT(it == NULL || (lexicon_number(field, LEXICON_Z(it), &found) == LEXICON_OK && found == of));
  return it != NULL;
}

/* Whether a system may have a version: then one is read after its name. */
static bool takes_version(uint32_t system) {
  char text[64];
  struct lexicon_triple triple;
  snprintf(text, sizeof text, "unknown-unknown-%s1", lexicon_name(LEXICON_FIELD_OPERATING_SYSTEM, system));
  return lexicon_parse(LEXICON_Z(text), &triple, NULL) == LEXICON_OK;
}

/* The status that each call with the struct must give, by the names and numbers of the library. */
static enum lexicon_status expected_status(const struct lexicon_triple *it) {
  uint32_t found = 0;
  if (!has_name(LEXICON_FIELD_ARCHITECTURE, it->architecture)) return LEXICON_NO_SUCH_VALUE;
  if (it->vendor == LEXICON_VENDOR_CUSTOM) {
    uint32_t status = lexicon_number(LEXICON_FIELD_VENDOR, it->custom_vendor, it->custom_vendor_size, &found);
    if (status != LEXICON_OK || found != LEXICON_VENDOR_CUSTOM) return LEXICON_NO_SUCH_VENDOR;
  } else if (!has_name(LEXICON_FIELD_VENDOR, it->vendor)) {
    return LEXICON_NO_SUCH_VALUE;
  }
  if (!has_name(LEXICON_FIELD_OPERATING_SYSTEM, it->operating_system) ||
      it->has_version > takes_version(it->operating_system))
    return LEXICON_NO_SUCH_VALUE;
  bool well = has_name(LEXICON_FIELD_ENVIRONMENT, it->environment) &&
      has_name(LEXICON_FIELD_BINARY_FORMAT, it->binary_format);
  return well ? LEXICON_OK : LEXICON_NO_SUCH_VALUE;
}

/* What holds of each triple that is well. */
static void try_triple(const struct asked *of) {
  const struct lexicon_triple *triple = &of->triple;
  struct lexicon_triple canonical = *triple, again;
  struct lexicon_triple_facts all;
  char *text;
  EACH(call, always) EXPECT(try_call(*call, of, &text) == LEXICON_OK);
  EXPECT(try_call(print, of, &text) == LEXICON_OK && *text != 0);
  EXPECT(lexicon_parse(LEXICON_Z(text), &again, NULL) == LEXICON_OK);
  EXPECT(lexicon_equal(&again, triple) == lexicon_comes_back(triple));
  EXPECT(lexicon_settle(&canonical) == LEXICON_OK && has_zeros(&canonical) && lexicon_same_target(triple, &canonical));
  EXPECT(try_call(settled, of, &text) == LEXICON_OK && lexicon_parse(LEXICON_Z(text), &again, NULL) == LEXICON_OK);
  EXPECT(lexicon_equal(&again, &canonical));
  EXPECT(lexicon_all_facts(triple, &all) == LEXICON_OK &&
      all.has_custom_vendor == (triple->vendor == LEXICON_VENDOR_CUSTOM));
  for (size_t size = 0; size <= sizeof all + 2; size++) {
    uint8_t *some = (uint8_t *)before_guard(2, size);
    fill(some, size);
    EXPECT(lexicon_facts(triple, (struct lexicon_triple_facts *)(void *)some, size) == LEXICON_OK);
    EXPECT(memcmp(some, &all, size < sizeof all ? size : sizeof all) == 0);
    for (size_t i = sizeof all; i < size; i++) EXPECT(some[i] == 0); /* of a newer header */
  }
  struct asked *it = (struct asked *)before_guard(3, sizeof *it);
  *it = *of;
  for (it->numbers[0] = 0; it->numbers[0] <= LAST_DIALECT + 1; it->numbers[0]++) {
    const bool is_dialect = it->numbers[0] > 0 && it->numbers[0] <= LAST_DIALECT;
    EACH(call, sometimes) {
      enum lexicon_status status = try_call(*call, it, &text);
      EXPECT(status == LEXICON_OK || status == (*call == vendor_suggestion ? LEXICON_NO_SUGGESTION
          : *call == macos_version ? LEXICON_NO_ANSWER
          : *call == completed ? LEXICON_NO_SUCH_C_LIBRARY
          : *call != multiarch_tuple && !is_dialect ? LEXICON_NO_SUCH_DIALECT
          : status == LEXICON_NEEDS_C_LIBRARY && *call != multiarch_tuple ? status : LEXICON_TRIPLE_WITHOUT_NAME));
      if (*call == written && status == LEXICON_OK) EXPECT(strlen(text) <= 36);
    }
    unwritten(it, false), unwritten(it, true);
  }
}

/* All calls give the status of a struct that is no triple, and change nothing. */
static void try_bad(const struct asked *bad, const struct lexicon_triple *other, enum lexicon_status status) {
  struct asked *it = (struct asked *)before_guard(3, sizeof *it);
  char *text;
  *it = *bad;
  it->numbers[0] = GO;
  EACH(call, always) EXPECT(try_call(*call, it, &text) == status);
  EACH(call, sometimes) EXPECT(try_call(*call, it, &text) == status);
  const struct lexicon_triple *triple = &bad->triple;
  struct lexicon_triple_facts all;
  fill(&all, sizeof all);
  EXPECT(lexicon_all_facts(triple, &all) == status && is_filled(&all, sizeof all));
  EXPECT(!lexicon_comes_back(triple) && !lexicon_equal(triple, triple) && !lexicon_same_target(triple, triple));
  EXPECT(!lexicon_equal(triple, other) && !lexicon_equal(other, triple) && !lexicon_same_target(other, triple));
}

/* A number that names a value of the field in most cases, and none in one. */
static uint8_t small_number(uint32_t field, uint32_t of) {
  static uint32_t counts[5];
  while (has_name(field, counts[field])) counts[field]++;
  return (uint8_t)(of % (counts[field] + 1));
}

/* An arbitrary struct. By the first byte its numbers are small, so that most are values. */
static struct asked *take_triple(struct input *input, int region) {
  struct asked *it = (struct asked *)before_guard(region, sizeof *it);
  struct lexicon_triple *of = &it->triple;
  uint8_t how;
  take(input, &how, 1);
  take(input, it->numbers, sizeof it->numbers);
  it->numbers[1] %= 10;
  take(input, of, sizeof *of);
  if (how & 1) {
    of->architecture = small_number(LEXICON_FIELD_ARCHITECTURE, of->architecture);
    of->vendor = of->vendor >= 0xf0 ? LEXICON_VENDOR_CUSTOM : small_number(LEXICON_FIELD_VENDOR, of->vendor);
    of->operating_system = small_number(LEXICON_FIELD_OPERATING_SYSTEM, of->operating_system);
    of->environment = small_number(LEXICON_FIELD_ENVIRONMENT, of->environment);
    of->binary_format = small_number(LEXICON_FIELD_BINARY_FORMAT, of->binary_format);
    of->has_version %= 3;
  }
  if (how & 2) of->vendor = LEXICON_VENDOR_CUSTOM;
  if (of->vendor == LEXICON_VENDOR_CUSTOM)
    of->custom_vendor = take_text(input, region + 1, how >> 2, &of->custom_vendor_size);
  return it;
}

/* A struct, which is a triple or isn't one, beside another one. Returns whether it is one. */
static bool try_either(const struct asked *it, const struct lexicon_triple *other) {
  enum lexicon_status status = expected_status(&it->triple);
  if (status == LEXICON_OK) try_triple(it);
  else try_bad(it, other, status);
  return status == LEXICON_OK;
}

static void try_structs(struct input *input) {
  const struct asked *first = take_triple(input, 4), *second = take_triple(input, 6);
  bool are_triples = try_either(first, &second->triple);
  if (!try_either(second, &first->triple) || !are_triples) return;
  struct lexicon_triple a = first->triple, b = second->triple;
  EXPECT(lexicon_equal(&a, &b) == lexicon_equal(&b, &a));
  bool are_same_target = lexicon_same_target(&a, &b);
  EXPECT(lexicon_settle(&a) == LEXICON_OK && lexicon_settle(&b) == LEXICON_OK);
  EXPECT(lexicon_equal(&a, &b) == are_same_target);
}

/* ---- strings */

/* The text of an error: where it shows the part, carets are under it, and a suggestion is a name of a later field. */
static void try_error(struct asked *it) {
  char *text;
  const enum lexicon_status status = try_call(error_text, it, &text);
  EXPECT(status == LEXICON_OK || status == LEXICON_NO_SUCH_VALUE);
  if (status == LEXICON_OK && it->error.status != LEXICON_NOT_UTF8) {
    const char *part = strchr(text, ':') + 2, *under = strrchr(text, '\n') + 1, *line = strchr(text, '\n') + 1;
    size_t indent = strspn(under, " "), carets = strspn(under + indent, "^"), width = strcspn(part, "\n");
    EXPECT(carets == (width ? width : 1) && strncmp(line + indent, part, width) == 0);
  }
  if (try_call(suggestion, it, &text) != LEXICON_OK) return;
  EXPECT(strlen(text) <= it->error.end - it->error.start + LEXICON_MAX_GROWTH);
  uint32_t found, field = it->error.status - 1;
  size_t first = strcspn(text, "-"); /* windows-gnu is two names */
  while (lexicon_number(field, text, first, &found) != LEXICON_OK) EXPECT(++field < 5);
}

/* An error that a call wrote is one of the string. */
static void try_written_error(struct asked *it, enum lexicon_status status) {
  EXPECT(it->error.status == (uint32_t)status && it->error.start <= it->error.end && it->error.end <= it->size);
  try_error(it);
}

/* What parsing and reading write is a triple, whose custom vendor is a part of the string, or the library's own. */
static void try_result(const struct asked *it, const struct lexicon_triple *triple, bool is_of_string) {
  EXPECT(expected_status(triple) == LEXICON_OK && has_zeros(triple));
  EXPECT(triple->vendor != LEXICON_VENDOR_CUSTOM || !is_of_string || (triple->custom_vendor >= it->text &&
      triple->custom_vendor + triple->custom_vendor_size <= it->text + it->size));
}

static void try_parse(struct asked *it) {
  struct lexicon_triple explained, same;
  struct lexicon_error other;
  struct lexicon_sources of;
  fill(&explained, sizeof explained), fill(&other, sizeof other), fill(&of, sizeof of);
  fill(&it->triple, sizeof it->triple), fill(&it->error, sizeof it->error);
  const enum lexicon_status status = lexicon_parse(it->text, it->size, &it->triple, &it->error);
  EXPECT(lexicon_explain(it->text, it->size, &explained, &of, &other) == status && status <= LEXICON_NOT_UTF8);
  const struct lexicon_source each[] = {of.architecture, of.vendor, of.operating_system, of.environment,
      of.binary_format};
  for (size_t i = 0; i < 5; i++)
    EXPECT(each[i].origin == LEXICON_ORIGIN_GIVEN || each[i].origin == LEXICON_ORIGIN_ALIAS
        ? each[i].start <= each[i].end && each[i].end <= it->size
        : each[i].origin <= LEXICON_ORIGIN_ALIAS && each[i].start == 0 && each[i].end == 0);
  if (status == LEXICON_OK) {
    EXPECT(is_filled(&it->error, sizeof it->error) && is_filled(&other, sizeof other));
    EXPECT(lexicon_equal(&it->triple, &explained) && has_zeros(&explained));
    try_result(it, &it->triple, true);
    char *text;
    EXPECT(try_call(print, it, &text) == LEXICON_OK && strlen(text) <= it->size + LEXICON_MAX_GROWTH);
    try_triple(it);
  } else {
    EXPECT(is_filled(&it->triple, sizeof it->triple) && is_filled(&explained, sizeof explained));
    EXPECT(other.status == it->error.status && other.start == it->error.start && other.end == it->error.end);
    try_written_error(it, status);
  }
  const bool is_custom = status == LEXICON_OK && it->triple.vendor == LEXICON_VENDOR_CUSTOM;
  EXPECT(lexicon_parse_strict(it->text, it->size, &same, NULL) == (is_custom ? LEXICON_UNRECOGNIZED_VENDOR : status));
}

/* A string as a name of each dialect, and of none; and what is suggested and noted in one of these. */
static void try_read(struct asked *it) {
  const uint32_t chosen = it->numbers[0];
  struct lexicon_triple triple;
  char *text;
  for (uint32_t dialect = 0; dialect <= LAST_DIALECT + 1; dialect++) {
    it->numbers[0] = dialect;
    fill(&triple, sizeof triple), fill(&it->error, sizeof it->error);
    const enum lexicon_status status = lexicon_read(dialect, it->text, it->size, &triple, &it->error);
    EXPECT((status == LEXICON_NO_SUCH_DIALECT) == (dialect > LAST_DIALECT));
    EXPECT(dialect == 0 ? status <= LEXICON_NOT_UTF8
        : status == LEXICON_OK || status == LEXICON_NOT_UTF8 || status >= LEXICON_UNKNOWN_NAME);
    if (status == LEXICON_OK) {
      EXPECT(is_filled(&it->error, sizeof it->error));
      try_result(it, &triple, dialect == 0);
    } else {
      EXPECT(is_filled(&triple, sizeof triple));
      EXPECT((it->error.reason != NULL) == (status == LEXICON_NAME_WITHOUT_TRIPLE));
      try_written_error(it, status);
    }
    if (dialect != chosen) continue;
    enum lexicon_status suggested = try_call(name_suggestion, it, &text);
    EXPECT(suggested == LEXICON_OK ? status == LEXICON_UNKNOWN_NAME && strlen(text) <= 36
        : suggested == LEXICON_NO_SUGGESTION);
    if (suggested == LEXICON_OK) EXPECT(lexicon_read(dialect, LEXICON_Z(text), &triple, NULL) == LEXICON_OK);
    enum lexicon_status noted = try_call(note, it, &text);
    EXPECT(noted == LEXICON_OK ? dialect == 0 || status == LEXICON_UNKNOWN_NAME : noted == LEXICON_NO_SUGGESTION);
  }
  it->numbers[0] = chosen;
}

/* What is found in a string are parts of it, from its start to its end; no element after these is written. */
static void try_parts(const struct asked *it, bool is_utf8) {
  struct lexicon_part part, targets[4];
  struct lexicon_finding wrong[4];
  struct lexicon_meaning meant[LEXICON_MAX_MEANINGS + 1];
  size_t found = 77, last = 0, at = 0;
  enum lexicon_status status;
  char *out = (char *)before_guard(2, it->size + 30);
  for (;; last = part.end) {
    fill(&part, sizeof part);
    status = lexicon_changes(it->text, it->size, at++, &part, out, it->size + 30, &found);
    if (status != LEXICON_OK) break;
    EXPECT(found > 0 && found == strlen(out) && last <= part.start && part.start <= part.end && part.end <= it->size);
  }
  EXPECT(status == (is_utf8 ? LEXICON_NO_SUCH_CHANGE : LEXICON_NOT_UTF8) && is_filled(&part, sizeof part));
  fill(targets, sizeof targets), fill(wrong, sizeof wrong), fill(meant, sizeof meant);
  if (!is_utf8) {
    EXPECT(lexicon_targets(it->text, it->size, targets, 3, &found) == LEXICON_NOT_UTF8);
    EXPECT(lexicon_check(it->text, it->size, wrong, 3, &found) == LEXICON_NOT_UTF8);
    EXPECT(lexicon_meanings(it->text, it->size, meant, LEXICON_MAX_MEANINGS, &found) == LEXICON_NOT_UTF8);
    EXPECT(lexicon_readers(it->text, it->size, meant, LEXICON_MAX_MEANINGS, &found) == LEXICON_NOT_UTF8);
    EXPECT(is_filled(targets, sizeof targets) && is_filled(wrong, sizeof wrong) && is_filled(meant, sizeof meant));
    return;
  }
  status = lexicon_targets(it->text, it->size, targets, 3, &found);
  EXPECT(status == (found > 3 ? LEXICON_TOO_SMALL : LEXICON_OK));
  EXPECT(is_filled(&targets[found < 3 ? found : 3], sizeof *targets));
  for (at = last = 0; at < found && at < 3; last = targets[at++].end)
    EXPECT(last <= targets[at].start && targets[at].start <= targets[at].end && targets[at].end <= it->size);
  status = lexicon_check(it->text, it->size, wrong, 3, &found);
  EXPECT(status == (found > 3 ? LEXICON_TOO_SMALL : LEXICON_OK));
  EXPECT(is_filled(&wrong[found < 3 ? found : 3], sizeof *wrong));
  for (at = last = 0; at < found && at < 3; last = wrong[at++].word.end) {
    const struct lexicon_part word = wrong[at].word;
    part = wrong[at].part;
    EXPECT(last <= word.start && word.start <= part.start && part.start < part.end && part.end <= word.end);
    EXPECT(word.end <= it->size && wrong[at].kept <= part.end - part.start && wrong[at].status != LEXICON_OK);
    EXPECT((wrong[at].names != NULL) == (wrong[at].names_size > 0) && (wrong[at].names != NULL || !wrong[at].kept));
  }
  for (int turn = 0; turn < 2; turn++) {
    fill(meant, sizeof meant);
    EXPECT((turn ? lexicon_readers : lexicon_meanings)(it->text, it->size, meant, LEXICON_MAX_MEANINGS, &found) ==
        LEXICON_OK && is_filled(&meant[found], sizeof *meant));
    for (at = 0; at < found; at++) {
      EXPECT(meant[at].dialect <= LAST_DIALECT || meant[at].dialect == LEXICON_BY_WORDS);
      EXPECT(meant[at].status == LEXICON_OK ||
          (meant[at].status == LEXICON_NAME_WITHOUT_TRIPLE && meant[at].note != NULL));
      try_result(it, &meant[at].triple, meant[at].dialect == LEXICON_DIALECT_NONE);
    }
  }
}

/* Each line of a string is settled as it is by itself. */
static void try_lines(const struct asked *it) {
  size_t lines = 1;
  for (size_t i = 0; i < it->size; i++) lines += it->text[i] == '\n';
  if (it->size + lines * LEXICON_MAX_GROWTH + 2 > ROOM) return;
  char *text, line[ROOM];
  EXPECT(try_call(settled_lines, it, &text) == LEXICON_OK && strlen(text) < it->size + lines * LEXICON_MAX_GROWTH + 2);
  for (size_t start = 0, end; start < it->size; start = end + 1) {
    struct lexicon_triple triple;
    size_t length = 0;
    for (end = start; end < it->size && it->text[end] != '\n'; end++) {}
    if (lexicon_parse(it->text + start, end - start, &triple, NULL) == LEXICON_OK)
      EXPECT(lexicon_settle(&triple) == LEXICON_OK && lexicon_print(&triple, line, ROOM, &length) == LEXICON_OK);
    EXPECT(strncmp(text, line, length) == 0 && text[length] == '\n');
    text += length + 1;
  }
  EXPECT(*text == 0);
}

/* A translation of a string, which is a name of the first dialect or of none. */
static void try_translation(struct asked *it) {
  struct lexicon_triple triple;
  char *text;
  fill(&it->error, sizeof it->error);
  const enum lexicon_status status = translated_with(it, NULL, 0, NULL, &it->error);
  const enum lexicon_status is_read = lexicon_read(it->numbers[0], it->text, it->size, &triple, NULL);
  EXPECT(try_call(translated, it, &text) == (status == LEXICON_TOO_SMALL ? LEXICON_OK : status));
  if (status == LEXICON_TOO_SMALL) {
    EXPECT(is_read == LEXICON_OK && strlen(text) <= 36 && is_filled(&it->error, sizeof it->error));
    return;
  }
  const bool is_unwritten = status == LEXICON_TRIPLE_WITHOUT_NAME || status == LEXICON_NEEDS_C_LIBRARY;
  EXPECT((it->error.reason != NULL) == (is_unwritten || status == LEXICON_NAME_WITHOUT_TRIPLE));
  EXPECT(status == is_read || (is_unwritten && is_read == LEXICON_OK) || status == LEXICON_NO_SUCH_DIALECT ||
      status == LEXICON_NO_SUCH_C_LIBRARY);
  try_written_error(it, status);
}

int LLVMFuzzerTestOneInput(const uint8_t *data, size_t data_size) {
  struct input input = {data, data_size};
  uint8_t how[5];
  char *text;
  take(&input, how, sizeof how);
  if (how[0] & 1) try_structs(&input);
  struct asked *it = (struct asked *)before_guard(7, sizeof *it);
  it->text = take_text(&input, 0, ROOM - 64, &it->size);
  try_parse(it);
  try_parts(it, it->error.status != LEXICON_NOT_UTF8);
  try_lines(it);
  for (size_t i = 0; i < 4; i++) it->numbers[i] = how[1 + i] % 17u;
  it->numbers[1] %= 10;
  try_read(it);
  try_translation(it);
  if (lexicon_parse(it->text, it->size, &it->triple, &it->error) == LEXICON_OK) it->error.status = LEXICON_OK;
  EACH(call, of_strings) try_call(*call, it, &text);
  struct lexicon_triple of_vendor = {0};
  of_vendor.vendor = LEXICON_VENDOR_CUSTOM;
  of_vendor.custom_vendor = it->text;
  of_vendor.custom_vendor_size = it->size;
  it->triple = of_vendor;
  try_either(it, &of_vendor);
  const struct lexicon_error any = {how[1] & 15u, how[2] & 15u, how[3] >> 3, NULL};
  it->error = any;
  try_error(it);
  return 0;
}

#ifdef LINES
int main(void) {
  static char line[ROOM];
  static uint8_t structs[256] = {1};
  unsigned many = 0;
  try_calls();
  for (line[0] = 0; fgets(line + 5, sizeof line - 5, stdin) != NULL; many++) {
    for (size_t i = 1; i < 5; i++) line[i] = (char)(rand() >> 7);
    LLVMFuzzerTestOneInput((const uint8_t *)line, 5 + strcspn(line + 5, "\n"));
    if (many % 4) continue;
    for (size_t i = 1; i < sizeof structs; i++) structs[i] = (uint8_t)(rand() >> 7);
    LLVMFuzzerTestOneInput(structs, sizeof structs);
  }
  printf("promises: %u lines\n", many);
  return many ? 0 : 1;
}
#endif
