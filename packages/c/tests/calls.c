/* Makes each call of the library, and compares its status and what it writes with what is expected. Valid as C and as
   C++. */
#define LEXICON_H /* the guard of another header */
#include <stdio.h>
#include <stdlib.h>
#include <string.h>

#include "target_lexicon.h"

static unsigned failures, count;
static const char *tried = "";

#define EXPECT(right) expect(right, #right, __LINE__)
static void expect(bool right, const char *what, int line) {
  count++;
  if (!right && failures++ < 20) fprintf(stderr, "wrong: line %d: %s: %s\n", line, tried, what);
#ifdef PROMISES
  if (!right) abort();
#endif
}

/* The bytes that a struct or buffer has before a call. */
static void fill(void *at, size_t size) { memset(at, '~', size); }

static bool is_filled(const void *at, size_t size) {
  const char *bytes = (const char *)at;
  for (size_t i = 0; i < size; i++)
    if (bytes[i] != '~') return false;
  return true;
}

/* Whether each member is the same. What is between them has no value. */
static bool are_same(const struct lexicon_triple *a, const struct lexicon_triple *b) {
  return a->architecture == b->architecture && a->vendor == b->vendor && a->operating_system == b->operating_system &&
         a->environment == b->environment && a->binary_format == b->binary_format && a->has_version == b->has_version &&
         a->minor == b->minor && a->patch == b->patch && a->major == b->major && a->custom_vendor == b->custom_vendor &&
         a->custom_vendor_size == b->custom_vendor_size;
}

/* ---- each call as one that writes a string */

/* What a call is given: a string, the triple that it parses as or the error of parsing it, and numbers. */
struct asked {
  const char *text;
  size_t size;
  struct lexicon_error error;
  uint32_t numbers[4];
  struct lexicon_triple triple;
};

#define WRITES(name) static enum lexicon_status name(const struct asked *it, char *out, size_t size, size_t *length)
typedef enum lexicon_status writes(const struct asked *it, char *out, size_t size, size_t *length);

/* A call that writes a string, of what `it` has and the numbers `n`. */
#define TEXT(name, call) \
  WRITES(name) { \
    const uint32_t *n = it->numbers; \
    (void)n; \
    return call; \
  }

/* What a call answers otherwise, as one writes it that writes a string. */
static enum lexicon_status copied(const char *answer, char *out, size_t size, size_t *length) {
  if (size > PTRDIFF_MAX) return LEXICON_TOO_LARGE;
  if (answer == NULL) return LEXICON_NO_ANSWER;
  if (length) *length = strlen(answer);
  if (size <= strlen(answer)) return LEXICON_TOO_SMALL;
  strcpy(out, answer);
  return LEXICON_OK;
}

#define STRING(name, call) TEXT(name, copied(call, out, size, length))

/* A call that writes or changes the triple `made`, which is printed. At any other status it stays as it is. */
#define TRIPLE(name, call) \
  WRITES(name) { \
    const uint32_t *n = it->numbers; \
    struct lexicon_triple made = it->triple; \
    enum lexicon_status status = call; \
    (void)n; \
    if (status == LEXICON_OK) return lexicon_print(&made, out, size, length); \
    EXPECT(are_same(&made, &it->triple)); \
    return status; \
  }

TEXT(print, lexicon_print(&it->triple, out, size, length))
TEXT(rustc_cfg, lexicon_rustc_cfg(&it->triple, out, size, length))
TEXT(llvm_target, lexicon_llvm_target(&it->triple, out, size, length))
TEXT(multiarch_tuple, lexicon_multiarch_tuple(&it->triple, out, size, length))
TEXT(program_suffix, lexicon_program_suffix(&it->triple, out, size, length))
TEXT(written, lexicon_write(n[0], &it->triple, out, size, length, NULL))

/* The version of the C library or system with a number, in the order of the struct. */
static struct lexicon_versions versions_of(const uint32_t *n) {
  struct lexicon_versions versions;
  struct lexicon_os_version all[10] = {{0, 0, 0}};
  all[n[1]].major = (uint16_t)n[2];
  all[n[1]].minor = (uint8_t)n[3];
  memcpy(&versions, all, sizeof versions);
  return versions;
}
static enum lexicon_status versioned_name(const struct asked *it, char *out, size_t size, size_t *length,
    const char **why) {
  struct lexicon_versions versions = versions_of(it->numbers);
  return lexicon_write_versioned(it->numbers[0], &it->triple, &versions, out, size, length, why);
}
TEXT(versioned, versioned_name(it, out, size, length, NULL))
static const struct lexicon_versions GLIBC_AND_MACOS = {{2, 17, 0}, {0, 0, 0}, {11, 0, 0}, {0, 0, 0}, {0, 0, 0},
                                                        {0, 0, 0}, {0, 0, 0}, {0, 0, 0}, {0, 0, 0}, {0, 0, 0}};
TEXT(translated_versioned, lexicon_translate(LEXICON_DIALECT_OCI, it->text, it->size, LEXICON_CHOSEN_LIBC_GLIBC,
    &GLIBC_AND_MACOS, LEXICON_DIALECT_PYTHON, out, size, length, NULL))
TEXT(vendor_suggestion, lexicon_vendor_suggestion(&it->triple, out, size, length))
TEXT(settled_lines, lexicon_settle_lines(it->text, it->size, out, size, length))
TEXT(error_text, lexicon_error_text(it->text, it->size, &it->error, out, size, length))
TEXT(suggestion, lexicon_suggestion(it->text, it->size, &it->error, out, size, length))

TEXT(note, lexicon_note(n[0], it->text, it->size, out, size, length))
TEXT(name_suggestion, lexicon_name_suggestion(n[0], it->text, it->size, out, size, length))
STRING(name, lexicon_name(n[0], n[1]))

TRIPLE(parsed, lexicon_parse(it->text, it->size, &made, NULL))
TRIPLE(strict, lexicon_parse_strict(it->text, it->size, &made, NULL))
TRIPLE(settled, lexicon_settle(&made))
TRIPLE(completed, lexicon_complete(&made, n[0]))
TRIPLE(read, lexicon_read(n[0], it->text, it->size, &made, NULL))

/* The line and the carets of the error of reading a name. */
WRITES(read_error) {
  struct asked other = *it;
  EXPECT(lexicon_read(it->numbers[0], it->text, it->size, &other.triple, &other.error) == other.error.status);
  return error_text(&other, out, size, length);
}

typedef enum lexicon_status call_of_meanings(const char *, size_t, struct lexicon_meaning *, size_t, size_t *);

/* The meaning with a number, whose dialect is the second one, and whose note has the length of the third. */
static enum lexicon_status meaning_by(call_of_meanings *call, const struct asked *it, char *out, size_t size,
                                      size_t *length) {
  struct lexicon_meaning found[LEXICON_MAX_MEANINGS];
  size_t many = 0, number = it->numbers[0];
  enum lexicon_status status = call(it->text, it->size, found, LEXICON_MAX_MEANINGS, &many);
  if (status != LEXICON_OK || number >= many) return status == LEXICON_OK ? LEXICON_NO_ANSWER : status;
  EXPECT(found[number].dialect == it->numbers[1] &&
      (found[number].note ? strlen(found[number].note) : 0) == it->numbers[2]);
  EXPECT(call(it->text, it->size, NULL, 0, &many) == LEXICON_TOO_SMALL && many > number);
  return found[number].status == LEXICON_OK ? lexicon_print(&found[number].triple, out, size, length)
      : (enum lexicon_status)found[number].status;
}

WRITES(meaning) { return meaning_by(lexicon_meanings, it, out, size, length); }
WRITES(reader) { return meaning_by(lexicon_readers, it, out, size, length); }

/* The change with a number, whose part begins and ends at the others. */
WRITES(change) {
  struct lexicon_part part;
  fill(&part, sizeof part);
  enum lexicon_status status = lexicon_changes(it->text, it->size, it->numbers[0], &part, out, size, length);
  EXPECT(status == LEXICON_OK ? part.start == it->numbers[1] && part.end == it->numbers[2]
      : is_filled(&part, sizeof part));
  return status;
}

/* Where the target with a number is, whose array has room for one more than that; the other numbers are the count and
   its end. */
WRITES(target) {
  struct lexicon_part parts[3];
  size_t found = 77, number = it->numbers[0];
  fill(parts, sizeof parts);
  enum lexicon_status status = lexicon_targets(it->text, it->size, parts, number + 1, &found);
  EXPECT(is_filled(&parts[number + 1], sizeof parts - (number + 1) * sizeof *parts));
  if (status != LEXICON_OK && status != LEXICON_TOO_SMALL) return status;
  EXPECT((status == LEXICON_OK) == (found <= number + 1) && found == it->numbers[1] &&
      parts[number].end == it->numbers[2]);
  EXPECT(lexicon_targets(it->text, it->size, NULL, 0, &found) == LEXICON_TOO_SMALL && found == it->numbers[1]);
  return copied(it->text + parts[number].start, out, size, length);
}

/* What is meant instead of the part that a finding with a number has, which begins and ends at the others; without one
   its status. */
WRITES(finding) {
  struct lexicon_finding findings[2];
  size_t found = 77, number = it->numbers[0];
  char meant[64] = "";
  enum lexicon_status status = lexicon_check(it->text, it->size, findings, 2, &found);
  if (status != LEXICON_OK || number >= found) return status == LEXICON_OK ? LEXICON_NO_SUGGESTION : status;
  EXPECT(lexicon_check(it->text, it->size, NULL, 0, &found) == LEXICON_TOO_SMALL && found > number);
  EXPECT(findings[number].part.start == it->numbers[1] && findings[number].part.end == it->numbers[2]);
  if (findings[number].names == NULL) return (enum lexicon_status)findings[number].status;
  memcpy(meant, findings[number].names, findings[number].names_size);
  memcpy(meant + findings[number].names_size, it->text + findings[number].part.end - findings[number].kept,
      findings[number].kept);
  return copied(meant, out, size, length);
}

static enum lexicon_status translated_with(const struct asked *it, char *out, size_t size, size_t *length,
    struct lexicon_error *error) {
  return lexicon_translate(it->numbers[0], it->text, it->size, it->numbers[1], NULL, it->numbers[2], out, size, length,
      error);
}

TEXT(translated, translated_with(it, out, size, length, NULL))

/* Why a name isn't read, a triple isn't written, and a name isn't translated. */
static const char *unread(struct asked it) {
  return lexicon_read(it.numbers[0], it.text, it.size, &it.triple, &it.error) == LEXICON_OK ? NULL : it.error.reason;
}
static const char *unwritten(const struct asked *it, bool is_versioned) {
  const char *why = NULL;
  const uint32_t *n = it->numbers;
  enum lexicon_status status = is_versioned
      ? versioned_name(it, NULL, 0, NULL, &why)
      : lexicon_write(n[0], &it->triple, NULL, 0, NULL, &why);
  EXPECT((why != NULL) == (status == LEXICON_TRIPLE_WITHOUT_NAME || status == LEXICON_NEEDS_C_LIBRARY));
  return why;
}
static const char *untranslated(struct asked it) {
  return translated_with(&it, NULL, 0, NULL, &it.error) == LEXICON_TOO_SMALL ? NULL : it.error.reason;
}
STRING(reason, unread(*it))
STRING(write_reason, unwritten(it, false))
STRING(versioned_reason, unwritten(it, true))
STRING(translate_reason, untranslated(*it))

WRITES(translate_error) {
  struct asked other = *it;
  EXPECT(translated_with(it, NULL, 0, NULL, &other.error) == other.error.status);
  return error_text(&other, out, size, length);
}

static enum lexicon_status version_by(enum lexicon_status call(const struct lexicon_triple *,
    struct lexicon_os_version *),
                                      const struct asked *it, char *out, size_t size, size_t *length) {
  struct lexicon_os_version version = {0, 0, 0};
  char shown[64];
  enum lexicon_status status = call(&it->triple, &version);
  snprintf(shown, sizeof shown, "%d.%d.%d", version.major, version.minor, version.patch);
  return status == LEXICON_OK ? copied(shown, out, size, length) : status;
}
TEXT(macos_version, version_by(lexicon_macos_version, it, out, size, length))

STRING(comes_back, lexicon_comes_back(&it->triple) ? "yes" : "no")

WRITES(number) {
  uint32_t found = 0;
  char shown[16];
  enum lexicon_status status = lexicon_number(it->numbers[0], it->text, it->size, &found);
  snprintf(shown, sizeof shown, "%u", (unsigned)found);
  return status == LEXICON_OK ? copied(shown, out, size, length) : status;
}

WRITES(sources) {
  struct lexicon_sources of;
  struct lexicon_triple made = it->triple;
  char shown[200] = "";
  enum lexicon_status status = lexicon_explain(it->text, it->size, &made, &of, NULL);
  EXPECT((status == LEXICON_OK || status == it->error.status) && are_same(&made, &it->triple));
  const struct lexicon_source each[] = {of.architecture, of.vendor, of.operating_system, of.environment,
      of.binary_format};
  for (size_t i = 0; i < 5; i++)
    snprintf(shown + strlen(shown), sizeof shown - strlen(shown), "%s %d-%d; ", lexicon_origin_name(each[i].origin),
        (int)each[i].start, (int)each[i].end);
  return copied(shown, out, size, length);
}

static const char *or_none(const char *name) { return name ? name : "-"; }

WRITES(facts) {
  struct lexicon_triple_facts of;
  char shown[300];
  enum lexicon_status status = lexicon_all_facts(&it->triple, &of);
  if (status != LEXICON_OK) return status;
  snprintf(shown, sizeof shown, "%s %d %s %s: %d %d %d %d %d %d%s%s%s; %s %s %s; %s %s%s, %d/%d, %d/%d, v%d %s, %s%s%s",
           or_none(lexicon_endianness_name(of.endianness)), of.pointer_width,
           or_none(lexicon_calling_convention_name(of.default_calling_convention)),
           or_none(lexicon_data_model_name(of.data_model)), of.short_size, of.int_size, of.long_size, of.long_long_size,
           of.float_size, of.double_size,
           of.is_thumb ? " thumb" : "", of.is_like_darwin ? " darwin" : "", of.has_custom_vendor ? " custom" : "",
           lexicon_name(LEXICON_FIELD_BINARY_FORMAT, of.implied_format),
           lexicon_name(LEXICON_FIELD_BINARY_FORMAT, of.object_format),
           lexicon_family_name(of.family), or_none(lexicon_c_library_name(of.c_library)),
           or_none(lexicon_float_abi_name(of.float_abi)),
           of.is_unix ? " unix" : "", of.long_double_size, of.long_double_alignment, of.wchar_size, of.wchar_alignment,
           of.arm_version,
           or_none(lexicon_arm_profile_name(of.arm_profile)), or_none(lexicon_signedness_name(of.char_signedness)),
           of.has_emulated_tls ? " tls" : "", of.has_comdat ? " comdat" : "");
  return copied(shown, out, size, length);
}

/* ---- what each is expected to write, or else the status, with which nothing is written */

#define TEN "vvvvvvvvvv"
#define LONG TEN TEN TEN TEN TEN TEN TEN TEN TEN TEN TEN TEN TEN
#define SAY_LIBRARY "it depends on the C library: say glibc or musl"
#define NO_VERSION \
  "no version of its system or C library has these numbers: glibc has 2.x, musl 1.x, and macOS 10.x or later"
enum {
  DEBIAN = LEXICON_DIALECT_DEBIAN, GO = LEXICON_DIALECT_GO, OCI = LEXICON_DIALECT_OCI, NODE = LEXICON_DIALECT_NODE,
  GNU = LEXICON_DIALECT_GNU, PYTHON = LEXICON_DIALECT_PYTHON, RUST = LEXICON_DIALECT_RUST, APK = LEXICON_DIALECT_APK,
  GLIBC = LEXICON_CHOSEN_LIBC_GLIBC, MSVC = LEXICON_CHOSEN_LIBC_MSVC
};

static const struct row {
  writes *call;
  const char *text;
  uint32_t numbers[4];
  enum lexicon_status status;
  const char *expected;
} rows[] = {
  {parsed, "arm64-apple-darwin23.6", {0}, LEXICON_OK, "aarch64-apple-darwin23.6.0"},
  {parsed, "avr-" LONG "-linux", {0}, LEXICON_OK, "avr-" LONG "-linux"},
  {parsed, "x86_64-pc-linx", {0}, LEXICON_UNRECOGNIZED_OPERATING_SYSTEM, NULL},
  {strict, "x86_64-pc-linux", {0}, LEXICON_OK, "x86_64-pc-linux"},
  {strict, "x86_64-acme-linux", {0}, LEXICON_UNRECOGNIZED_VENDOR, NULL},
  {strict, "foo", {0}, LEXICON_UNRECOGNIZED_ARCHITECTURE, NULL},
  {print, "arm64-apple-ios17.2.1-macabi", {0}, LEXICON_OK, "aarch64-apple-ios17.2.1-macabi"},
  {settled, "riscv32imc-esp-espidf-elf", {0}, LEXICON_OK, "riscv32imc-esp-espidf"},
  {comes_back, "x86_64-unknown-linux-gnu", {0}, LEXICON_OK, "yes"},
  {comes_back, "armv7-nintendo-horizon-newlib", {0}, LEXICON_OK, "no"},
  {settled_lines, "armv7-nintendo-horizon-newlib-unknown\narm64-linux\nfoo\n\nx86_64-\xff\nx86_64-linux\r\navr-" LONG,
      {0}, LEXICON_OK,
   "armv7-nintendo-horizon\naarch64-unknown-linux\n\n\n\n\navr-" LONG "-unknown\n"},
  {sources, "x86_64-linux-gnu", {0}, LEXICON_OK, "given 0-6; not given 0-0; given 7-12; given 13-16; implied 0-0; "},
  {sources, "arm64-acme-ios17-elf", {0}, LEXICON_OK,
      "alias 0-5; given 6-10; alias 11-16; not given 0-0; given 17-20; "},
  {sources, "arm64-apple-ios1-x", {0}, LEXICON_OK,
      "alias 0-5; given 6-11; alias 12-16; not given 0-0; not given 0-0; "},

  {error_text, "x86_64-", {0}, LEXICON_OK, "Unrecognized vendor: \n  x86_64-\n         ^"},
  {error_text, "arm64-apple-macos14.2", {0}, LEXICON_OK,
      "Unrecognized operating system: macos14.2\n  arm64-apple-macos14.2\n"
   "              ^^^^^^^^^ did you mean `macosx14.2`?"},
  {error_text, "x86_64-linux-gn\xc3\xbc", {0}, LEXICON_OK,
      "Unrecognized environment: gn\\u{fc}\n  x86_64-linux-gn\\u{fc}\n               ^^^^^^^^"},
  {error_text, "x86_64-elf-linux", {0}, LEXICON_OK,
      "Unrecognized field: linux\n  x86_64-elf-linux\n             ^^^^^"},
  {error_text, "x86_64-\xe2\x82", {0}, LEXICON_OK, "Not UTF-8\n  x86_64-\\u{fffd}\\u{fffd}\n         ^^^^^^^^^^^^^^^^"},
  {error_text, "x86_64-\xff-linux", {0}, LEXICON_OK, "Not UTF-8\n  x86_64-\\u{fffd}-linux\n         ^^^^^^^^"},
  {error_text, "x86_64-\xf0\x9f\x98\x80'", {0}, LEXICON_OK,
      "Unrecognized vendor: \\u{1f600}'\n  x86_64-\\u{1f600}'\n         ^^^^^^^^^^"},
  {suggestion, "x86_64-pc-linx", {0}, LEXICON_OK, "linux"},
  {suggestion, "x86_64-gnu-linux", {0}, LEXICON_NO_SUGGESTION, NULL},
  {vendor_suggestion, "x86_64-iso17.2", {0}, LEXICON_OK, "ios17.2"},
  {vendor_suggestion, "x86_64-pc-linux", {0}, LEXICON_NO_SUGGESTION, NULL},

  {facts, "arm64-apple-ios17.2.1-elf", {0}, LEXICON_OK,
   "little 64 AppleAarch64 LP64: 2 4 8 8 4 8 darwin; macho elf aarch64; system - unix, 8/8, 4/4, v0 -, signed comdat"},
  {facts, "thumbv7m-acme-windows-eabi-elf", {0}, LEXICON_OK,
   "little 32 WindowsFastcall ILP32: 2 4 4 8 4 8 thumb custom; coff elf arm; - soft, 0/0, 2/2, v7 M, signed comdat"},
  {facts, "i686-pc-cygwin", {0}, LEXICON_OK,
      "little 32 - -: 2 4 4 8 4 8; elf coff x86_32; system - unix, 12/4, 2/2, v0 -, signed tls comdat"},
  {facts, "s390x-linux", {0}, LEXICON_OK,
      "big 64 SystemV LP64: 2 4 8 8 4 8; elf elf s390x; - - unix, 16/8, 4/4, v0 -, unsigned comdat"},
  {facts, "armv7-linux-gnueabihf", {0}, LEXICON_OK,
      "little 32 SystemV ILP32: 2 4 4 8 4 8; elf elf arm; glibc hard unix, 8/8, 4/4, v7 -, unsigned comdat"},
  {facts, "x86_64-pc-windows-msvc", {0}, LEXICON_OK,
      "little 64 WindowsFastcall LLP64: 2 4 4 8 4 8; coff coff x86_64; msvc -, 8/8, 2/2, v0 -, signed comdat"},
  {facts, "wasm32-wasi", {0}, LEXICON_OK,
      "little 32 WasmBasicCAbi ILP32: 2 4 4 8 4 8; wasm wasm wasm32; - -, 16/16, 4/4, v0 -, signed comdat"},
  {facts, "unknown", {0}, LEXICON_OK, "- 0 - -: 0 0 0 0 0 0; unknown unknown unknown; - -, 0/0, 0/0, v0 -, -"},
  {rustc_cfg, "avr-" LONG, {0}, LEXICON_OK,
      "target_abi=\"\"\ntarget_arch=\"avr\"\ntarget_endian=\"little\"\ntarget_env=\"\"\ntarget_os=\"unknown\"\n"
   "target_pointer_width=\"16\"\ntarget_vendor=\"" LONG "\"\n"},
  {llvm_target, "x86_64-apple-darwin22", {0}, LEXICON_OK, "x86_64-apple-macosx13.0.0"},
  {multiarch_tuple, "i686-pc-linux-gnu", {0}, LEXICON_OK, "i386-linux-gnu"},
  {multiarch_tuple, "x86_64-linux", {0}, LEXICON_TRIPLE_WITHOUT_NAME, NULL},
  {program_suffix, "i686-pc-linux-gnu", {0}, LEXICON_OK, ""},
  {program_suffix, "x86_64-pc-windows-msvc", {0}, LEXICON_OK, ".exe"},
  {macos_version, "x86_64-apple-darwin19.6", {0}, LEXICON_OK, "10.15.0"},
  {macos_version, "x86_64-apple-macosx10.15.7", {0}, LEXICON_OK, "10.15.7"},
  {macos_version, "x86_64-apple-darwin", {0}, LEXICON_NO_ANSWER, NULL},

  {completed, "armv7-acme-linux", {GLIBC}, LEXICON_OK, "armv7-acme-linux-gnueabihf"},
  {completed, "x86_64-windows", {MSVC}, LEXICON_OK, "x86_64-unknown-windows-msvc"},

  {number, "arm64", {LEXICON_FIELD_ARCHITECTURE}, LEXICON_OK, "44"},
  {number, "acme", {LEXICON_FIELD_VENDOR}, LEXICON_OK, "255"},
  {number, "ios17.2", {LEXICON_FIELD_OPERATING_SYSTEM}, LEXICON_OK, "18"},
  {number, "gnu", {LEXICON_FIELD_ENVIRONMENT}, LEXICON_OK, "6"},
  {number, "gnu", {LEXICON_FIELD_BINARY_FORMAT}, LEXICON_UNRECOGNIZED_BINARY_FORMAT, NULL},
  {number, "\xff", {LEXICON_FIELD_VENDOR}, LEXICON_NOT_UTF8, NULL},
  {number, "\xff", {5}, LEXICON_NO_SUCH_FIELD, NULL},
  {name, "", {LEXICON_FIELD_ARCHITECTURE, LEXICON_ARCHITECTURE_ARMV8M_MAIN}, LEXICON_OK, "armv8m.main"},
  {name, "", {LEXICON_FIELD_VENDOR, LEXICON_VENDOR_CUSTOM}, LEXICON_NO_ANSWER, NULL},
  {name, "", {LEXICON_FIELD_ARCHITECTURE, 256}, LEXICON_NO_ANSWER, NULL},
  {name, "", {5, 0}, LEXICON_NO_ANSWER, NULL},

  {read, "x86_64-w64-mingw32", {0}, LEXICON_OK, "x86_64-pc-windows-gnu"},
  {read, "armhf", {DEBIAN}, LEXICON_OK, "armv7-unknown-linux-gnueabihf"},
  {read, "@esbuild/linux-x64", {NODE}, LEXICON_OK, "x86_64-unknown-linux"},
  {read, "ios_65535_255_arm64_iphonesimulator", {PYTHON}, LEXICON_OK, "aarch64-apple-ios65535.255.0-sim"},
  {read_error, "amd64-pc-linx", {0}, LEXICON_OK,
      "Unrecognized operating system: linx\n  amd64-pc-linx\n           ^^^^ did you mean `linux`?"},
  {read_error, "\xff", {GO}, LEXICON_OK, "Not UTF-8\n  \\u{fffd}\n  ^^^^^^^^"},
  {read_error, "linux/amd46", {GO}, LEXICON_OK, "Unknown name: linux/amd46\n  linux/amd46\n  ^^^^^^^^^^^"},
  {read_error, "plan9/386", {GO}, LEXICON_OK, "No triple has this name: plan9/386\n  plan9/386\n  ^^^^^^^^^"},
  {read_error, "linux/amd64", {77}, LEXICON_NO_SUCH_VALUE, NULL},
  {reason, "plan9/386", {GO}, LEXICON_OK, "Plan 9 is no known name"},
  {name_suggestion, "linux/amd46", {GO}, LEXICON_OK, "linux/amd64"},
  {name_suggestion, "linux/amd64", {GO}, LEXICON_NO_SUGGESTION, NULL},
  {name_suggestion, "linux/amd46", {0}, LEXICON_NO_SUGGESTION, NULL},
  {name_suggestion, "linux/amd46", {77}, LEXICON_NO_SUGGESTION, NULL},
  {name_suggestion, "linux/\xff", {GO}, LEXICON_NO_SUGGESTION, NULL},
  {note, "x86_64\xe2\x80\x93linux", {0}, LEXICON_OK, "in ASCII it is `x86_64-linux`"},
  {note, "linux/amr64", {0}, LEXICON_OK, "its words say linux, and no single machine known here"},
  {note, "armeabi-v7a", {0}, LEXICON_OK, "its words name armv7-linux-androideabi"},
  {note, "x86_64-linux-foo", {0}, LEXICON_NO_SUGGESTION, NULL},
  {note, "Linux/AMD64", {GO}, LEXICON_OK, "capital letters matter"},
  {note, "linux/amd64", {GO}, LEXICON_NO_SUGGESTION, NULL},
  {note, "linux/amd64", {0}, LEXICON_NO_SUGGESTION, NULL},
  {note, "linux/\xff", {77}, LEXICON_NO_SUGGESTION, NULL},

  {written, "x86_64-acme-linux-gnu", {DEBIAN}, LEXICON_OK, "amd64"},
  {written, "x86_64-acme-linux-gnu", {GNU}, LEXICON_OK, "x86_64-linux-gnu"},
  {written, "avr-none", {GO}, LEXICON_TRIPLE_WITHOUT_NAME, NULL},
  {written, "x86_64-linux", {DEBIAN}, LEXICON_NEEDS_C_LIBRARY, NULL},
  {written, "x86_64-windows", {RUST}, LEXICON_NEEDS_C_LIBRARY, NULL},
  {written, "x86_64-linux", {0}, LEXICON_NO_SUCH_DIALECT, NULL},
  {write_reason, "avr-none", {GO}, LEXICON_OK, "the tool has no name for this machine on any system"},
  {write_reason, "x86_64-linux", {0}, LEXICON_NO_ANSWER, NULL},
  {versioned, "x86_64-acme-linux-gnu", {PYTHON, 0, 2, 17}, LEXICON_OK, "manylinux_2_17_x86_64"},
  {versioned, "aarch64-linux-musl", {PYTHON, 1, 1, 2}, LEXICON_OK, "musllinux_1_2_aarch64"},
  {versioned, "aarch64-apple-darwin", {PYTHON, 2, 11, 0}, LEXICON_OK, "macosx_11_0_arm64"},
  {versioned, "aarch64-apple-ios", {PYTHON, 3, 17, 1}, LEXICON_OK, "ios_17_1_arm64_iphoneos"},
  {versioned, "aarch64-linux-android", {PYTHON, 4, 21, 0}, LEXICON_OK, "android_21_arm64_v8a"},
  {versioned, "x86_64-unknown-freebsd", {PYTHON, 5, 14, 1}, LEXICON_OK, "freebsd_14_1_release_amd64"},
  {versioned, "x86_64-unknown-freebsd", {PYTHON, 0, 2, 17}, LEXICON_TRIPLE_WITHOUT_NAME, NULL},
  {versioned, "x86_64-unknown-linux-gnu", {PYTHON, 2, 11, 0}, LEXICON_OK, "linux_x86_64"},
  {versioned, "x86_64-unknown-linux-gnu", {PYTHON, 0, 65535, 255}, LEXICON_TRIPLE_WITHOUT_NAME, NULL},
  {versioned, "x86_64-unknown-linux", {PYTHON, 0, 2, 17}, LEXICON_OK, "manylinux_2_17_x86_64"},
  {versioned, "x86_64-unknown-linux", {DEBIAN, 2, 11, 0}, LEXICON_NEEDS_C_LIBRARY, NULL},
  {versioned_reason, "x86_64-unknown-linux-gnu", {PYTHON, 0, 11, 0}, LEXICON_OK, NO_VERSION},
  {versioned_reason, "x86_64-unknown-linux", {DEBIAN, 2, 11, 0}, LEXICON_OK, SAY_LIBRARY},
  {translated_versioned, "linux/amd64", {0}, LEXICON_OK, "manylinux_2_17_x86_64"},
  {translated_versioned, "darwin/arm64", {0}, LEXICON_OK, "macosx_11_0_arm64"},

  {translated, "linux/arm64/v8", {OCI, GLIBC, RUST}, LEXICON_OK, "aarch64-unknown-linux-gnu"},
  {translated, "linux/amd64/v3", {OCI, GLIBC, DEBIAN}, LEXICON_OK, "amd64v3"},
  {translated, "linux/amd64/v3", {OCI, GLIBC, RUST}, LEXICON_TRIPLE_WITHOUT_NAME, NULL},
  {translated, "x86_64-w64-mingw32", {0, 0, NODE}, LEXICON_OK, "win32-x64-gnu"},
  {translated, "x86_64-unknown-linux", {0, GLIBC, DEBIAN}, LEXICON_OK, "amd64"},
  {translated, "linux/amd64", {OCI, 0, DEBIAN}, LEXICON_NEEDS_C_LIBRARY, NULL},
  {translated, "windows/amd64", {OCI, GLIBC, DEBIAN}, LEXICON_TRIPLE_WITHOUT_NAME, NULL},
  {translated, "js/wasm", {GO, 0, OCI}, LEXICON_NAME_WITHOUT_TRIPLE, NULL},
  {translate_error, "linux/amd64", {OCI, 0, DEBIAN}, LEXICON_OK,
      "No name in the other dialect: linux/amd64\n  linux/amd64\n  ^^^^^^^^^^^"},
  {translate_error, "js/wasm", {GO, 0, OCI}, LEXICON_OK, "No triple has this name: js/wasm\n  js/wasm\n  ^^^^^^^"},
  {translate_reason, "linux/amd64", {OCI, 0, DEBIAN}, LEXICON_OK, SAY_LIBRARY},
  {translate_reason, "plan9/386", {GO, 0, OCI}, LEXICON_OK, "Plan 9 is no known name"},

  {change, "amd64-unknown-freebsd13.2", {0, 0, 5}, LEXICON_OK, "x86_64"},
  {change, "amd64-unknown-freebsd13.2", {1, 14, 25}, LEXICON_OK, "freebsd"},
  {change, "amd64-unknown-freebsd13.2", {2}, LEXICON_NO_SUCH_CHANGE, NULL},
  {target, "- arm64 # no\n- linux/amd46", {0, 2, 7}, LEXICON_OK, "arm64 # no\n- linux/amd46"},
  {target, "run: add `wasm32-wasip1`, x86_64-linxu", {1, 2, 38}, LEXICON_OK, "x86_64-linxu"},
  {target, "\xff", {0}, LEXICON_NOT_UTF8, NULL},
  {finding, "target: x86_64-unknown-linux-gnuu", {0, 29, 33}, LEXICON_OK, "gnu"},
  {finding, "platform: linux/amd46, linux/foo", {0, 10, 21}, LEXICON_OK, "linux/amd64"},
  {finding, "platform: linux/amd46, linux/foo", {1, 23, 32}, LEXICON_NO_ANSWER, NULL},
  {finding, "target: arm64-aple-macosx14", {0, 14, 18}, LEXICON_OK, "apple"},
  {finding, "target: arm64-apple-darwn22", {0, 20, 27}, LEXICON_OK, "darwin22"},
  {finding, "x: armv7-unknown-linux-gnueabhif", {0, 23, 32}, LEXICON_UNRECOGNIZED_ENVIRONMENT, "gnueabihf"},
  {finding, "target: x86_64-unknown-linux-gnu", {0}, LEXICON_NO_SUGGESTION, NULL},
  {finding, "\xff", {0}, LEXICON_NOT_UTF8, NULL},
  {meaning, "armhf", {0, DEBIAN}, LEXICON_OK, "armv7-unknown-linux-gnueabihf"},
  {meaning, "armhf", {1, APK}, LEXICON_OK, "armv6-unknown-linux-musleabihf"},
  {meaning, "armhf", {2}, LEXICON_NO_ANSWER, NULL},
  {meaning, "amd64", {1, GO, 26}, LEXICON_NAME_WITHOUT_TRIPLE, NULL},
  {meaning, "linux/arm64/v8.1", {0, OCI, 4}, LEXICON_OK, "aarch64-unknown-linux"},
  {meaning, "linux-x64-v3", {0, LEXICON_BY_WORDS, 2}, LEXICON_OK, "x86_64-unknown-linux"},
  {reader, "linux/amd64", {1, OCI}, LEXICON_OK, "x86_64-unknown-linux"},
  {reader, "linux/amd64", {2}, LEXICON_NO_ANSWER, NULL},
  {reader, "aarch64--netbsd", {0}, LEXICON_OK, "aarch64-unknown-netbsd"},
  {reader, "plan9/amd64", {0, GO, 23}, LEXICON_NAME_WITHOUT_TRIPLE, NULL},
  {reader, "x86_64-linux", {0}, LEXICON_NO_ANSWER, NULL},
};

static struct asked asked_of(const char *text) {
  struct asked it;
  fill(&it, sizeof it);
  tried = text;
  it.text = *text ? text : NULL;
  it.size = strlen(text);
  enum lexicon_status status = lexicon_parse(it.text, it.size, &it.triple, &it.error);
  EXPECT(status == LEXICON_OK ? is_filled(&it.error, sizeof it.error)
      : is_filled(&it.triple, sizeof it.triple) && it.error.status == (uint32_t)status);
  return it;
}

/* Whether what follows the first bytes of the expected string fits in a buffer with them: a line of several, or a
   character. */
static bool fits(const struct row *row, size_t kept, size_t room) {
  const char *rest = row->expected + kept;
  size_t next = row->call == settled_lines ? strcspn(rest, "\n") : 2; /* no character here has more than two bytes */
  return kept + next < room;
}

/* Makes the call of a row with a buffer of exactly the size, each smaller one, or each so many-th, none, and one that no
   memory has. */
#ifndef ROOMS
#define ROOMS 1
#endif
static void try_row(const struct row *row) {
  struct asked it = asked_of(row->text);
  memcpy(it.numbers, row->numbers, sizeof it.numbers);
  char out[512];
  size_t length = 77;
  fill(out, sizeof out);
  if (row->expected == NULL) {
    EXPECT(row->call(&it, out, sizeof out, &length) == row->status && length == 77 && is_filled(out, sizeof out));
    return;
  }
  const size_t size = strlen(row->expected);
  EXPECT(row->call(&it, out, (size_t)-1, &length) == LEXICON_TOO_LARGE && length == 77 && is_filled(out, sizeof out));
  EXPECT(row->call(&it, out, size + 1, &length) == LEXICON_OK && length == size);
  EXPECT(memcmp(out, row->expected, size + 1) == 0 && is_filled(out + size + 1, sizeof out - size - 1));
  length = 0;
  EXPECT(row->call(&it, NULL, 0, &length) == LEXICON_TOO_SMALL && length == size);
  EXPECT(row->call(&it, out, sizeof out, NULL) == LEXICON_OK);
  for (size_t room = 1; room <= size; room += ROOMS) {
    fill(out, sizeof out);
    length = 0;
    EXPECT(row->call(&it, out, room, &length) == LEXICON_TOO_SMALL && length == size);
    if (row->call != settled_lines && row->call != error_text && row->call != read_error &&
        row->call != translate_error) {
      EXPECT(is_filled(out, sizeof out));
    } else {
      size_t kept = strlen(out);
      EXPECT(kept < room && memcmp(out, row->expected, kept) == 0 && is_filled(out + kept + 1, sizeof out - kept - 1));
      EXPECT(kept == room - 1 || !fits(row, kept, room));
    }
  }
}

/* ---- errors and sizes that are wrong */

/* Errors that are none of the string, and control characters. */
static void try_bad_errors(void) {
  static const struct lexicon_error bad[] = {{0, 0, 1, NULL}, {8, 0, 1, NULL}, {1, 2, 1, NULL}, {1, 0, 9, NULL},
      {3, 2, 3, NULL}, {7, 9, 9, NULL}};
  struct asked it = asked_of("a\xc3\xbc");
  char out[128];
  size_t length = 77;
  fill(out, sizeof out);
  for (size_t i = 0; i < sizeof bad / sizeof *bad; i++) {
    it.error = bad[i];
    EXPECT(error_text(&it, out, 8, &length) == LEXICON_NO_SUCH_VALUE);
    EXPECT(suggestion(&it, out, 8, &length) == LEXICON_NO_SUGGESTION);
  }
  EXPECT(lexicon_error_text(it.text, 3, NULL, out, 8, NULL) == LEXICON_NO_SUCH_VALUE);
  EXPECT(lexicon_suggestion(it.text, 3, NULL, out, 8, NULL) == LEXICON_NO_SUGGESTION && length == 77 &&
      is_filled(out, sizeof out));
  it.error.reason = out;
  EXPECT(lexicon_parse_strict("x86_64-linx", 11, &it.triple, &it.error) == LEXICON_UNRECOGNIZED_VENDOR &&
      it.error.status == LEXICON_UNRECOGNIZED_VENDOR);
  EXPECT(it.error.start == 7 && it.error.end == 11 && it.error.reason == NULL);
  it.error.status = LEXICON_UNRECOGNIZED_ARCHITECTURE;
  it.error.start = 0;
  it.error.end = 9;
  EXPECT(lexicon_error_text("\x1b[31m\xe2\x80\xae!", 9, &it.error, out, sizeof out, NULL) == LEXICON_OK);
  EXPECT(strcmp(out,
      "Unrecognized architecture: \\u{1b}[31m\\u{202e}!\n  \\u{1b}[31m\\u{202e}!\n  ^^^^^^^^^^^^^^^^^^^") == 0);
}

/* Of a long part, and of what is around it, 200 characters are shown, and three dots. */
static void try_long_error(void) {
  static const struct lexicon_error error = {LEXICON_UNRECOGNIZED_ARCHITECTURE, 300, 600, NULL};
  char text[999], out[2048];
  size_t length;
  memset(text, 'Z', sizeof text);
  EXPECT(lexicon_error_text(text, sizeof text, &error, out, sizeof out, &length) == LEXICON_OK);
  EXPECT(length == strlen("Unrecognized architecture: ") + 203 + 3 + 3 * 203 + 3 + 2 * 203 && strspn(out + 27, "Z") == 200);
}

/* Sizes that no memory has, of which one is 4 with a bit more. What is there isn't looked at, and nothing is
   written. */
static void try_too_large(void) {
  static writes *const calls[] = {settled_lines, error_text, suggestion, note, name_suggestion, parsed, strict, read,
      meaning, change, translated, number};
  static writes *const strings[] = {reason, translate_reason};
  const size_t sizes[] = {(size_t)PTRDIFF_MAX + 1, (size_t)PTRDIFF_MAX + 5, SIZE_MAX};
  struct asked it = asked_of("x86_64-linux"), other = it;
  struct lexicon_sources of;
  struct lexicon_error error;
  char out[64];
  size_t length = 77;
  fill(out, sizeof out);
  for (size_t i = 0; i < sizeof sizes / sizeof *sizes; i++) {
    it.size = sizes[i];
    for (uint32_t from = 0; from < 78; from += 77) { /* whatever else is wrong */
      it.numbers[0] = from;
      for (size_t j = 0; j < sizeof calls / sizeof *calls; j++)
        EXPECT(calls[j](&it, out, sizeof out, &length) == LEXICON_TOO_LARGE);
      for (size_t j = 0; j < sizeof strings / sizeof *strings; j++)
        EXPECT(strings[j](&it, out, sizeof out, &length) == LEXICON_NO_ANSWER);
    }
    EXPECT(lexicon_explain(it.text, it.size, &other.triple, &of, &error) == LEXICON_TOO_LARGE &&
        of.architecture.origin == LEXICON_ORIGIN_NOT_GIVEN);
    EXPECT(error.status == LEXICON_TOO_LARGE && error.start == 0 && error.end == 0 &&
        are_same(&it.triple, &other.triple));
    EXPECT(lexicon_facts(&it.triple, (struct lexicon_triple_facts *)(void *)out, sizes[i]) == LEXICON_TOO_LARGE);
  }
  it.size = 12; /* of an array */
  for (size_t most = PTRDIFF_MAX / sizeof(struct lexicon_part) + 1; most; most <<= 1)
    EXPECT(lexicon_targets(it.text, it.size, (struct lexicon_part *)(void *)out, most, &length) == LEXICON_TOO_LARGE &&
        lexicon_targets("\xff", 1, (struct lexicon_part *)(void *)out, most, &length) == LEXICON_TOO_LARGE &&
        lexicon_check("\xff", 1, (struct lexicon_finding *)(void *)out, most, &length) == LEXICON_TOO_LARGE);
  it.size = SIZE_MAX;
  it.numbers[0] = it.numbers[2] = 77;
  EXPECT(written(&it, out, SIZE_MAX, &length) == LEXICON_TOO_LARGE &&
      suggestion(&it, out, SIZE_MAX, &length) == LEXICON_TOO_LARGE);
  it.size = 12;
  EXPECT(translated(&it, out, SIZE_MAX, &length) == LEXICON_TOO_LARGE &&
      suggestion(&it, out, SIZE_MAX, &length) == LEXICON_TOO_LARGE &&
      name_suggestion(&it, out, SIZE_MAX, &length) == LEXICON_TOO_LARGE);
  EXPECT(lexicon_error_text(it.text, it.size, NULL, out, SIZE_MAX, &length) == LEXICON_TOO_LARGE);
  it.triple.environment = 255;
  EXPECT(vendor_suggestion(&it, out, sizeof out, &length) == LEXICON_NO_SUCH_VALUE);
  EXPECT(print(&it, out, SIZE_MAX, &length) == LEXICON_TOO_LARGE &&
      vendor_suggestion(&it, out, SIZE_MAX, &length) == LEXICON_TOO_LARGE);
  EXPECT(length == 77 && is_filled(out, sizeof out));
}

/* ---- the others */

static void try_pairs(void) {
  static const struct { const char *first, *second; bool equal, same; } pairs[] = {
      {"x86_64-linux", "x86_64-unknown-linux", true, true}, {"x86_64-linux", "x86_64-linux-gnu", false, false},
      {"x86_64-acme-linux", "x86_64-acme-linux-unknown", true, true},
      {"x86_64-acme-linux", "x86_64-acmf-linux", false, false},
      {"riscv32imc-esp-espidf", "riscv32imc-espressif-espidf-unknown-elf", false, true}};
  for (size_t i = 0; i < sizeof pairs / sizeof *pairs; i++) {
    struct lexicon_triple first = asked_of(pairs[i].first).triple, second = asked_of(pairs[i].second).triple;
    EXPECT(lexicon_equal(&first, &second) == pairs[i].equal);
    EXPECT(lexicon_same_target(&first, &second) == pairs[i].same);
  }
}

/* The struct as the header says: each number by its name, and 0 in what is not read. */
static void try_struct(void) {
  static const char custom[] = "avr-acme-linux";
  struct asked it = asked_of("arm64-apple-ios17.2.1-macabi");
  EXPECT(it.triple.architecture == LEXICON_ARCHITECTURE_AARCH64 && it.triple.vendor == LEXICON_VENDOR_APPLE);
  EXPECT(it.triple.operating_system == LEXICON_OPERATING_SYSTEM_IOS &&
      it.triple.environment == LEXICON_ENVIRONMENT_MACABI);
  EXPECT(it.triple.binary_format == LEXICON_BINARY_FORMAT_MACHO && it.triple.has_version == 1);
  EXPECT(it.triple.major == 17 && it.triple.minor == 2 && it.triple.patch == 1);
  EXPECT(it.triple.custom_vendor == NULL && it.triple.custom_vendor_size == 0);
  it = asked_of(custom);
  EXPECT(it.triple.vendor == LEXICON_VENDOR_CUSTOM && it.triple.custom_vendor == custom + 4 &&
      it.triple.custom_vendor_size == 4);
  it = asked_of("armv7-nintendo-horizon-newlib"); /* printed without the environment */
  EXPECT(lexicon_settle(&it.triple) == LEXICON_OK && it.triple.environment == LEXICON_ENVIRONMENT_UNKNOWN);
  memset(&it.triple, 0, sizeof it.triple);
  char out[32];
  EXPECT(lexicon_print(&it.triple, out, sizeof out, NULL) == LEXICON_OK && strcmp(out, "unknown-unknown-unknown") == 0);
}

static void try_names(void) {
  EXPECT(strcmp(lexicon_status_name(LEXICON_NO_ANSWER), "no answer") == 0 &&
      lexicon_status_name(LEXICON_NO_ANSWER + 1) == NULL);
  EXPECT(strcmp(lexicon_field_name(LEXICON_FIELD_BINARY_FORMAT), "binary format") == 0 &&
      lexicon_field_name(LEXICON_FIELD_BINARY_FORMAT + 1) == NULL);
  EXPECT(strcmp(lexicon_origin_name(LEXICON_ORIGIN_ALIAS), "alias") == 0 &&
      lexicon_endianness_name(LEXICON_ENDIANNESS_NONE) == NULL);
  EXPECT(lexicon_dialect_named("go") == LEXICON_DIALECT_GO && lexicon_dialect_named("podman") == LEXICON_DIALECT_NONE);
  EXPECT(lexicon_dialect_named("docker") == LEXICON_DIALECT_OCI &&
      lexicon_dialect_named("npm") == LEXICON_DIALECT_NODE);
  EXPECT(strncmp(lexicon_version(), LEXICON_VERSION, strlen(LEXICON_VERSION)) == 0);
  EXPECT(asked_of(lexicon_host()).triple.architecture != LEXICON_ARCHITECTURE_UNKNOWN);
  EXPECT(LEXICON_VERSION_NUMBER >= 5000 && LEXICON_VERSION_NUMBER % 1000 == LEXICON_VERSION_PATCH);
}

static unsigned try_calls(void) {
  for (size_t i = 0; i < sizeof rows / sizeof *rows; i++) try_row(&rows[i]);
  try_bad_errors();
  try_long_error();
  try_too_large();
  try_pairs();
  try_struct();
  try_names();
  fprintf(stderr, "calls: %u right, %u wrong\n", count - failures, failures);
  return failures;
}

#ifndef PROMISES
int main(void) { return try_calls() != 0; }
#endif
