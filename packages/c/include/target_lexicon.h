/* Target triples for C: parsing, printing, queries, and the names of other tools. `target_lexicon.hpp` beside it is for
   C++17.

   A triple is a struct of numbers, which you may `switch` over, copy and keep. Only a custom vendor is a string: the
   struct has a pointer to it, so the string that was parsed must stay as long as the struct is used.

       struct lexicon_triple triple;
       struct lexicon_error error;
       if (lexicon_parse(LEXICON_Z(text), &triple, &error) != LEXICON_OK) {
         char why[256];
         lexicon_error_text(LEXICON_Z(text), &error, why, sizeof why, NULL);
         fprintf(stderr, "%s\n", why);
       }

   Names are case-sensitive. Names, rules and tables are those of the Rust crate target-lexicon 0.13.5 (upstream), even
   where toolchains differ (docs/DIFFERENCES.md). Parsing, printing, keys and queries are compiled from source that is
   proved to follow written definitions (docs/PROOF.md), which were compared with upstream; one rule of printing
   differs.

   A string goes in as a pointer and a size. It needs no zero byte at its end, and need not be UTF-8. Of a string that
   ends in a zero byte, LEXICON_Z is both arguments. A string comes out into the caller's buffer, with a zero byte after
   it, and *length becomes the length of the whole string without that byte, even if the buffer is too small. Such a
   buffer is unchanged, except where a call says otherwise.

   A string or a buffer of size 0 may be null, as with snprintf, and so may `length`, `error`, `reason`, `note` and
   `versions`; no other pointer may. What a call writes may not overlap any other argument, and no other byte is
   changed. No memory has more than PTRDIFF_MAX bytes, so a larger size is a mistake: the status is LEXICON_TOO_LARGE
   whatever else is wrong, or the returned string is null. No call allocates, waits, or stops the program, and nothing
   is kept or shared between calls. So threads and signal handlers may make calls at any time.

   Most calls return a status. Except where a call says otherwise, it writes nothing if the status is not LEXICON_OK. A
   struct with a number that names no value gives LEXICON_NO_SUCH_VALUE, and one with a custom vendor that no string
   parses as gives LEXICON_NO_SUCH_VENDOR. If several fields are wrong, the status is that of the first one, in the
   order of the struct. Of two structs that are wrong, the status is the first one's.

   The members of the structs are integers of fixed sizes. Cast one to its enum, so that -Wswitch reports the values
   that a switch leaves out.

   SPDX-License-Identifier: Apache-2.0 WITH LLVM-exception */
#ifndef TARGET_LEXICON_VERIFIED_H
#define TARGET_LEXICON_VERIFIED_H

#include <stdbool.h>
#include <stddef.h>
#include <stdint.h>
#include <string.h>

/* The version of this header. lexicon_version() is that of the library. */
#define LEXICON_VERSION_MAJOR 0
#define LEXICON_VERSION_MINOR 5
#define LEXICON_VERSION_PATCH 0
#define LEXICON_VERSION "0.5.0"
/* The version as one number, of which two may be compared: 1000000 * major + 1000 * minor + patch. */
#define LEXICON_VERSION_NUMBER \
  (1000000L * LEXICON_VERSION_MAJOR + 1000L * LEXICON_VERSION_MINOR + LEXICON_VERSION_PATCH)

/* A string that ends in a zero byte, and its size. The string is evaluated twice. */
#define LEXICON_Z(text) (text), strlen(text)

#if defined(__GNUC__)
#define LEXICON_CHECKED __attribute__((warn_unused_result))
#define LEXICON_NONNULL(...) __attribute__((nonnull(__VA_ARGS__)))
#else
#define LEXICON_CHECKED
#define LEXICON_NONNULL(...)
#endif

#ifdef __cplusplus
#define LEXICON_AS(of, it) static_cast<of>(it)
#define LEXICON_NULL nullptr
extern "C" {
#else
#define LEXICON_AS(of, it) ((of)(it))
#define LEXICON_NULL NULL
#endif

enum lexicon_field {
  LEXICON_FIELD_ARCHITECTURE = 0,
  LEXICON_FIELD_VENDOR = 1,
  LEXICON_FIELD_OPERATING_SYSTEM = 2,
  LEXICON_FIELD_ENVIRONMENT = 3,
  LEXICON_FIELD_BINARY_FORMAT = 4
};

/* Zeros are the unknown triple. What the library writes has 0 in every field that is not read, and its custom_vendor
   points into the string that was parsed. Compare two structs with lexicon_equal: memcmp would compare their padding
   too.

   LEXICON_BINARY_FORMAT_UNKNOWN is a format of its own, which parsing gives only if no other is implied. If you fill in
   a struct yourself, call lexicon_facts and set binary_format to facts.implied_format. */
struct lexicon_triple {
  uint16_t architecture;     /* enum lexicon_architecture */
  uint8_t vendor;            /* enum lexicon_vendor */
  uint8_t operating_system;  /* enum lexicon_operating_system */
  uint8_t environment;       /* enum lexicon_environment */
  uint8_t binary_format;     /* enum lexicon_binary_format */
  uint8_t has_version;       /* 1 if the system has a version, which only a system like Darwin may have, otherwise 0 */
  uint8_t minor, patch;      /* the version is read only if has_version is 1 */
  uint16_t major;
  const char *custom_vendor; /* read only if the vendor is LEXICON_VENDOR_CUSTOM; no zero byte follows it */
  size_t custom_vendor_size;
};

/* Why a string is refused: the status, from 1 to 7 or one that lexicon_read names, and where the refused part is. Here
   and below, start and end are byte indices: of the part's first byte, and of the byte after its last. They are equal
   for an empty part, which may be at the end of the string. In a string that isn't UTF-8, the part is the first bytes
   that are no character. At LEXICON_TOO_LARGE both are 0. The reason is why a name has no triple, or isn't written, and
   what would help: null, except at LEXICON_NAME_WITHOUT_TRIPLE, LEXICON_TRIPLE_WITHOUT_NAME and
   LEXICON_NEEDS_C_LIBRARY. It is no input of any call. */
struct lexicon_error {
  uint32_t status; /* enum lexicon_status */
  size_t start, end;
  const char *reason;
};

/* Where the value of a field comes from. start and end are 0 unless a part of the string gives it. */
enum lexicon_origin {
  LEXICON_ORIGIN_NOT_GIVEN = 0, /* no part of the string is of this field, which is unknown */
  LEXICON_ORIGIN_GIVEN = 1,     /* this part of the string, which is the name of the value, as it is printed */
  LEXICON_ORIGIN_IMPLIED = 2,   /* the binary format that the other fields imply */
  LEXICON_ORIGIN_ALIAS = 3      /* this part of the string, which is another spelling: arm64, or ios17 for ios17.0.0. A
                                   special string such as armv6k-nintendo-3ds is one part, of all fields */
};
struct lexicon_source {
  uint32_t origin; /* enum lexicon_origin */
  size_t start, end;
};
struct lexicon_sources {
  struct lexicon_source architecture, vendor, operating_system, environment, binary_format;
};

/* The enums of statuses, dialects, values of fields and answers, with what each number means; and struct
   lexicon_triple_facts. */
#include "target_lexicon_values.h"

/* A version of one of Apple's systems. */
struct lexicon_os_version {
  uint16_t major;
  uint8_t minor, patch;
};

/* Versions that names state and triples don't have, each of a C library or a system; a major of 0 is none. Those of
   Android are API levels, and those of Windows builds of Windows 10 or later. The third number isn't used. */
struct lexicon_versions {
  struct lexicon_os_version glibc, musl, macos, ios, android, freebsd, netbsd, openbsd, dragonfly, windows;
};

/* A part of a string, such as a target in a text. */
struct lexicon_part {
  size_t start, end;
};

/* In the place of a dialect, of what nobody has as a name: the words of the string say just this. */
#define LEXICON_BY_WORDS 255

/* What a string means to one of those who have it as a name: the canonical triple. Where the dialect has the name and
   no triple means the same, the status is LEXICON_NAME_WITHOUT_TRIPLE, and the triple is the unknown one. */
struct lexicon_meaning {
  uint32_t dialect; /* LEXICON_DIALECT_NONE of a string that parses, or is spelled like a triple; LEXICON_BY_WORDS */
  uint32_t status;
  struct lexicon_triple triple;
  /* At LEXICON_OK the level of the machine that the name says and the triple can't state, such as v3 of linux/amd64/v3:
     then lexicon_translate has the names at this level. Else why no triple means the same. Null if there is neither. */
  const char *note;
};

/* What is wrong with a word of a text. From 1 to 5 the status is that of a refused string, at which the part isn't what
   was expected; a vendor that nobody has and that resembles a name has 2. At LEXICON_UNKNOWN_NAME no tool has the word
   as a name. At LEXICON_NO_ANSWER it may be a target, and isn't understood. With the names, which are null if there are
   none, and the last `kept` bytes of the part after them, instead of the part, the word is what was perhaps meant. */
struct lexicon_finding {
  struct lexicon_part word, part; /* of the text */
  uint32_t status;
  const char *names; /* without a zero byte at the end */
  size_t names_size, kept;
};

/* No string has more meanings. */
#define LEXICON_MAX_MEANINGS 32

/* A buffer of text_size + LEXICON_MAX_GROWTH + 1 bytes always has room for what lexicon_print writes for the triple
   that the string parses as, and for its canonical form. arm64 prints as aarch64-unknown-unknown-elf, and no string
   grows by more. */
#define LEXICON_MAX_GROWTH 22

/* Parses a string. At LEXICON_OK the triple is written. At any other status, from 1 to 7 or LEXICON_TOO_LARGE, the
   error is written, unless it is null: whoever only asks whether a string parses needs none. */
LEXICON_CHECKED LEXICON_NONNULL(3)
enum lexicon_status lexicon_parse(const char *text, size_t text_size, struct lexicon_triple *triple,
                                  struct lexicon_error *error);

/* Parses a string, and says where each field comes from. The sources are written at each status; those from the refused
   part on are LEXICON_ORIGIN_NOT_GIVEN. */
LEXICON_CHECKED LEXICON_NONNULL(3, 4)
enum lexicon_status lexicon_explain(const char *text, size_t text_size, struct lexicon_triple *triple,
                                    struct lexicon_sources *sources, struct lexicon_error *error);

/* Prints a triple: wasm32-unknown-wasi prints as wasm32-wasi. */
LEXICON_CHECKED LEXICON_NONNULL(1)
enum lexicon_status lexicon_print(const struct lexicon_triple *triple, char *out, size_t out_size, size_t *length);

/* Replaces a triple by its canonical form, which is what its printed string parses as. It round-trips. Two canonical
   triples with the same printed string are equal, so the string is a key. */
LEXICON_CHECKED LEXICON_NONNULL(1)
enum lexicon_status lexicon_settle(struct lexicon_triple *triple);

/* Writes the canonical form of each line of a string, with a line feed after it; of a line that is refused, only the
   line feed. A line ends with a line feed, which the last one may lack. A buffer of text_size + lines *
   LEXICON_MAX_GROWTH + 2 bytes has room. One that is too small has the first lines, as far as they fit. */
LEXICON_CHECKED
enum lexicon_status lexicon_settle_lines(const char *text, size_t text_size, char *out, size_t out_size,
                                         size_t *length);

/* Whether the triple round-trips: printing and parsing it give it again; whether two triples are equal; and whether
   their canonical forms are. False if a struct is no triple. */
LEXICON_CHECKED LEXICON_NONNULL(1)
bool lexicon_comes_back(const struct lexicon_triple *triple);
LEXICON_CHECKED LEXICON_NONNULL(1, 2)
bool lexicon_equal(const struct lexicon_triple *first, const struct lexicon_triple *second);
LEXICON_CHECKED LEXICON_NONNULL(1, 2)
bool lexicon_same_target(const struct lexicon_triple *first, const struct lexicon_triple *second);

/* What a compiler asks about a triple. Call lexicon_all_facts(triple, facts), which passes facts_size: sizeof *facts,
   so that the library may be older or later than the header that a program was compiled with: so many bytes of the
   struct are written, and the members that an older library doesn't have become 0. Up to offsetof implied_format it
   takes the least time, then up to offsetof c_library. */
LEXICON_CHECKED LEXICON_NONNULL(1, 2)
enum lexicon_status lexicon_facts(const struct lexicon_triple *triple, struct lexicon_triple_facts *facts,
                                  size_t facts_size);

/* What rustc --print cfg writes of the target's cfg options: a line for each, such as target_os="linux" or unix. */
LEXICON_CHECKED LEXICON_NONNULL(1)
enum lexicon_status lexicon_rustc_cfg(const struct lexicon_triple *triple, char *out, size_t out_size, size_t *length);

/* The string that LLVM and clang take for the target, which is rustc's llvm-target for each of its targets that parses:
   arm64-apple-macosx for aarch64-apple-darwin, x86_64-apple-macosx13.0.0 for x86_64-apple-darwin22. It has the versions
   that a triple has, those of Apple's systems. */
LEXICON_CHECKED LEXICON_NONNULL(1)
enum lexicon_status lexicon_llvm_target(const struct lexicon_triple *triple, char *out, size_t out_size,
                                        size_t *length);

/* What ends the name of a program, as rustc has it, which may be nothing: .exe for x86_64-pc-windows-msvc. */
LEXICON_CHECKED LEXICON_NONNULL(1)
enum lexicon_status lexicon_program_suffix(const struct lexicon_triple *triple, char *out, size_t out_size,
                                           size_t *length);

/* Debian's multiarch tuple, as dpkg-architecture -qDEB_HOST_MULTIARCH prints it: i386-linux-gnu for
   i686-unknown-linux-gnu. If there is none, the status is LEXICON_TRIPLE_WITHOUT_NAME; lexicon_write with
   LEXICON_DIALECT_DEBIAN says why. */
LEXICON_CHECKED LEXICON_NONNULL(1)
enum lexicon_status lexicon_multiarch_tuple(const struct lexicon_triple *triple, char *out, size_t out_size,
                                            size_t *length);

/* Reads what another tool calls a target. At LEXICON_OK the triple is written. At any other status the error is, unless
   it is null.

   With LEXICON_DIALECT_NONE, the string is spelled like a triple, as clang takes it after -target. Some parts are other
   spellings of known names: amd64 is x86_64, w64 is pc, mingw32 is windows-gnu, macos13 is macosx13; after armv7hl,
   which is armv7, gnueabi is gnueabihf. Versions of systems other than Apple's are dropped. What parses
   without a custom vendor is read as it parses, and the status and the error are as those of lexicon_parse.

   With a dialect, the string is a name of that tool, and no other dialect is tried; what cc -dumpmachine prints is one
   of LEXICON_DIALECT_GNU. The triple is canonical, and what the name doesn't state is unknown: linux/arm64 is
   aarch64-unknown-linux. Around the name may be what files and commands have, such as the scope of a package of npm:
   docs/TOOL_NAMES.md. The status is then LEXICON_OK, LEXICON_UNKNOWN_NAME, LEXICON_NAME_WITHOUT_TRIPLE or
   LEXICON_NOT_UTF8; of the first two refusals, the range is that of the whole name. At LEXICON_NO_SUCH_DIALECT it is
   empty. */
LEXICON_CHECKED LEXICON_NONNULL(4)
enum lexicon_status lexicon_read(uint32_t dialect, const char *text, size_t text_size, struct lexicon_triple *triple,
                                 struct lexicon_error *error);

/* The name of a triple in a dialect, which has at most 36 bytes. The vendor doesn't matter, nor what the dialect
   doesn't name; byte order, pointer width and object format do. Without a name, the status is LEXICON_NEEDS_C_LIBRARY
   if lexicon_complete gives the triple one, and otherwise LEXICON_TRIPLE_WITHOUT_NAME, and unless `reason` is null,
   *reason becomes why, and what would help:

       it depends on the C library: say glibc or musl */
LEXICON_CHECKED LEXICON_NONNULL(2)
enum lexicon_status lexicon_write(uint32_t dialect, const struct lexicon_triple *triple, char *out, size_t out_size,
                                  size_t *length, const char **reason);

/* The name of a triple in a dialect that states a version which triples don't have: manylinux_2_17_x86_64 of Python
   with glibc 2.17, musllinux_1_2_aarch64 with musl 1.2, macosx_11_0_arm64 with macOS 11.0, or android_21_x86_64 with
   Android's API level 21. A version of glibc or of musl, if there isn't one of both, says the C library of a triple of
   Linux that states none. One of another system or C library than the triple's never applies: without one of its own
   the name is that of lexicon_write. LEXICON_TRIPLE_WITHOUT_NAME if no name of the dialect has such a version. */
LEXICON_CHECKED LEXICON_NONNULL(2)
enum lexicon_status lexicon_write_versioned(uint32_t dialect, const struct lexicon_triple *triple,
                                            const struct lexicon_versions *versions, char *out, size_t out_size,
                                            size_t *length, const char **reason);

/* Gives a triple of Linux or Windows, whose environment is unknown, the usual one of a C library: gnueabihf, gnu and so
   on. Only the environment changes. Any other triple stays as it is, and so does arm-unknown-linux, which may be
   gnueabi or gnueabihf. */
LEXICON_CHECKED LEXICON_NONNULL(1)
enum lexicon_status lexicon_complete(struct lexicon_triple *triple, uint32_t chosen_libc);

/* The version of macOS that a triple states, 10.15 for x86_64-apple-darwin19.6: that of darwin is the kernel's.
   LEXICON_NO_ANSWER if there is none. */
LEXICON_CHECKED LEXICON_NONNULL(1, 2)
enum lexicon_status lexicon_macos_version(const struct lexicon_triple *triple, struct lexicon_os_version *version);

/* The name in a dialect of what a name of another one means, or a string that is spelled like a triple: it is read,
   completed with a C library unless that is LEXICON_CHOSEN_LIBC_NONE, and written, at the level of the machine that the
   name says, such as v3, which the triple can't state, and with versions, as lexicon_write_versioned does. The name has
   at most 36 bytes. If it can't be read, the status and the error are those of lexicon_read.
   LEXICON_TRIPLE_WITHOUT_NAME and LEXICON_NEEDS_C_LIBRARY say that what it means can't be written; the range of the
   error is that of the whole name. At any other status from 15 on the range is empty, and at LEXICON_TOO_SMALL no error
   is written. */
LEXICON_CHECKED
enum lexicon_status lexicon_translate(uint32_t from, const char *name, size_t name_size, uint32_t chosen_libc,
                                      const struct lexicon_versions *versions, uint32_t to, char *out, size_t out_size,
                                      size_t *length, struct lexicon_error *error);

/* The change with this number, from 0, of those that lexicon_read, without a dialect, makes in a string: the range of a
   part, and the names that it is read as. Of amd64-unknown-freebsd13.2 the first is amd64, read as x86_64, and the
   second freebsd13.2, read as freebsd: the version is dropped. After the last one the status is LEXICON_NO_SUCH_CHANGE.
   A string that is refused has its changes too. If the buffer is too small, the part is unchanged too. */
LEXICON_CHECKED LEXICON_NONNULL(4)
enum lexicon_status lexicon_changes(const char *text, size_t text_size, size_t number, struct lexicon_part *part,
                                    char *out, size_t out_size, size_t *length);

/* What a string means to those who have it as a name. If it parses, its triple comes first; then the dialects, in the
   order of their numbers, where a name of several machines has a meaning for each; otherwise, without a dialect, the
   string as one that is spelled like a triple. A single word that some dialect has has no meaning without a dialect.
   Last comes what the words of the string say, such as arm64-osx, unless somebody means a system of a known vendor or a
   target of rustc, or says why no triple means the same. The meanings are written into an array of so many elements, which may be null if that is 0, and in *count
   is how many there are: with LEXICON_TOO_SMALL there are more, which with LEXICON_MAX_MEANINGS elements there never
   are. */
LEXICON_CHECKED LEXICON_NONNULL(5)
enum lexicon_status lexicon_meanings(const char *text, size_t text_size, struct lexicon_meaning *parts, size_t most,
                                     size_t *count);

/* The meanings by which lexicon_read reads a string that is no triple, or one with a custom vendor: without a dialect,
   if that gives a known vendor and a system; else, if it is no triple, with each dialect that means one triple by it,
   except GNU's, whose names are spelled like triples. If there is none, the first dialect that has it as a name says
   why no triple means the same. */
LEXICON_CHECKED LEXICON_NONNULL(5)
enum lexicon_status lexicon_readers(const char *text, size_t text_size, struct lexicon_meaning *parts, size_t most,
                                    size_t *count);

/* The targets in any text, such as a list, a workflow in YAML, or a page in Markdown: the ranges of the words that are
   a name of a machine and a system, of any tool or as a triple, or are with a name that is suggested; and of all items
   of a list. They are written into an array of so many elements, which may be null if that is 0, and in *count is how
   many there are: with LEXICON_TOO_SMALL there are more. */
LEXICON_CHECKED LEXICON_NONNULL(5)
enum lexicon_status lexicon_targets(const char *text, size_t text_size, struct lexicon_part *parts, size_t most,
                                    size_t *count);

/* What is wrong in any text, as the command's `check` says of a file: each word that resembles a name of some tool, or
   is spelled like a triple, and is neither; and each that may be a target and isn't understood. A text with neither has
   no findings. They are written as the targets of a text are. */
LEXICON_CHECKED LEXICON_NONNULL(5)
enum lexicon_status lexicon_check(const char *text, size_t text_size, struct lexicon_finding *parts, size_t most,
                                  size_t *count);

/* Why a string is refused, from the string and the error that parsing or reading it gave, in three lines, of which the
   first says it by itself. There is no line feed at the end. What isn't printable ASCII is escaped, as \u{1b}, and
   bytes that are no character are \u{fffd}. Of the refused part, and of what is before and after it, up to 200
   characters are shown:

       Unrecognized operating system: linx
         x86_64-pc-linx
                   ^^^^ did you mean `linux`?

   If the buffer is too small, the status is LEXICON_TOO_SMALL, and the first characters of it are written. An error
   that isn't one of this string gives LEXICON_NO_SUCH_VALUE, and so does that of LEXICON_NO_SUCH_DIALECT, and none. */
enum lexicon_status lexicon_error_text(const char *text, size_t text_size, const struct lexicon_error *error, char *out,
                                       size_t out_size, size_t *length);

/* What may have been meant by the refused part, of the expected field or a later one: linux for linx, windows-gnu for
   mingw32. A version stays if the system may have it: macosx14 for macos14. If there is none, the status is
   LEXICON_NO_SUGGESTION. A buffer of LEXICON_MAX_GROWTH + 1 bytes more than the part has room. */
LEXICON_CHECKED
enum lexicon_status lexicon_suggestion(const char *text, size_t text_size, const struct lexicon_error *error, char *out,
                                       size_t out_size, size_t *length);

/* Likewise by a custom vendor, of the vendors and the later fields: linux in x86_64-linx. */
LEXICON_CHECKED LEXICON_NONNULL(1)
enum lexicon_status lexicon_vendor_suggestion(const struct lexicon_triple *triple, char *out, size_t out_size,
                                              size_t *length);

/* Likewise by a name, where lexicon_read gives LEXICON_UNKNOWN_NAME, of the dialect's names that are read: linux/amd64
   by linux/amd46 in LEXICON_DIALECT_GO. */
LEXICON_CHECKED
enum lexicon_status lexicon_name_suggestion(uint32_t dialect, const char *name, size_t name_size, char *out,
                                            size_t out_size, size_t *length);

/* What else is known of a name that lexicon_read doesn't know in a dialect, or with LEXICON_DIALECT_NONE of a string that
   is no triple, has no suggestion, and that lexicon_readers gives nobody for: its form with the dashes and quotes of
   ASCII, if that is a name; what is wrong with it, such as capital letters; or what its words say. If that is nothing,
   the status is LEXICON_NO_SUGGESTION. What isn't printable ASCII is escaped. */
LEXICON_CHECKED
enum lexicon_status lexicon_note(uint32_t dialect, const char *text, size_t text_size, char *out, size_t out_size,
                                 size_t *length);

/* The number of the value that a string names in one field, outside any triple. An alias gives the number of its value,
   a custom vendor LEXICON_VENDOR_CUSTOM, and a version is parsed and dropped. If the string names no value of the
   field, the status is the number of the field plus 1. Otherwise it is LEXICON_OK, LEXICON_NOT_UTF8,
   LEXICON_NO_SUCH_FIELD or LEXICON_TOO_LARGE. */
LEXICON_CHECKED LEXICON_NONNULL(4)
enum lexicon_status lexicon_number(uint32_t field, const char *text, size_t text_size, uint32_t *number);

/* The name of a value. Null if there is no such field or value, and for LEXICON_VENDOR_CUSTOM. Like all strings that
   are returned, it has a zero byte at its end, and stays as long as the library is loaded. */
const char *lexicon_name(uint32_t field, uint32_t number);

/* The version of the library, and the commit that it was built from if that is known: "0.5.0 (3f1877d0c1e2)". */
const char *lexicon_version(void);

/* The target that the library was built for, as rustc names it, which lexicon_parse parses: "x86_64-unknown-linux-gnu".
   */
const char *lexicon_host(void);

/* The name of an enumerator: lexicon_family_name(LEXICON_FAMILY_ARM) is "arm". Null for 0 where that is no answer, and
   for a number that the enum doesn't have. Those of a field's values are of lexicon_name. */
#define LEXICON_NAMES(call, ...) \
  static inline const char *call(uint32_t number) { \
    static const char *const names[] = {__VA_ARGS__}; \
    return number < sizeof names / sizeof *names ? names[number] : NULL; \
  }
LEXICON_NAMES(lexicon_status_name, "ok", "unrecognized architecture", "unrecognized vendor",
  "unrecognized operating system", "unrecognized environment", "unrecognized binary format", "unrecognized field",
  "not UTF-8", "too small a buffer", "no such field", "no such value", "no such vendor", "unknown name",
  "name without a triple", "triple without a name", "no such dialect", "too large a size", "needs a C library",
  "no such C library", "no such change", "no suggestion", "no answer")
LEXICON_NAMES(lexicon_field_name, "architecture", "vendor", "operating system", "environment", "binary format")
LEXICON_NAMES(lexicon_family_name, LEXICON_FAMILY_NAMES)
LEXICON_NAMES(lexicon_dialect_name, NULL, LEXICON_DIALECT_NAMES)
LEXICON_NAMES(lexicon_chosen_libc_name, NULL, LEXICON_CHOSEN_LIBC_NAMES)
LEXICON_NAMES(lexicon_origin_name, "not given", "given", "implied", "alias")
LEXICON_NAMES(lexicon_endianness_name, NULL, LEXICON_ENDIANNESS_NAMES)
LEXICON_NAMES(lexicon_calling_convention_name, NULL, LEXICON_CALLING_CONVENTION_NAMES)
LEXICON_NAMES(lexicon_data_model_name, NULL, LEXICON_DATA_MODEL_NAMES)
LEXICON_NAMES(lexicon_c_library_name, NULL, LEXICON_C_LIBRARY_NAMES)
LEXICON_NAMES(lexicon_float_abi_name, NULL, LEXICON_FLOAT_ABI_NAMES)
LEXICON_NAMES(lexicon_arm_profile_name, NULL, LEXICON_ARM_PROFILE_NAMES)
LEXICON_NAMES(lexicon_signedness_name, NULL, LEXICON_SIGNEDNESS_NAMES)
#undef LEXICON_NAMES

/* The dialect of a name, such as "go" or "docker"; LEXICON_DIALECT_NONE if none has it. */
LEXICON_NONNULL(1)
static inline enum lexicon_dialect lexicon_dialect_named(const char *name) {
  static const struct { const char *name; enum lexicon_dialect dialect; } others[] = {LEXICON_OTHER_DIALECT_NAMES};
  for (uint32_t number = 1; lexicon_dialect_name(number); number++)
    if (strcmp(name, lexicon_dialect_name(number)) == 0) return LEXICON_AS(enum lexicon_dialect, number);
  for (size_t index = 0; index < sizeof others / sizeof *others; index++)
    if (strcmp(name, others[index].name) == 0) return others[index].dialect;
  return LEXICON_DIALECT_NONE;
}

/* lexicon_facts with the size of this header's struct. */
LEXICON_CHECKED LEXICON_NONNULL(1, 2)
static inline enum lexicon_status lexicon_all_facts(const struct lexicon_triple *triple,
                                                    struct lexicon_triple_facts *facts) {
  return lexicon_facts(triple, facts, sizeof *facts);
}

/* lexicon_parse for strings that people type: a custom vendor is refused too, as in x86_64-linx and
   x86_64-unknwon-linux. */
LEXICON_CHECKED LEXICON_NONNULL(3)
static inline enum lexicon_status lexicon_parse_strict(const char *text, size_t text_size,
                                                       struct lexicon_triple *triple, struct lexicon_error *error) {
  struct lexicon_triple parsed;
  enum lexicon_status status = lexicon_parse(text, text_size, &parsed, error);
  if (status != LEXICON_OK) return status;
  if (parsed.vendor != LEXICON_VENDOR_CUSTOM) {
    *triple = parsed;
    return LEXICON_OK;
  }
  if (error) {
    error->status = LEXICON_UNRECOGNIZED_VENDOR;
    error->start = LEXICON_AS(size_t, parsed.custom_vendor - text);
    error->end = error->start + parsed.custom_vendor_size;
    error->reason = LEXICON_NULL;
  }
  return LEXICON_UNRECOGNIZED_VENDOR;
}

#undef LEXICON_AS
#undef LEXICON_NULL
#ifdef __cplusplus
}
#endif

#endif
