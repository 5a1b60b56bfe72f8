/* A cross driver: for each target that its arguments name, as clang takes it after -target, the linker of LLVM's lld
   that links for it, and the sizes of C's types. A refused target is shown with a caret under the refused part.

   With P the folder where the library is installed, and PKG_CONFIG_PATH=$P/lib/pkgconfig:
   cc driver.c $(pkg-config --cflags --libs target-lexicon) -Wl,-rpath,$P/lib -o driver

   SPDX-License-Identifier: Apache-2.0 WITH LLVM-exception */
#include <stdio.h>

#include "target_lexicon.h"

/* The linker, by the format that toolchains write. The triple's own format isn't it for UEFI, Cygwin and wasip1. */
static const char *linker(const struct lexicon_triple *triple, const struct lexicon_triple_facts *facts) {
  switch ((enum lexicon_binary_format)facts->object_format) {
    case LEXICON_BINARY_FORMAT_ELF: return "ld.lld";
    case LEXICON_BINARY_FORMAT_COFF:
      switch ((enum lexicon_operating_system)triple->operating_system) {
        case LEXICON_OPERATING_SYSTEM_CYGWIN: return "ld.lld";
        case LEXICON_OPERATING_SYSTEM_WINDOWS:
          return facts->c_library == LEXICON_C_LIBRARY_MINGW ? "ld.lld" : "lld-link";
        default: return "lld-link";
      }
    case LEXICON_BINARY_FORMAT_MACHO: return "ld64.lld";
    case LEXICON_BINARY_FORMAT_WASM: return "wasm-ld";
    case LEXICON_BINARY_FORMAT_XCOFF: return "ld"; /* that of AIX */
    case LEXICON_BINARY_FORMAT_UNKNOWN: break;     /* of the unknown architecture */
  }
  return "-";
}

static bool show(const char *text) {
  struct lexicon_triple triple;
  struct lexicon_error error;
  struct lexicon_triple_facts facts;
  char out[256];
  if (lexicon_read(LEXICON_DIALECT_NONE, LEXICON_Z(text), &triple, &error) != LEXICON_OK) {
    lexicon_error_text(LEXICON_Z(text), &error, out, sizeof out, NULL);
    printf("error: %s\n", out);
    return false;
  }
  if (lexicon_llvm_target(&triple, out, sizeof out, NULL) != LEXICON_OK ||
      lexicon_all_facts(&triple, &facts) != LEXICON_OK) {
    printf("error: the vendor of %s is too long\n", text);
    return false;
  }
  printf("%s\n  for LLVM %s\n  linker   %s\n", text, out, linker(&triple, &facts));
  if (facts.int_size == 0)
    printf("  C types  -\n");
  else
    printf("  C types  int %u, long %u, pointer %u bytes\n", facts.int_size, facts.long_size, facts.pointer_width / 8u);
  if (facts.char_signedness) printf("  char     %s\n", lexicon_signedness_name(facts.char_signedness));
  return true;
}

int main(int count, char **words) {
  bool all = true;
  if (count < 2) {
    fprintf(stderr, "usage: driver TARGET..\n");
    return 2;
  }
  for (int i = 1; i < count; i++) all = show(words[i]) && all;
  return all ? 0 : 1;
}
