// A part of the driver of driver.c in C++17: for each target that its arguments name, the linker of LLVM's lld that
// links for it, and the sizes of C's types. A refused target is shown with a caret under the refused part.
//
// With P the folder where the library is installed, and PKG_CONFIG_PATH=$P/lib/pkgconfig:
// c++ -std=c++17 driver.cpp $(pkg-config --cflags --libs target-lexicon) -Wl,-rpath,$P/lib -o driver
//
// SPDX-License-Identifier: Apache-2.0 WITH LLVM-exception
#include <iostream>
#include <string_view>

#include "target_lexicon.hpp"

namespace {

using lexicon::BinaryFormat;
using lexicon::CLibrary;
using lexicon::OperatingSystem;
using lexicon::Triple;

// The linker, by the format that toolchains write. The triple's own format isn't it for UEFI, Cygwin and wasip1.
std::string_view linker(const Triple& triple) {
  switch (triple.object_format()) {
    case BinaryFormat::Elf: return "ld.lld";
    case BinaryFormat::Coff:
      switch (triple.operating_system()) {
        case OperatingSystem::Cygwin: return "ld.lld";
        case OperatingSystem::Windows: return triple.c_library() == CLibrary::Mingw ? "ld.lld" : "lld-link";
        default: return "lld-link";
      }
    case BinaryFormat::Macho: return "ld64.lld";
    case BinaryFormat::Wasm: return "wasm-ld";
    case BinaryFormat::Xcoff: return "ld";  // that of AIX
    case BinaryFormat::Unknown: break;      // of the unknown architecture
  }
  return "-";
}

bool show(std::string_view text) {
  lexicon::ParseError error;
  auto triple = Triple::read(text, &error);
  if (!triple) {
    std::cout << "error: " << error << '\n';
    return false;
  }
  std::cout << *triple << "\n  linker   " << linker(*triple) << "\n  C types  ";
  if (triple->int_size())
    std::cout << "int " << *triple->int_size() << ", long " << *triple->long_size() << ", pointer "
              << *triple->pointer_width() / 8 << " bytes\n";
  else
    std::cout << "-\n";
  return true;
}

}  // namespace

int main(int count, char** words) {
  bool all = true;
  if (count < 2) {
    std::cerr << "usage: driver TARGET..\n";
    return 2;
  }
  for (int i = 1; i < count; i++) all = show(words[i]) && all;
  return all ? 0 : 1;
}
