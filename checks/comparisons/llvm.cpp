// Writes what LLVM says of the triple on each line: byte order, pointer width, object format, the version and the
// profile of 32-bit Arm, whether TLS is emulated, whether there is COMDAT, the architecture, and the versions of macOS,
// of the system and of the environment; or `-` for each that LLVM doesn't know.
#if __has_include("llvm/TargetParser/Triple.h")
#include "llvm/TargetParser/ARMTargetParser.h"
#include "llvm/TargetParser/Triple.h"
#else
#include "llvm/ADT/Triple.h"
#include "llvm/Support/ARMTargetParser.h"
#endif
#include <iostream>
#include <map>
#include <string>

using llvm::Triple;

static std::map<Triple::ObjectFormatType, std::string> formats = {
    {Triple::UnknownObjectFormat, "-"}, {Triple::COFF, "coff"}, {Triple::ELF, "elf"}, {Triple::MachO, "macho"},
    {Triple::Wasm, "wasm"}, {Triple::XCOFF, "xcoff"}};

static std::map<llvm::ARM::ProfileKind, std::string> profiles = {
    {llvm::ARM::ProfileKind::INVALID, "-"}, {llvm::ARM::ProfileKind::A, "A"}, {llvm::ARM::ProfileKind::R, "R"},
    {llvm::ARM::ProfileKind::M, "M"}};

static std::string armOf(const Triple &triple) {
  if (!triple.isARM() && !triple.isThumb()) return "- -";
  unsigned version = llvm::ARM::parseArchVersion(triple.getArchName());
  return (version ? std::to_string(version) : "-") + " " + profiles[llvm::ARM::parseArchProfile(triple.getArchName())];
}

static std::string nameOf(const Triple &triple) {
  return triple.getArch() == Triple::UnknownArch ? "-" : Triple::getArchTypeName(triple.getArch()).str();
}

static std::string shown(const llvm::VersionTuple &version) {
  return std::to_string(version.getMajor()) + "." + std::to_string(version.getMinor() ? *version.getMinor() : 0);
}

static std::string macOsOf(const Triple &triple) {
  llvm::VersionTuple macos;
  bool isStated = triple.isMacOSX() && triple.getOSMajorVersion() != 0 && triple.getMacOSXVersion(macos);
  return isStated ? shown(macos) : "-";
}

static std::string stated(const llvm::VersionTuple &version) {
  if (!version.getMajor()) return "-";
  return shown(version) + "." + std::to_string(version.getSubminor() ? *version.getSubminor() : 0);
}

static const char *shown(bool it) { return it ? "True" : "False"; }

int main() {
  for (std::string line; std::getline(std::cin, line);) {
    Triple triple(Triple::normalize(line));
    if (triple.getArch() == Triple::UnknownArch)
      std::cout << "- - - - - - - - - - -\n";
    else
      std::cout << (triple.isLittleEndian() ? "little " : "big ")
                << (triple.isArch64Bit() ? "64 " : triple.isArch32Bit() ? "32 " : triple.isArch16Bit() ? "16 " : "- ")
                << formats[triple.getObjectFormat()] << ' ' << armOf(triple) << ' '
                << shown(triple.hasDefaultEmulatedTLS()) << ' ' << shown(triple.supportsCOMDAT()) << ' '
                << nameOf(triple) << ' ' << macOsOf(triple) << ' ' << stated(triple.getOSVersion()) << ' '
                << stated(triple.getEnvironmentVersion()) << '\n';
  }
}
