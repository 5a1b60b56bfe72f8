// Makes each call of target_lexicon.hpp, and compares what it gives with what is expected.
#define LEXICON_H  // the guards of other headers
#define LEXICON_HPP
#include <functional>
#include <iostream>
#include <map>
#include <sstream>
#include <unordered_set>

#include "target_lexicon.hpp"

using namespace lexicon;

static int failures = 0;

#define EXPECT(right) \
  do { \
    if (!(right)) std::cerr << "wrong: line " << __LINE__ << ": " #right "\n", failures++; \
  } while (0)

template <class Value> static std::string shown(const Value& value) {
  std::ostringstream out;
  out << value;
  return out.str();
}

static Triple parsed(std::string_view text) {
  auto triple = Triple::parse(text);
  EXPECT(triple.has_value());
  return triple.value_or(Triple());
}

static void try_triple() {
  Triple ios = parsed("arm64-apple-ios17.2"), esp = parsed("riscv32imc-esp-espidf-elf");
  EXPECT(ios.architecture() == Architecture::Aarch64 && ios.vendor() == Vendor::Apple &&
      ios.operating_system() == OperatingSystem::IOS);
  EXPECT(ios.environment() == Environment::Unknown && ios.binary_format() == BinaryFormat::Macho &&
      ios.vendor_name() == "apple");
  EXPECT(ios.printed() == "aarch64-apple-ios17.2.0" && shown(ios) == ios.printed() && ios.comes_back());
  EXPECT(!esp.comes_back() && esp.settle() != esp && esp.same_target(esp.settle()) && !esp.same_target(ios) &&
      esp.canonical() == "riscv32imc-esp-espidf");
  EXPECT(std::greater<>()(esp, ios) && esp > ios && !(ios > esp) && ios <= esp && ios <= ios && !(esp <= ios) &&
      esp >= ios && esp >= esp && !(ios >= esp));
  EXPECT(Triple::host() == parsed(lexicon_host()));
  EXPECT(!Triple().endianness() && Triple().printed() == "unknown-unknown-unknown" &&
      parsed("x86_64-linx").vendor_suggestion() == "linux");
}

static void try_versions() {
  Triple ios = parsed("arm64-apple-ios17.2"), mac = parsed("arm64-apple-darwin20.3"), none = parsed("avr");
  Version seven{17, 2, 7}, eight{17, 2, 8}, next{18};
  EXPECT((ios.version() == Version{17, 2, 0}) && !none.version() && parsed("arm64-apple-ios").version() < Version{1});
  EXPECT(seven < eight && eight > seven && seven <= eight && eight >= seven && eight <= next && next >= eight &&
      seven <= seven && seven >= seven);
  EXPECT(!(eight < seven) && !(seven > eight) && !(next <= eight) && !(eight >= next) && !(seven < seven) &&
      !(seven > seven) && seven != eight);
  std::ostringstream in_hex;
  in_hex << std::hex << std::showbase << *ios.version() << ' ' << ios.family() << ' ' << 255;
  EXPECT(in_hex.str() == "17.2.0 aarch64 0xff");
  EXPECT(mac.macos_version() == (Version{11, 0, 0}) && !none.macos_version());
}

// The names that a program is compiled with are the library's.
template <class Value> static void try_value_names() {
  for (std::uint32_t number = 0, field = static_cast<std::uint32_t>(detail::FieldOf<Value>::field); number < 256;
      number++)
    EXPECT(name(static_cast<Value>(number)) == detail::text_of(lexicon_name(field, number)));
}
static_assert(name(Architecture::X86_64) == "x86_64" && name(Vendor::Custom).empty() &&
    name(OperatingSystem::None_) == "none");

// A number that no enumerator of the type has, and the greatest.
template <class Value> static Value no_enumerator(bool greatest) {
  std::uint32_t number = 0;
  while (!name(static_cast<Value>(number)).empty()) number++;
  return greatest ? static_cast<Value>(~0u) : static_cast<Value>(number);
}

// Values make a triple only if they are those of one, so that no two different things have the same key.
static void try_values() {
  constexpr auto x86_64 = Architecture::X86_64;
  constexpr auto linux_ = OperatingSystem::Linux;
  EXPECT(Triple::of(Architecture::Aarch64, Vendor::Unknown, linux_) == parsed("aarch64-linux"));
  EXPECT(Triple::of(Architecture::Avr, Vendor::Pc, linux_, Environment::Gnu, BinaryFormat::Coff) ==
      parsed("avr-pc-linux-gnu-coff"));
  EXPECT(Triple::of(x86_64, "acme", linux_, Environment::Gnu) == parsed("x86_64-acme-linux-gnu"));
  EXPECT(Triple::of(x86_64, "pc", linux_) == parsed("x86_64-pc-linux") &&
      !Triple::of(x86_64, "pc", linux_)->has_custom_vendor());
  EXPECT(Triple::of(Architecture::Unknown, Vendor::Unknown, OperatingSystem::Unknown) == Triple());
  EXPECT(!Triple::of(x86_64, Vendor::Custom, linux_) && !Triple::of(x86_64, "", linux_) &&
      !Triple::of(x86_64, "PC", linux_));
  for (bool greatest : {false, true}) {
    EXPECT(!Triple::of(no_enumerator<Architecture>(greatest), Vendor::Pc, linux_));
    EXPECT(!Triple::of(x86_64, no_enumerator<Vendor>(greatest), linux_));
    EXPECT(!Triple::of(x86_64, Vendor::Pc, no_enumerator<OperatingSystem>(greatest)));
    EXPECT(!Triple::of(x86_64, Vendor::Pc, linux_, no_enumerator<Environment>(greatest)));
    EXPECT(!Triple::of(x86_64, Vendor::Pc, linux_, Environment::Gnu, no_enumerator<BinaryFormat>(greatest)));
  }
}

// A struct of C makes a triple only if it is one. What isn't read of it doesn't matter.
static void try_c() {
  for (const char* text : {"x86_64-acme-linux", "arm64-apple-ios17.2", "x86_64-pc-windows-msvc", "unknown"}) {
    Triple triple = parsed(text);
    lexicon_triple it = triple.c_triple();
    EXPECT(Triple::from_c(it) == triple && Triple::from_c(it)->hash() == triple.hash());
    if (!it.has_version) it.major = 7, it.minor = 8, it.patch = 9;
    if (it.vendor != LEXICON_VENDOR_CUSTOM) it.custom_vendor = text, it.custom_vendor_size = 99;
    EXPECT(Triple::from_c(it) == triple && Triple::from_c(it)->hash() == triple.hash());
    it.environment = 255;
    EXPECT(!Triple::from_c(it));
  }
}

// Each field is another value, and no other field changes, except a format that is implied and the version of another
// system.
static void try_changes() {
  Triple gnu = parsed("x86_64-unknown-linux-gnu"), ios = parsed("arm64-apple-ios17.2"),
      acme = parsed("x86_64-acme-linux");
  EXPECT(gnu.with_architecture(Architecture::Aarch64) == parsed("aarch64-unknown-linux-gnu"));
  EXPECT(gnu.with_vendor(Vendor::Pc) == parsed("x86_64-pc-linux-gnu") &&
      gnu.with_vendor("pc") == gnu.with_vendor(Vendor::Pc));
  EXPECT(gnu.with_vendor("acme") == parsed("x86_64-acme-linux-gnu") &&
      acme.with_vendor("unknown") == parsed("x86_64-linux"));
  EXPECT(acme.with_environment(Environment::Musl) == parsed("x86_64-acme-linux-musl"));
  EXPECT(gnu.with_operating_system(OperatingSystem::Windows) == parsed("x86_64-unknown-windows-gnu"));
  auto macho = gnu.with_binary_format(BinaryFormat::Macho);
  EXPECT(macho->with_operating_system(OperatingSystem::Windows)->binary_format() == BinaryFormat::Macho);
  EXPECT(ios.with_version(Version{18, 1, 2}) == parsed("arm64-apple-ios18.1.2") &&
      ios.with_version(std::nullopt) == parsed("arm64-apple-ios"));
  EXPECT(ios.with_operating_system(OperatingSystem::TvOS) == parsed("arm64-apple-tvos"));
  EXPECT(ios.with_operating_system(OperatingSystem::TvOS, Version{9}) == parsed("arm64-apple-tvos9"));
  EXPECT(!gnu.with_version(Version{6}) && !gnu.with_operating_system(OperatingSystem::Linux, Version{6}) &&
      gnu.with_version(std::nullopt) == gnu);
  EXPECT(!gnu.with_vendor(Vendor::Custom) && !acme.with_vendor(Vendor::Custom) && !gnu.with_vendor("PC") &&
      !gnu.with_vendor(""));
}

static void try_explain() {
  const std::string_view text = "x86_64-acme-linux";
  auto it = Triple::explain(text);
  auto part = [&](const Source& source) { return text.substr(source.start, source.end - source.start); };
  EXPECT(it && it->triple == parsed(text) && part(it->architecture) == "x86_64" && part(it->vendor) == "acme" &&
      part(it->operating_system) == "linux");
  EXPECT(it->vendor.origin == Origin::Given && it->environment.origin == Origin::NotGiven && it->environment.end == 0);
  EXPECT(it->binary_format.origin == Origin::Implied);
  EXPECT(Triple::explain("arm64-linux-gnu-elf")->environment.start == 12 &&
      Triple::explain("arm64-linux-gnu-elf")->binary_format.start == 16);
  ParseError error;
  EXPECT(!Triple::explain("x86_64-pc-linx", &error) && error.part == "linx" && !Triple::explain("foo"));
}

static void try_lines() {
  EXPECT(settle_lines("arm64-linux\nfoo\n\nx86_64-acme-linux") == "aarch64-unknown-linux\n\n\nx86_64-acme-linux\n" &&
      settle_lines({}).empty());
  std::string text, settled;
  for (int i = 0; i < 1000; i++)
    text += "arm64\n", settled += "aarch64-unknown-unknown-elf\n";  // no string grows by more
  EXPECT(settle_lines(text) == settled);
}

static void try_targets() {
  auto found = targets_in("\xc3\xa9 `avr-none`: linux/arm64 x86_64-linxu, foo");
  EXPECT(found.size() == 3 && found[0].start == 4 && found[0].end == 12 && found[0].text == "avr-none" &&
      found[2].text == "x86_64-linxu");
  EXPECT(targets_in({}).empty() && targets_in("avr-\xff avr-none").empty());
}

// What a driver asks.
static void try_driver() {
  auto arm = parsed("armv7-linux-gnueabihf"), thumb = parsed("thumbv7em-none-eabihf"), ios = parsed("arm64-apple-ios"),
      uefi = parsed("x86_64-uefi"), avr = parsed("avr");
  EXPECT(ios.endianness() == Endianness::Little && ios.pointer_width() == 64u && ios.data_model() == DataModel::LP64 &&
      !avr.data_model());
  EXPECT(ios.default_calling_convention() == CallingConvention::AppleAarch64 && ios.family() == Family::Aarch64 &&
      !ios.has_custom_vendor());
  EXPECT(uefi.object_format() == BinaryFormat::Coff && uefi.implied_format() == BinaryFormat::Elf &&
      !uefi.is_like_darwin() && ios.is_like_darwin());
  EXPECT(avr.short_size() == 2u && avr.int_size() == 2u && avr.float_size() == 4u && avr.double_size() == 4u &&
      ios.long_size() == 8u && arm.long_long_size() == 8u);
  EXPECT(arm.c_library() == CLibrary::Glibc && arm.float_abi() == FloatAbi::Hard && arm.is_unix() && !avr.c_library() &&
      !avr.float_abi() && !avr.is_unix());
  EXPECT(thumb.is_thumb() && thumb.arm_version() == 7u && thumb.arm_profile() == ArmProfile::Microcontroller &&
      !arm.is_thumb() && !avr.arm_profile());
  EXPECT(arm.char_signedness() == Signedness::Unsigned && arm.has_comdat() && !ios.has_comdat() &&
      parsed("x86_64-pc-cygwin").has_emulated_tls());
  auto musl = parsed("i686-linux-musl");
  EXPECT(musl.long_double() == (TypeLayout{12, 4}) && musl.wchar() == (TypeLayout{4, 4}) && !avr.long_double() &&
      !avr.wchar() && musl.long_double() != musl.wchar());
  EXPECT(arm.llvm_target() == "armv7-unknown-linux-gnueabihf" &&
      musl.rustc_cfg().find("\nunix\n") != std::string::npos);
  EXPECT(arm.multiarch_tuple() == "arm-linux-gnueabihf" && !thumb.multiarch_tuple() && avr.program_suffix() == ".elf" &&
      arm.program_suffix().empty());
}

// A custom vendor is owned: neither the string that was parsed nor the triple that was copied is needed.
static void try_ownership() {
  std::string text = "x86_64-acme-linux";
  Triple copy, moved;
  {
    Triple triple = parsed(text);
    text.assign(text.size(), '?');
    copy = triple;
    moved = std::move(triple);
  }
  EXPECT(copy == moved && copy.has_custom_vendor() && copy.vendor() == Vendor::Custom && copy.vendor_name() == "acme");
  Triple taken = std::move(copy);
  EXPECT(Triple::parse(copy.printed()) == copy && taken == moved);  // what was moved from is a triple, whichever it is
  copy = taken;
  EXPECT(copy.printed() == "x86_64-acme-linux" && moved.settle().vendor_name() == "acme" &&
      copy != parsed("x86_64-acmf-linux"));
  std::string vendor(70000, 'v');
  EXPECT(parsed("avr-" + vendor + "-linux").printed() == "avr-" + vendor + "-linux");
}

static void try_containers() {
  std::unordered_set<Triple> set{parsed("x86_64-linux"), parsed("x86_64-unknown-linux"), parsed("x86_64-acme-linux"),
      parsed("arm64-apple-ios17")};
  EXPECT(set.size() == 3 && set.count(parsed("x86_64-acme-linux")) == 1 && set.count(parsed("x86_64-acmf-linux")) == 0);
  std::map<Triple, int> map{{parsed("x86_64-linux"), 1}, {parsed("arm64-linux"), 2}};
  EXPECT(map.at(parsed("aarch64-unknown-linux")) == 2);
  EXPECT(parsed("x86_64-wrs-linux") < parsed("x86_64-acme-linux") &&
      parsed("x86_64-acme-linux") < parsed("x86_64-acmf-linux"));
}

static void try_errors() {
  ParseError error;
  EXPECT(!Triple::parse("x86_64-pc-linx", &error) && error.status == LEXICON_UNRECOGNIZED_OPERATING_SYSTEM &&
      error.field() == Field::OperatingSystem);
  EXPECT(error.part == "linx" && error.start == 10 && error.end == 14 && error.suggestion == "linux" &&
      error.line == "Unrecognized operating system: linx");
  EXPECT(shown(error) ==
      "Unrecognized operating system: linx\n  x86_64-pc-linx\n            ^^^^ did you mean `linux`?");
  EXPECT(!Triple::parse("x86_64-elf-linux", &error) && !error.field() && error.suggestion.empty());
  EXPECT(!Triple::parse("avr-\xff", &error) && error.status == LEXICON_NOT_UTF8 && !error.field() &&
      !Triple::parse({}));
  std::string part(3000, 'x');
  EXPECT(!Triple::parse("avr-pc-linux-" + part, &error) && error.part == part &&
      error.line == "Unrecognized environment: " + part.substr(0, 200) + "...");
  EXPECT(!Triple::parse_strict("x86_64-linx", &error) && error.part == "linx" && error.suggestion == "linux" &&
      Triple::parse_strict("avr") == parsed("avr"));
}

// Each value has its name, a number that is no enumerator has none, and nothing else is read in its place.
template <class Value> static void try_names_of(std::string_view second) {
  EXPECT(name(static_cast<Value>(1)) == second && shown(static_cast<Value>(1)) == second &&
      name(static_cast<Value>(~0u)).empty());
  for (std::uint32_t number = 0; number < 70000; number += number < 1000 ? 1 : 101)
    EXPECT(name(static_cast<Value>(number)).size() < 20);
}

static void try_names() {
  try_names_of<Architecture>("arm");
  try_names_of<Vendor>("amd");
  try_names_of<OperatingSystem>("aix");
  try_names_of<Environment>("amdgiz");
  try_names_of<BinaryFormat>("elf");
  try_names_of<Field>("vendor");
  try_names_of<Family>("arm");
  try_names_of<Dialect>("debian");
  try_names_of<Endianness>("little");
  try_names_of<CallingConvention>("SystemV");
  try_names_of<DataModel>("LP32");
  try_names_of<CLibrary>("bionic");
  try_names_of<FloatAbi>("soft");
  try_names_of<ArmProfile>("A");
  try_names_of<Signedness>("signed");
  try_names_of<ChosenLibc>("glibc");
  try_names_of<Origin>("given");
  EXPECT(name(Vendor::Custom).empty() && dialect_named("docker") == Dialect::Oci && !dialect_named("podman") &&
      version().substr(0, 5) == LEXICON_VERSION);
  EXPECT(value_of<Architecture>("arm64") == Architecture::Aarch64 && !value_of<Environment>("linux"));
}

static void try_dialects() {
  ParseError error;
  std::string reason;
  auto arm = Triple::read("linux/arm64", Dialect::Oci);
  EXPECT(arm == parsed("aarch64-linux") && arm->name_in(Dialect::Oci) == "linux/arm64" &&
      Triple::read("x86_64-w64-mingw32") == parsed("x86_64-pc-windows-gnu"));
  EXPECT(!Triple::read("linux/amd46", Dialect::Go, &error) && error.status == LEXICON_UNKNOWN_NAME &&
      error.suggestion == "linux/amd64" && error.reason.empty());
  EXPECT(shown(error) == "Unknown name: linux/amd46\n  linux/amd46\n  ^^^^^^^^^^^ did you mean `linux/amd64`?" &&
      error.part == "linux/amd46" && !error.field());
  EXPECT(!Triple::read("plan9/386", Dialect::Go, &error) && error.reason == "Plan 9 is no known name" &&
      error.suggestion.empty());
  EXPECT(shown(error) == "No triple has this name: plan9/386\n  plan9/386\n  ^^^^^^^^^ Plan 9 is no known name");
  EXPECT(!Triple::read("amd64-pc-linx", &error) && error.suggestion == "linux" && error.start == 9 &&
      error.reason.empty());
  EXPECT(!arm->name_in(static_cast<Dialect>(99)) && !arm->name_in(Dialect::Debian, &reason) &&
      reason == "it depends on the C library: say glibc or musl");
  lexicon_versions versions = {};
  versions.android = {21, 0, 0};
  versions.glibc = {2, 17, 0};
  EXPECT(parsed("aarch64-linux-android").versioned_name_in(Dialect::Python, versions) == "android_21_arm64_v8a");
  EXPECT(parsed("x86_64-linux-gnu").versioned_name_in(Dialect::Python, versions) == "manylinux_2_17_x86_64");
  EXPECT(Triple::translate("linux/amd64", Dialect::Oci, Dialect::Python, ChosenLibc::Glibc, nullptr, versions) ==
      "manylinux_2_17_x86_64");
  versions.glibc = {1, 2, 0};
  EXPECT(!parsed("x86_64-linux-gnu").versioned_name_in(Dialect::Python, versions, &reason) &&
      reason.find("glibc has 2.x") != std::string::npos);
}

static void try_translation() {
  ParseError error;
  EXPECT(parsed("armv7-acme-linux").completed(ChosenLibc::Musl).printed() == "armv7-acme-linux-musleabihf");
  EXPECT(parsed("x86_64-linux").completed(static_cast<ChosenLibc>(9)) == parsed("x86_64-linux"));
  EXPECT(Triple::translate("linux/arm64/v8", Dialect::Oci, Dialect::Rust, ChosenLibc::Glibc) ==
      "aarch64-unknown-linux-gnu");
  EXPECT(Triple::translate("x86_64-w64-mingw32", std::nullopt, Dialect::Node) == "win32-x64-gnu");
  EXPECT(!Triple::translate("linux/arm64", Dialect::Oci, Dialect::Debian, std::nullopt, &error) &&
      error.status == LEXICON_NEEDS_C_LIBRARY);
  EXPECT(error.line == "No name in the other dialect: linux/arm64");
  EXPECT(shown(error) == error.line + "\n  linux/arm64\n  ^^^^^^^^^^^ it depends on the C library: say glibc or musl");
  auto found = changes("amd64-unknown-freebsd13.2");
  EXPECT(found.size() == 2 && found[0].part == "amd64" && found[0].names == "x86_64" && found[1].start == 14 &&
      found[1].end == 25);
  EXPECT(changes("x86_64-linux").empty());
  auto armhf = Triple::meanings("armhf"), plan9 = Triple::meanings("plan9/amd64"), avr = Triple::meanings("avr-none");
  EXPECT(armhf.size() == 2 && armhf[0].dialect == Dialect::Debian &&
      armhf[1].triple->printed() == "armv6-unknown-linux-musleabihf");
  EXPECT(Triple::meanings("linux/amd64/v3")[0].level == "v3" && armhf[0].level.empty() && plan9[0].level.empty());
  EXPECT(plan9.size() == 1 && !plan9[0].triple && plan9[0].dialect == Dialect::Go &&
      plan9[0].reason == "Plan 9 is no known name");
  auto osx = Triple::meanings("x64-osx").back();
  EXPECT(osx.by_words && !osx.dialect && osx.triple == parsed("x86_64-apple-darwin") && !armhf[0].by_words);
  EXPECT(!avr.front().dialect && avr.front().triple == parsed("avr-none") && avr.front().reason.empty() &&
      Triple::meanings("foo/bar").empty());
}

int main() {
  try_value_names<Architecture>(), try_value_names<Vendor>(), try_value_names<OperatingSystem>(),
  try_value_names<Environment>(), try_value_names<BinaryFormat>();
  try_triple();
  try_versions();
  try_values();
  try_c();
  try_changes();
  try_explain();
  try_lines();
  try_targets();
  try_driver();
  try_ownership();
  try_containers();
  try_errors();
  try_names();
  try_dialects();
  try_translation();
  std::cerr << "cpp: " << failures << " wrong\n";
  return failures != 0;
}
