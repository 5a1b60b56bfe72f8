// Target triples for C++17, inline: parsing, printing, queries, and the names of other tools, over target_lexicon.h.
//
//     lexicon::ParseError error;
//     if (auto triple = lexicon::Triple::parse("x86_64-unknown-linux-gnu", &error)) {
//       if (triple->operating_system() == lexicon::OperatingSystem::Linux) std::cout << *triple << '\n';
//     } else {
//       std::cerr << error << '\n';
//     }
//
// A Triple is a value: it owns the name of a custom vendor, can be copied, compared, printed and hashed. Each is one of
// the library's triples: what would make another, such as a number that is no enumerator, gives std::nullopt. So does a
// query without an answer. Nothing here throws an exception of its own. The names are in an inline namespace of this
// version, patch included, so that libraries of one program may be compiled with headers of different versions.
//
// SPDX-License-Identifier: Apache-2.0 WITH LLVM-exception
#ifndef TARGET_LEXICON_VERIFIED_HPP
#define TARGET_LEXICON_VERIFIED_HPP
#ifndef __cpp_if_constexpr
#error "target_lexicon.hpp needs C++17: add -std=c++17"
#endif

#include <algorithm>
#include <cstddef>
#include <cstdint>
#include <functional>
#include <iterator>
#include <optional>
#include <ostream>
#include <string>
#include <string_view>
#include <tuple>
#include <utility>
#include <vector>
#if __has_include(<format>)
#include <format>
#endif

#include "target_lexicon.h"

namespace lexicon {
inline namespace v0_5_0 {

enum class Field : std::uint8_t { Architecture, Vendor, OperatingSystem, Environment, BinaryFormat };

// The enums of the values of fields, of dialects and of answers, with the numbers of target_lexicon_values.h.
#include "target_lexicon_values.hpp"

// Where the value of a field comes from: nowhere, so that it is unknown; a part of the string; or the other fields.
enum class Origin : std::uint8_t {
  NotGiven = LEXICON_ORIGIN_NOT_GIVEN, Given = LEXICON_ORIGIN_GIVEN, Implied = LEXICON_ORIGIN_IMPLIED,
  Alias = LEXICON_ORIGIN_ALIAS
};

namespace detail {

// A string that a call of target_lexicon.h returns, empty for null.
inline std::string_view text_of(const char* found) { return found ? std::string_view(found) : std::string_view(); }

// The name that a call gives a value, empty for a number that has none.
template <class Value> std::string_view name_of(const char* (*call)(std::uint32_t), Value value) {
  return text_of(call(static_cast<std::uint32_t>(value)));
}

template <class Value> std::optional<Value> answer(std::uint8_t number) {
  return number == 0 ? std::nullopt : std::optional<Value>(static_cast<Value>(number));
}

// The string that a call writes into a buffer.
template <class Call> std::string written(Call call) {
  std::string text(127, '\0');
  std::size_t length = 0;
  lexicon_status status = call(text.data(), text.size() + 1, &length);
  text.resize(status == LEXICON_OK || status == LEXICON_TOO_SMALL ? length : 0);
  if (status == LEXICON_TOO_SMALL && call(text.data(), text.size() + 1, &length) != LEXICON_OK) text.clear();
  return text;
}

}  // namespace detail

// The name of a value, such as "x86_64"; empty for Vendor::Custom, whose name is Triple::vendor_name. Here and below,
// that of a number that is no enumerator is empty.
template <class Value, class = decltype(detail::FieldOf<Value>::field)> constexpr std::string_view name(Value value) {
  auto number = static_cast<std::size_t>(value);
  return number < std::size(detail::FieldOf<Value>::names) ? detail::FieldOf<Value>::names[number] : std::string_view();
}

// The value that a string is in its field, aliases too: value_of<lexicon::Architecture>("arm64").
template <class Value> std::optional<Value> value_of(std::string_view text) {
  std::uint32_t number = 0;
  constexpr auto field = static_cast<std::uint32_t>(detail::FieldOf<Value>::field);
  if (lexicon_number(field, text.data(), text.size(), &number) != LEXICON_OK) return std::nullopt;
  return static_cast<Value>(number);
}

inline std::string_view name(Field value) { return detail::name_of(lexicon_field_name, value); }
inline std::string_view name(Family value) { return detail::name_of(lexicon_family_name, value); }
inline std::string_view name(Dialect value) { return detail::name_of(lexicon_dialect_name, value); }
inline std::string_view name(Endianness value) { return detail::name_of(lexicon_endianness_name, value); }
inline std::string_view name(CallingConvention value) {
  return detail::name_of(lexicon_calling_convention_name, value);
}
inline std::string_view name(ChosenLibc value) { return detail::name_of(lexicon_chosen_libc_name, value); }
inline std::string_view name(Origin value) { return detail::name_of(lexicon_origin_name, value); }
inline std::string_view name(DataModel value) { return detail::name_of(lexicon_data_model_name, value); }
inline std::string_view name(CLibrary value) { return detail::name_of(lexicon_c_library_name, value); }
inline std::string_view name(FloatAbi value) { return detail::name_of(lexicon_float_abi_name, value); }
inline std::string_view name(Signedness value) { return detail::name_of(lexicon_signedness_name, value); }
inline std::string_view name(ArmProfile value) { return detail::name_of(lexicon_arm_profile_name, value); }

// The dialect of a name, such as "go".
inline std::optional<Dialect> dialect_named(std::string_view text) {
  auto found = lexicon_dialect_named(std::string(text).c_str());
  return found == LEXICON_DIALECT_NONE ? std::nullopt : std::make_optional(static_cast<Dialect>(found));
}

// Each value is written by its name.
template <class Value> auto operator<<(std::ostream& out, Value value) -> decltype(out << name(value)) {
  return out << name(value);
}

// The size and the alignment of a type of C, in bytes.
struct TypeLayout {
  unsigned size = 0, alignment = 0;

  friend bool operator==(TypeLayout a, TypeLayout b) { return a.size == b.size && a.alignment == b.alignment; }
  friend bool operator!=(TypeLayout a, TypeLayout b) { return !(a == b); }
};

struct Version {
  std::uint16_t major = 0;
  std::uint8_t minor = 0, patch = 0;

  friend bool operator==(Version a, Version b) {
    return std::tie(a.major, a.minor, a.patch) == std::tie(b.major, b.minor, b.patch);
  }
  friend bool operator!=(Version a, Version b) { return !(a == b); }
  friend bool operator<(Version a, Version b) {
    return std::tie(a.major, a.minor, a.patch) < std::tie(b.major, b.minor, b.patch);
  }
  friend bool operator>(Version a, Version b) { return b < a; }
  friend bool operator<=(Version a, Version b) { return !(b < a); }
  friend bool operator>=(Version a, Version b) { return !(a < b); }
  // In decimal, whatever the stream's flags are.
  friend std::ostream& operator<<(std::ostream& out, Version it) {
    return out << std::to_string(it.major) + '.' + std::to_string(it.minor) + '.' + std::to_string(it.patch);
  }
};

// The struct of target_lexicon.h, as long as this version has it: a type of its own in each version.
struct Facts : lexicon_triple_facts {};

// Part of a string as given, perhaps with what a terminal obeys: no stream takes it. ParseError::text is escaped.
struct Raw {
  std::string raw;

  friend bool operator==(const Raw& a, std::string_view b) { return a.raw == b; }
  friend bool operator!=(const Raw& a, std::string_view b) { return !(a == b); }
};

// Why a string is refused, or a name isn't translated.
struct ParseError {
  // From LEXICON_UNRECOGNIZED_ARCHITECTURE to LEXICON_NOT_UTF8; of a dialect's name LEXICON_UNKNOWN_NAME or
  // ..WITHOUT_TRIPLE; of one that is read and not written LEXICON_TRIPLE_WITHOUT_NAME or LEXICON_NEEDS_C_LIBRARY.
  lexicon_status status = LEXICON_OK;
  std::size_t start = 0, end = 0;  // the refused part, in bytes
  Raw part;
  std::string text;        // the line, the string with carets under the part, and the suggestion or the reason
  std::string line;        // the first line of that: Unrecognized operating system: linx
  std::string suggestion;  // the name that may have been meant; empty if there is none
  std::string reason;      // why a name has no triple, or isn't translated, and what would help; empty if none

  // The field of which a value was expected; none after the binary format, or if the string isn't UTF-8.
  std::optional<Field> field() const {
    if (status < LEXICON_UNRECOGNIZED_ARCHITECTURE || status > LEXICON_UNRECOGNIZED_BINARY_FORMAT) return std::nullopt;
    return static_cast<Field>(status - 1);
  }
  friend std::ostream& operator<<(std::ostream& out, const ParseError& it) { return out << it.text; }
};

// A part of a string that `Triple::read` reads as other names, as freebsd for freebsd13.2, whose version is dropped.
struct Change {
  std::size_t start = 0, end = 0;  // the part, in bytes
  Raw part;
  std::string names;  // one, or more with dashes between them
};

struct Source {
  Origin origin = Origin::NotGiven;
  std::size_t start = 0, end = 0;  // the part, in bytes; 0 if no part gives the value
};
struct Explanation;
struct Meaning;

class Triple {
  // What is compared.
  auto key() const {
    const auto& it = numbers_;
    return std::make_tuple(it.architecture, vendor(), std::string_view(custom_vendor_), it.operating_system,
                           it.has_version, it.major, it.minor, it.patch, it.environment, it.binary_format);
  }

 public:
  // The unknown triple.
  Triple() = default;

  // The triple of these values. The binary format is the implied one unless it is given. If a value is no enumerator,
  // there is none, and none for Vendor::Custom: then the vendor is given by its name, custom or known.
  static std::optional<Triple> of(Architecture architecture, lexicon::Vendor vendor, OperatingSystem operating_system,
                                  Environment environment = Environment::Unknown,
                                  std::optional<BinaryFormat> binary_format = std::nullopt) {
    return of_numbers(architecture, vendor, {}, operating_system, environment, binary_format);
  }
  static std::optional<Triple> of(Architecture architecture, std::string_view vendor, OperatingSystem operating_system,
                                  Environment environment = Environment::Unknown,
                                  std::optional<BinaryFormat> binary_format = std::nullopt) {
    auto number = value_of<lexicon::Vendor>(vendor);
    if (!number) return std::nullopt;
    return of_numbers(architecture, *number, vendor, operating_system, environment, binary_format);
  }

  // The triple of a struct of target_lexicon.h, if it is one.
  static std::optional<Triple> from_c(const lexicon_triple& triple) {
    Facts facts;
    return lexicon_facts(&triple, &facts, 0) == LEXICON_OK ? std::optional<Triple>(Triple(triple)) : std::nullopt;
  }

  // The triple with another value in one field, if that is one. A binary format that the fields imply becomes the one
  // that the new fields imply; another one stays. A new operating system has no version, unless it is given.
  std::optional<Triple> with_architecture(Architecture value) const {
    return changed([&](lexicon_triple& it) { it.architecture = static_cast<std::uint16_t>(value); });
  }
  std::optional<Triple> with_vendor(lexicon::Vendor value) const { return with_vendor(value, {}); }
  std::optional<Triple> with_vendor(std::string_view vendor) const {
    auto number = value_of<lexicon::Vendor>(vendor);
    return number ? with_vendor(*number, vendor) : std::nullopt;
  }
  std::optional<Triple> with_operating_system(OperatingSystem value,
                                              std::optional<Version> version = std::nullopt) const {
    return changed([&](lexicon_triple& it) {
      it.operating_system = static_cast<std::uint8_t>(value);
      set_version(it, version);
    });
  }
  std::optional<Triple> with_version(std::optional<Version> version) const {
    return changed([&](lexicon_triple& it) { set_version(it, version); });
  }
  std::optional<Triple> with_environment(Environment value) const {
    return changed([&](lexicon_triple& it) { it.environment = static_cast<std::uint8_t>(value); });
  }
  std::optional<Triple> with_binary_format(BinaryFormat value) const {
    lexicon_triple it = c_triple();
    it.binary_format = static_cast<std::uint8_t>(value);
    return from_c(it);
  }

  // The triple that a string parses as. If it is refused, `error` says why.
  static std::optional<Triple> parse(std::string_view text, ParseError* error = nullptr) {
    return parsed(lexicon_parse, text, error);
  }

  // Likewise, and a custom vendor is refused too, as in x86_64-linx and x86_64-unknwon-linux.
  static std::optional<Triple> parse_strict(std::string_view text, ParseError* error = nullptr) {
    return parsed(lexicon_parse_strict, text, error);
  }

  // The triple of the target that the library was built for.
  static Triple host() { return parse(lexicon_host()).value_or(Triple()); }

  // What `parse` gives, and from where each field comes.
  static std::optional<Explanation> explain(std::string_view text, ParseError* error = nullptr);

  // The triple of a string that is spelled like one, as clang takes it after -target; and that of a name of another
  // tool, such as what `cc -dumpmachine` prints, of Dialect::Gnu. If there is none, `error` says why.
  static std::optional<Triple> read(std::string_view text, ParseError* error = nullptr) {
    return read_in(LEXICON_DIALECT_NONE, text, error);
  }
  static std::optional<Triple> read(std::string_view name, Dialect dialect, ParseError* error = nullptr) {
    return read_in(static_cast<std::uint32_t>(dialect), name, error);
  }

  // What a string means to each dialect that has it as a name, and as one that is spelled like a triple, as
  // `lexicon_meanings` says.
  static std::vector<Meaning> meanings(std::string_view text);

  // The name in a dialect, if there is one. If there is none, `reason` says why, and what would help.
  std::optional<std::string> name_in(Dialect dialect, std::string* reason = nullptr) const {
    return named(lexicon_write, dialect, reason);
  }

  // Likewise the name that states a version which triples don't have, as `lexicon_write_versioned` writes it:
  // `lexicon_versions versions = {}; versions.glibc = {2, 17, 0};`.
  std::optional<std::string> versioned_name_in(Dialect dialect, const lexicon_versions& versions,
                                               std::string* reason = nullptr) const {
    return named(lexicon_write_versioned, dialect, reason, &versions);
  }

  // The triple with the usual environment of a C library of its system, if it states none; else this one.
  Triple completed(ChosenLibc libc) const {
    return variant(lexicon_complete, static_cast<std::uint32_t>(libc)).value_or(*this);
  }

  // The name in the dialect `to` of what a name of the dialect `from` means, with a C library if one is said.
  // Without `from`, the string is spelled like a triple. If there is none, `error` says why.
  static std::optional<std::string> translate(std::string_view name, std::optional<Dialect> from, Dialect to,
                                              std::optional<ChosenLibc> libc = std::nullopt,
                                              ParseError* error = nullptr, const lexicon_versions& versions = {}) {
    std::uint32_t dialect = from ? static_cast<std::uint32_t>(*from) : std::uint32_t(LEXICON_DIALECT_NONE);
    std::uint32_t number = libc ? static_cast<std::uint32_t>(*libc) : std::uint32_t(LEXICON_CHOSEN_LIBC_NONE);
    lexicon_error found = {};
    auto into = static_cast<std::uint32_t>(to);
    std::string translated = detail::written([&](auto... out) {
      return lexicon_translate(dialect, name.data(), name.size(), number, &versions, into, out..., &found);
    });
    if (!translated.empty()) return translated;
    if (error) *error = error_of(name, found, dialect);
    return std::nullopt;
  }

  // The five fields, in order.
  Architecture architecture() const { return static_cast<Architecture>(numbers_.architecture); }
  Vendor vendor() const { return has_custom_vendor() ? Vendor::Custom : static_cast<Vendor>(numbers_.vendor); }
  OperatingSystem operating_system() const { return static_cast<OperatingSystem>(numbers_.operating_system); }
  Environment environment() const { return static_cast<Environment>(numbers_.environment); }
  BinaryFormat binary_format() const { return static_cast<BinaryFormat>(numbers_.binary_format); }

  // The name of the vendor, also of a custom one.
  std::string vendor_name() const { return has_custom_vendor() ? custom_vendor_ : std::string(name(vendor())); }
  // The name that may have been meant by a custom vendor; empty if there is none.
  std::string vendor_suggestion() const { return text(lexicon_vendor_suggestion); }
  std::optional<Version> version() const {
    if (!numbers_.has_version) return std::nullopt;
    return Version{numbers_.major, numbers_.minor, numbers_.patch};
  }
  // The version of macOS that the triple states, 10.15 for darwin19.6: that of darwin is the kernel's.
  std::optional<Version> macos_version() const { return version_by(lexicon_macos_version); }

  // What a compiler and its driver ask, as struct lexicon_triple_facts says of each. Sizes of C's types are in bytes.
  // written by tools/names/write: the facts for C++
  std::optional<Endianness> endianness() const { return detail::answer<Endianness>(queries().endianness); }
  std::optional<unsigned> pointer_width() const { return detail::answer<unsigned>(queries().pointer_width); }
  std::optional<CallingConvention> default_calling_convention() const {
    return detail::answer<CallingConvention>(queries().default_calling_convention);
  }
  std::optional<DataModel> data_model() const { return detail::answer<DataModel>(queries().data_model); }
  std::optional<unsigned> short_size() const { return detail::answer<unsigned>(queries().short_size); }
  std::optional<unsigned> int_size() const { return detail::answer<unsigned>(queries().int_size); }
  std::optional<unsigned> long_size() const { return detail::answer<unsigned>(queries().long_size); }
  std::optional<unsigned> long_long_size() const { return detail::answer<unsigned>(queries().long_long_size); }
  std::optional<unsigned> float_size() const { return detail::answer<unsigned>(queries().float_size); }
  std::optional<unsigned> double_size() const { return detail::answer<unsigned>(queries().double_size); }
  BinaryFormat implied_format() const { return static_cast<BinaryFormat>(formats().implied_format); }
  BinaryFormat object_format() const { return static_cast<BinaryFormat>(formats().object_format); }
  Family family() const { return static_cast<Family>(formats().family); }
  bool is_thumb() const { return queries().is_thumb; }
  bool is_like_darwin() const { return queries().is_like_darwin; }
  std::optional<CLibrary> c_library() const { return detail::answer<CLibrary>(facts().c_library); }
  std::optional<FloatAbi> float_abi() const { return detail::answer<FloatAbi>(facts().float_abi); }
  bool is_unix() const { return facts().is_unix; }
  std::optional<unsigned> long_double_size() const { return detail::answer<unsigned>(facts().long_double_size); }
  std::optional<unsigned> long_double_alignment() const {
    return detail::answer<unsigned>(facts().long_double_alignment);
  }
  std::optional<unsigned> wchar_size() const { return detail::answer<unsigned>(facts().wchar_size); }
  std::optional<unsigned> wchar_alignment() const { return detail::answer<unsigned>(facts().wchar_alignment); }
  std::optional<unsigned> arm_version() const { return detail::answer<unsigned>(facts().arm_version); }
  std::optional<ArmProfile> arm_profile() const { return detail::answer<ArmProfile>(facts().arm_profile); }
  std::optional<Signedness> char_signedness() const { return detail::answer<Signedness>(facts().char_signedness); }
  bool has_emulated_tls() const { return facts().has_emulated_tls; }
  bool has_comdat() const { return facts().has_comdat; }
  // end of what is written
  bool has_custom_vendor() const { return !custom_vendor_.empty(); }
  std::optional<TypeLayout> long_double() const {
    auto it = facts();
    return layout(it.long_double_size, it.long_double_alignment);
  }
  std::optional<TypeLayout> wchar() const {
    auto it = facts();
    return layout(it.wchar_size, it.wchar_alignment);
  }

  // The string that LLVM and clang take for the target: arm64-apple-macosx for aarch64-apple-darwin.
  std::string llvm_target() const { return text(lexicon_llvm_target); }

  // What ends the name of a program, as rustc has it.
  std::string program_suffix() const { return text(lexicon_program_suffix); }

  // Debian's multiarch tuple, if it has one.
  std::optional<std::string> multiarch_tuple() const { return text_if_any(lexicon_multiarch_tuple); }

  // What `rustc --print cfg` writes of the target's cfg options, a line for each.
  std::string rustc_cfg() const { return text(lexicon_rustc_cfg); }

  // All of the facts at once.
  Facts facts() const { return facts_up_to(sizeof(Facts)); }

  // The printed triple, and that of the canonical form, which is a key.
  std::string printed() const { return text(lexicon_print); }
  std::string canonical() const { return settle().printed(); }

  // The canonical form: what the printed triple parses as.
  Triple settle() const { return variant(lexicon_settle).value_or(*this); }
  bool comes_back() const {
    lexicon_triple triple = c_triple();
    return lexicon_comes_back(&triple);
  }
  // Whether the canonical forms are equal.
  bool same_target(const Triple& other) const {
    lexicon_triple triple = c_triple(), another = other.c_triple();
    return lexicon_same_target(&triple, &another);
  }

  // The struct of target_lexicon.h. It may point into this triple.
  lexicon_triple c_triple() const {
    lexicon_triple triple = numbers_;
    if (has_custom_vendor()) {
      triple.vendor = LEXICON_VENDOR_CUSTOM;
      triple.custom_vendor = custom_vendor_.data();
      triple.custom_vendor_size = custom_vendor_.size();
    }
    return triple;
  }

  // All five fields are the same. The order is that of the numbers of the fields, for std::map.
  friend bool operator==(const Triple& a, const Triple& b) { return a.key() == b.key(); }
  friend bool operator!=(const Triple& a, const Triple& b) { return !(a == b); }
  friend bool operator<(const Triple& a, const Triple& b) { return a.key() < b.key(); }
  friend bool operator>(const Triple& a, const Triple& b) { return b < a; }
  friend bool operator<=(const Triple& a, const Triple& b) { return !(b < a); }
  friend bool operator>=(const Triple& a, const Triple& b) { return !(a < b); }
  friend std::ostream& operator<<(std::ostream& out, const Triple& it) { return out << it.printed(); }
  std::size_t hash() const {
    const auto& it = numbers_;
    std::uint64_t low = it.architecture | std::uint64_t(it.vendor) << 16 | std::uint64_t(it.operating_system) << 24 |
                        std::uint64_t(it.environment) << 32 | std::uint64_t(it.binary_format) << 40 |
                        std::uint64_t(it.has_version) << 48;
    std::uint64_t version = std::uint64_t(it.major) << 16 | std::uint64_t(it.minor) << 8 | it.patch;
    return std::hash<std::uint64_t>()(low * 0x9e3779b97f4a7c15u ^ version) ^ std::hash<std::string>()(custom_vendor_);
  }

 private:
  // What a call writes of this triple.
  template <class Call> std::string text(Call call) const {
    lexicon_triple triple = c_triple();
    return detail::written([&](auto... out) { return call(&triple, out...); });
  }
  template <class Call> std::optional<std::string> text_if_any(Call call) const {
    std::string found = text(call);
    return found.empty() ? std::nullopt : std::make_optional(std::move(found));
  }

  // The name that a call writes, or why there is none.
  template <class Call, class... Version>
  std::optional<std::string> named(Call call, Dialect dialect, std::string* reason, Version... version) const {
    lexicon_triple triple = c_triple();
    const char* why = nullptr;
    std::string name = detail::written(
        [&](auto... out) { return call(static_cast<std::uint32_t>(dialect), &triple, version..., out..., &why); });
    if (!name.empty()) return name;
    if (reason) *reason = detail::text_of(why);
    return std::nullopt;
  }

  // The facts that lie in the first bytes of the struct: the others aren't computed.
  Facts facts_up_to(std::size_t size) const {
    Facts facts = {};
    lexicon_triple triple = c_triple();
    return lexicon_facts(&triple, &facts, size) == LEXICON_OK ? facts : Facts{};
  }
  Facts queries() const { return facts_up_to(offsetof(lexicon_triple_facts, implied_format)); }
  Facts formats() const { return facts_up_to(offsetof(lexicon_triple_facts, c_library)); }
  static std::optional<TypeLayout> layout(unsigned size, unsigned alignment) {
    return size == 0 ? std::nullopt : std::make_optional(TypeLayout{size, alignment});
  }

  // The triple that a call makes of this one.
  template <class Call, class... Number> std::optional<Triple> variant(Call call, Number... number) const {
    lexicon_triple triple = c_triple();
    return call(&triple, number...) == LEXICON_OK ? std::optional<Triple>(Triple(triple)) : std::nullopt;
  }

  template <class Call> std::optional<Version> version_by(Call call) const {
    lexicon_triple triple = c_triple();
    lexicon_os_version it = {};
    return call(&triple, &it) == LEXICON_OK ? std::make_optional(Version{it.major, it.minor, it.patch}) : std::nullopt;
  }

  template <class Call>
  static std::optional<Triple> parsed(Call call, std::string_view text, ParseError* error,
                                      std::uint32_t dialect = LEXICON_DIALECT_NONE) {
    lexicon_triple triple;
    lexicon_error found;
    if (call(text.data(), text.size(), &triple, &found) == LEXICON_OK) return Triple(triple);
    if (error) *error = error_of(text, found, dialect);
    return std::nullopt;
  }

  // The triple of a struct that is one. What isn't read of it may have any value.
  explicit Triple(const lexicon_triple& it) {
    numbers_.architecture = it.architecture;
    if (it.vendor == LEXICON_VENDOR_CUSTOM) custom_vendor_.assign(it.custom_vendor, it.custom_vendor_size);
    else numbers_.vendor = it.vendor;
    numbers_.operating_system = it.operating_system;
    numbers_.environment = it.environment;
    numbers_.binary_format = it.binary_format;
    if (!it.has_version) return;
    numbers_.has_version = it.has_version;
    numbers_.major = it.major;
    numbers_.minor = it.minor;
    numbers_.patch = it.patch;
  }

  static std::optional<Triple> of_numbers(Architecture architecture, lexicon::Vendor vendor,
                                          std::string_view custom_vendor, OperatingSystem operating_system,
                                          Environment environment, std::optional<BinaryFormat> binary_format) {
    lexicon_triple it = {};
    it.architecture = static_cast<std::uint16_t>(architecture);
    it.vendor = static_cast<std::uint8_t>(vendor);
    it.operating_system = static_cast<std::uint8_t>(operating_system);
    it.environment = static_cast<std::uint8_t>(environment);
    it.binary_format = static_cast<std::uint8_t>(binary_format.value_or(BinaryFormat::Unknown));
    it.custom_vendor = custom_vendor.data();
    it.custom_vendor_size = custom_vendor.size();
    return finished(it, !binary_format);
  }

  // The triple of a struct, perhaps with the format that its other fields imply.
  static std::optional<Triple> finished(const lexicon_triple& it, bool is_implied) {
    auto triple = from_c(it);
    if (triple && is_implied) triple->numbers_.binary_format = triple->formats().implied_format;
    return triple;
  }

  template <class Change> std::optional<Triple> changed(Change change) const {
    lexicon_triple it = c_triple();
    change(it);
    return finished(it, binary_format() == implied_format());
  }

  std::optional<Triple> with_vendor(lexicon::Vendor number, std::string_view custom_vendor) const {
    return changed([&](lexicon_triple& it) {
      it.vendor = static_cast<std::uint8_t>(number);
      it.custom_vendor = custom_vendor.data();
      it.custom_vendor_size = custom_vendor.size();
    });
  }

  static void set_version(lexicon_triple& it, std::optional<Version> version) {
    it.has_version = version.has_value();
    if (!version) return;
    it.major = version->major;
    it.minor = version->minor;
    it.patch = version->patch;
  }

  static std::optional<Triple> read_in(std::uint32_t dialect, std::string_view text, ParseError* error) {
    auto call = [&](auto... given) { return lexicon_read(dialect, given...); };
    return parsed(call, text, error, dialect);
  }

  static ParseError error_of(std::string_view text, const lexicon_error& found, std::uint32_t dialect) {
    ParseError error;
    error.status = static_cast<lexicon_status>(found.status);
    error.start = found.start;
    error.end = found.end;
    error.part.raw = text.substr(found.start, found.end - found.start);
    const char* data = text.data();
    std::size_t size = text.size();
    error.text = detail::written([&](auto... out) { return lexicon_error_text(data, size, &found, out...); });
    error.line = error.text.substr(0, error.text.find('\n'));
    bool is_name = found.status == LEXICON_UNKNOWN_NAME;
    error.suggestion = detail::written([&](auto... out) {
      return is_name ? lexicon_name_suggestion(dialect, data, size, out...)
                     : lexicon_suggestion(data, size, &found, out...);
    });
    if (is_name && !error.suggestion.empty()) error.text += " did you mean `" + error.suggestion + "`?";
    error.reason = detail::text_of(found.reason);
    if (found.reason) error.text += " " + error.reason;
    return error;
  }

  // The numbers, without a custom vendor, which is this text: a triple that was moved from is one too.
  lexicon_triple numbers_ = {};
  std::string custom_vendor_;
};

struct Explanation {
  Triple triple;
  Source architecture, vendor, operating_system, environment, binary_format;
};

inline std::optional<Explanation> Triple::explain(std::string_view text, ParseError* error) {
  lexicon_sources sources;
  auto call = [&](auto of, auto size, auto triple, auto found) {
    return lexicon_explain(of, size, triple, &sources, found);
  };
  auto triple = parsed(call, text, error);
  if (!triple) return std::nullopt;
  auto of = [](const lexicon_source& it) { return Source{static_cast<Origin>(it.origin), it.start, it.end}; };
  return Explanation{*triple, of(sources.architecture), of(sources.vendor), of(sources.operating_system),
                     of(sources.environment), of(sources.binary_format)};
}

// Whose name a string is, and the canonical triple that it means there.
struct Meaning {
  std::optional<Dialect> dialect;  // none of a string that is spelled like a triple, and of what words say
  bool by_words = false;           // nobody has the name, and its words say just this
  std::optional<Triple> triple;
  std::string level;   // of the machine, which the triple can't state, such as v3 of linux/amd64/v3; empty if none
  std::string reason;  // why no triple means the same; empty if one does
};

inline std::vector<Meaning> Triple::meanings(std::string_view text) {
  lexicon_meaning meanings[LEXICON_MAX_MEANINGS];
  std::size_t count = 0;
  std::vector<Meaning> found;
  if (lexicon_meanings(text.data(), text.size(), meanings, LEXICON_MAX_MEANINGS, &count) != LEXICON_OK) return found;
  for (std::size_t at = 0; at < count; at++) {
    const lexicon_meaning& meant = meanings[at];
    Meaning it;
    it.by_words = meant.dialect == LEXICON_BY_WORDS;
    if (!it.by_words && meant.dialect != LEXICON_DIALECT_NONE) it.dialect = static_cast<Dialect>(meant.dialect);
    if (meant.status == LEXICON_OK) it.triple = Triple(meant.triple);
    (meant.status == LEXICON_OK ? it.level : it.reason) = detail::text_of(meant.note);
    found.push_back(std::move(it));
  }
  return found;
}

// What `Triple::read` reads as other names in a string that is spelled like a triple, from its start to its end.
inline std::vector<Change> changes(std::string_view text) {
  std::vector<Change> found;
  for (lexicon_part it = {};;) {
    std::string names = detail::written(
        [&](auto... out) { return lexicon_changes(text.data(), text.size(), found.size(), &it, out...); });
    if (names.empty()) return found;
    found.push_back({it.start, it.end, {std::string(text.substr(it.start, it.end - it.start))}, std::move(names)});
  }
}

// A target in a text.
struct Target {
  std::size_t start = 0, end = 0;  // in bytes
  std::string text;
};

// The targets in any text, as `lexicon_targets` finds them. One that isn't UTF-8 has none.
inline std::vector<Target> targets_in(std::string_view text) {
  std::size_t count = 0;
  std::vector<lexicon_part> parts;
  while (lexicon_targets(text.data(), text.size(), parts.data(), parts.size(), &count) == LEXICON_TOO_SMALL)
    parts.resize(count);
  std::vector<Target> found;
  for (const auto& it : parts)
    found.push_back({it.start, it.end, std::string(text.substr(it.start, it.end - it.start))});
  return found;
}

// The canonical form of each line of a string, with a line feed after it; of a line that is refused, only the line
// feed.
inline std::string settle_lines(std::string_view text) {
  std::size_t lines = 1 + static_cast<std::size_t>(std::count(text.begin(), text.end(), '\n')), length = 0;
  std::string settled(text.size() + lines * LEXICON_MAX_GROWTH + 1, '\0');
  if (lexicon_settle_lines(text.data(), text.size(), settled.data(), settled.size() + 1, &length) != LEXICON_OK)
    length = 0;
  settled.resize(length);
  return settled;
}

// The version and the commit of the library.
inline std::string_view version() { return lexicon_version(); }

}  // namespace v0_5_0
}  // namespace lexicon

template <> struct std::hash<lexicon::Triple> {
  std::size_t operator()(const lexicon::Triple& triple) const { return triple.hash(); }
};

#if defined(__cpp_lib_format)
template <> struct std::formatter<lexicon::Triple> : std::formatter<std::string_view> {
  template <class Context> auto format(const lexicon::Triple& triple, Context& context) const {
    std::formatter<std::string_view> same = *this;  // some libraries' isn't const
    return same.format(triple.printed(), context);
  }
};
#endif

#endif
