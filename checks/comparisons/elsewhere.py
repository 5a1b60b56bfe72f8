"""Asks the tools that the names of targets come from whether the rows of packages/names/elsewhere.tsv mean what the
tools mean.

dpkg says byte order, pointer width and GNU type of each name; Go and containerd, which names they have and how they
write them; esbuild and Node's manual, the words; config.sub, which strings there are, and what it makes of them. The
crate cc has a table of prefixes. rustc lists its targets, and says the architecture, byte order, pointer width and
object format of each, and what its cfg options are. clang prints its own form of each known name. Python's sysconfig
says how it names platforms, and packaging which tags it makes. rpm says which machines have 64 bits, and how they pass
floating-point numbers; config.guess, what a system is whose `uname` is told; Nix and makepkg, how they name the machine
that they run on; Meson, of which family a machine of `uname` is; CMake, the prefixes of Android's NDK. Without one of
them it fails, unless WITHOUT names that. Each source of the table that is a file or a command is there, and no older
than the table says. Without any tool it checks that a machine's word means one architecture, and that each other
spelling is explained by a rule or listed here. The status is 1 if an answer differs that docs/TOOL_NAMES.md doesn't
list. The names of Android and iOS need a Python 3.13 that runs this.

Debian's packages: dpkg-dev autotools-dev golang-go golang-github-containerd-containerd-dev esbuild nodejs-doc
librust-cc-dev python3-packaging rpm nix-bin makepkg clang meson cmake-data.
"""
import collections
import concurrent.futures
import glob
import gzip
import json
import os
import re
import shutil
import subprocess

import built
from upstream import crates
from comparisons import python_platforms, rustc_cfg
from comparisons.tools import Report, order_and_width, output, rows_of_names, rustc_answers, rustc_specs

# The word of each dialect for a system, where it isn't the library's. A word that means another system in every row of
# a dialect is found by nothing else.
SYSTEM_WORDS = {"android": "linux", "win32": "windows", "win": "windows", "manylinux": "linux", "musllinux": "linux",
                "macos": "darwin macosx",
                "sunos": "solaris illumos", "hurd": "hurd", "musl": "linux", "uclibc": "linux", "lpia": "linux",
                "iphoneos": "ios", "alpine": "linux",
                "linuxmusl": "linux", "mas": "darwin", "openharmony": "linux", "osx": "darwin macosx",
                "maccatalyst": "ios", "iossimulator": "ios",
                "tvossimulator": "tvos", "browser": "emscripten", "freestanding": "none unknown",
                "pyodide": "emscripten", "mingw": "windows",
                "gnu": "hurd", "cygwin_nt": "cygwin", "mingw64_nt": "windows", "mingw32_nt": "windows",
                "windows_nt": "windows",
                "ucrt64_nt": "windows", "clang64_nt": "windows", "clangarm64_nt": "windows", "wasi": "wasip1 wasi",
                "mac": "darwin", "macosx": "darwin macosx",
                **dict.fromkeys(("ubuntu", "debian", "rhel", "fedora", "centos", "opensuse", "sles", "ol", "almalinux",
                                 "linuxmint", "rocky"), "linux")}
# The lists of the table that are no dialects, the dialects whose names are spelled like triples, and those whose names
# are a machine's word. The names of each other dialect have a word for the system.
LISTS = ("first", "second", "hard", "later")
OF_TRIPLES, OF_MACHINES = ("gnu", "rust"), ("rpm", "apk", "pacman")
# The architecture of a machine's word that only one name has, so that no other name of a dialect says what it means.
ONLY_ONCE = {"arm64ilp32": "aarch64", "powerpcspe": "powerpc", "x32": "x86_64", "amd64/v1": "x86_64",
             "arm/v5": "armv5te", "arm/v8": "armv8", "x86-64": "x86_64", "arm64_v8a": "aarch64",
             "armeabi_v7a": "armv7", "x86": "i686", "armv8l": "armv8", "ppc": "powerpc", "win32": "i686",
             "arm32": "armv7", "lpia": "i686", "riscv": "riscv32", "arm64be": "aarch64_be", "amd64_v1": "x86_64",
             "arm64_v8.0": "aarch64", "arm/v7l": "armv7", "arm64v8": "aarch64", "aarch64_be": "aarch64_be",
             "armv4tl": "armv4t", "power macintosh": "powerpc", "octeon": "mips64", "loongson": "mips64el",
             "i686-at386": "i686", "bepc": "i586", "em64t": "x86_64", "ia32e": "x86_64", "athlon": "i686",
             "geode": "i586", "armv6hl": "armv6", "armv7hl": "armv7", "armv7hnl": "armv7", "armv8hl": "armv8",
             "ppc64p7": "powerpc64", "sparcv9": "sparc", "armv7h": "armv7", "armv6h": "armv6", "thumb": "thumbv7a",
             "armel": "armv5te", "arm32v5": "armv5te", "arm32v6": "armv6", "arm32v7": "armv7", "arm64/v8.0": "aarch64",
             "wasm64": "wasm64", "earmv6hf": "armv6", "earmv7hf": "armv7", "armv7a": "armv7", "msp430": "msp430",
             "bpfeb": "bpfeb", "bpfel": "bpfel", "znver1": "x86_64"}
# Words that mean another machine in one dialect, or there on one system: the little-endian builds of Node on Linux, the
# versions of Arm that a tool needs, models of the i386 that others don't tell apart, and programs of 32 bits on
# Windows.
OWN_WORDS = {"linux ppc64 of node": "powerpc64le", "windows/arm of go": "armv7", "arm of dotnet": "armv7",
             "armel of dotnet": "armv7", "armhf of apk": "armv6",
             "armel of apk": "armv5te", "arm of pacman": "armv5te", "64 of conda": "x86_64", "64 of node": "x86_64",
             "32 of conda": "i686", "i386 of rpm": "i386",
             "linux i386 of uname": "i386", "freebsd riscv of uname": "riscv64", "mingw32_nt x86_64 of uname": "i686",
             "linuxmusl ppc64 of node": "powerpc64le", "x86 of apk": "i586",
             **{f"{name} of node": "armv7" for name in ("win32-arm", "android-arm-eabi", "linux-arm-gnueabihf",
                                                        "linux-arm-musleabihf", "linux-arm-glibc", "linux-arm-musl",
                                                        "linux-musl-arm", "linuxmusl-arm", "openharmony-arm")}}
# Names of packages that aren't in dpkg's table: those of Termux, Ubuntu and iOS, and wildcards.
NOT_DPKG = ("aarch64", "i686", "x86_64", "amd64v3", "lpia", "iphoneos-arm", "iphoneos-arm64", "linux-amd64",
            "any-amd64", "hurd-any", "linux-any")
# Names of Go without a triple that are no ports.
NOT_PORTS = ("386", "amd64", "arm64", "mips64le", "mipsle", "wasm", "linux/s390", "zos/s390x")
# Names of cargo-zigbuild that are no targets of rustc.
NOT_RUSTC = ("universal2-apple-darwin",)
# Other spellings that no rule of `spelled_by_rule` explains, and what they are read as.
SPELLINGS = {"amd64": "x86_64", "armel": "arm", "i486": "i386", "bpf_be": "bpfeb", "bpf_le": "bpfel",
             "systemz": "s390x", "thumbv7": "thumbv7a", "w64": "pc", "mingw32": "windows-gnu",
             "mingw64": "windows-gnu", "win32": "windows-msvc", "macos": "macosx", "macos+": "macosx",
             "mac+": "macosx", "sunos5": "solaris", "sunos5*": "solaris", "gnu*": "hurd-gnu", "netbsdelf": "netbsd",
             "netbsdelf*": "netbsd", "simulator": "sim", "x64": "x86_64", "ppc64el": "powerpc64le",
             "rs6000": "powerpc", "sun4v": "sparc64", "mingw32ucrt": "windows-gnu", "gnu.*": "gnu", "gnu2.*": "gnu",
             "none-unknown-": "unknown-none", "windows-cygnus": "cygwin-unknown"}
# The machines and ends of strings that config.sub is asked for, and the words of systems in its own text.
MACHINES = """x86_64 i686 aarch64 arm armv7l armv6l armeb powerpc powerpc64le ppc64le mips mips64el riscv64 riscv32
    s390x sparc64 loongarch64 m68k avr""".split()
ENDS = ("", "linux", "unknown-linux", "redhat-linux", "suse-linux", "poky-linux", "buildroot-linux-gnu", "linux-gnu",
        "alpine-linux-musl", "linux-musl",
        "linux-uclibc", "linux-gnueabihf", "gnu", "elf", "unknown-elf", "none-elf", "none-eabi", "unknown-freebsd13.2",
        "unknown-netbsd", "-netbsd",
        "pc-cygwin", "w64-mingw32", "apple-darwin20")
# Where a word stands: what is before it, after the machine, and what is after it. And makers that config.sub has no
# words for.
PLACES = (("", ""), ("", "-elf"), ("", "-gnu"), ("", "-eabi"), ("-unknown", ""), ("-linux", ""), ("-netbsd", ""),
          ("-pc-linux", ""), ("-pc-netbsd", ""))
MAKERS = ("redhat", "linuxmint", "softfloat", "le", "el", "w64")
SHELLS = 4
SYSTEM_CASES = ("# Now, validate our (potentially fixed-up) OS.", "# Now, normalize the OS")
MAKER_CASE, PAIR_CASE = "# Manufacturers", "case $maybe_os in"
PLATFORMS = """package main

import ("bufio"; "fmt"; "os"; "github.com/containerd/containerd/platforms")

func main() {
	for lines := bufio.NewScanner(os.Stdin); lines.Scan(); {
		it, err := platforms.Parse(lines.Text())
		if err != nil { fmt.Println("error") } else { fmt.Println(platforms.Format(platforms.Normalize(it))) }
	}
}
"""

# What Meson says of the machines that `uname -m` would print.
MESON = """import platform, sys
from mesonbuild import environment
for line in sys.stdin:
    platform.machine = lambda: line.strip()
    print(environment.detect_cpu_family({}))
"""

# What stands for `uname` while config.guess asks.
UNAME = """#!/bin/sh
case "$1" in -m) echo "$TOLD_MACHINE";; -p) echo unknown;; -r) echo 7.1;; *) echo "$TOLD_SYSTEM";; esac
"""

class Comparison(Report):
    def __init__(self, options, folder):
        super().__init__(options, folder)
        self.rows, self.folder = rows_of_names(), folder
        self.dialects = [it for it in dict.fromkeys(row.dialect for row in self.rows)
                         if it not in (*LISTS, *OF_TRIPLES)]

    def rows_of(self, dialect, ways=("rw", "r", "w")):
        return [row for row in self.rows if row.dialect == dialect and row.ways in ways]

    def meanings(self, dialect):
        """What each name of a dialect means that is read."""
        return {row.name: self.read(row.name, dialect) for row in self.rows_of(dialect, ("rw", "r"))}

    def check_systems(self):
        for dialect in self.dialects:
            rows = []
            for row in self.rows_of(dialect):
                word = words_of(dialect, row.name)[0]
                known = set(SYSTEM_WORDS.get(word, word).split()) & {
                    *re.split("[-.0-9*]", row.triple), *row.triple.split("-")}
                rows.append((row.name, row.triple, bool(known), True))
            self.fact(f"the word of {dialect} for the system is the library's, or has that one in SYSTEM_WORDS", rows)

    def check_machines(self):
        words = collections.defaultdict(list)
        for dialect in self.dialects:
            for row in self.rows_of(dialect):
                if row.note.startswith("+") or (dialect, row.ways) == ("go", "w"):
                    continue  # a level of the machine, or what only the shape of a triple says
                system, word = words_of(dialect, row.name)
                own = OWN_WORDS.keys() & {f"{it} of {dialect}" for it in (word, f"{system} {word}", row.name)}
                words[own.pop() if own else word].append((dialect, row.name, row.triple.split("-")[0]))
        self.fact("a machine's word means one architecture in all dialects, or that of OWN_WORDS", (
            (*row, OWN_WORDS.get(word, rows[0][2])) for word, rows in words.items() for row in rows))
        # A name with one number says no more than that with two.
        self.fact("and one that only one name has means that of ONLY_ONCE", (
            (word, rows[0][2], ONLY_ONCE.get(word)) for word, rows in words.items()
            if rows[0][2] and word not in OWN_WORDS
            and len({(dialect, name.replace("*_*", "*")) for dialect, name, _ in rows}) == 1))
        self.fact("a word that says 64 or 32 is that of a machine with as many bits", (
            (word, rows[0][2], self.target_lexicon.Triple(rows[0][2]).pointer_width, 64 if "64" in word else 32)
            for word, rows in words.items() if re.search("64|32", word)), "x32|mingw32|ia32e")

    def check_libraries(self):
        rows = []
        for dialect in self.dialects:
            linux = [row for row in self.rows_of(dialect, ("rw", "w")) if "-linux" in row.triple]
            if all(row.triple.endswith("-unknown-linux") or row.triple.endswith(("android", "androideabi"))
                   for row in linux):
                rows += [(row.name, self.target_lexicon.Triple(f"{row.triple}-{library}").name_in(dialect), row.name)
                         for row in linux if row.triple.endswith("-unknown-linux") for library in ("gnu", "musl")]
        self.fact("a dialect that states no C library has its names for each", rows)

    def check_spellings(self):
        self.fact("each other spelling of a part is explained by a rule, or is one of SPELLINGS", (
            (row.dialect, row.name, row.triple, SPELLINGS.get(row.name) or spelled_by_rule(row.name.rstrip("!")))
            for dialect in ("first", "later") for row in self.rows_of(dialect)))
        sub = "/usr/share/misc/config.sub"
        if self.has("config.sub", os.path.exists(sub)):
            first = {row: output("sh", sub, f"{row.name.rstrip('!')}-unknown-linux-gnu").split("-")[0]
                     for row in self.rows_of("first")}
            self.fact("config.sub rewrites no first part otherwise", (
                (row.name, row.triple if said in ("", row.name.rstrip("!")) else said, row.triple)
                for row, said in first.items()))
            # Two parts are LLVM's.
            later = {row.name: re.sub("[*+]", "9.1", row.name) for row in self.rows_of("later") if "-" not in row.name}
            takes = {name: any(output("sh", sub, f"{machine}-{part}")
                               for machine in ("x86_64-unknown", "arm-unknown-linux"))
                     for name, part in later.items()}
            self.fact("config.sub takes each later part", ((name, took, True) for name, took in takes.items()),
                      "w64|win32|msvc|simulator")

    def check_dpkg(self):
        if not self.has("dpkg", shutil.which("dpkg-architecture")):
            return
        known = {*output("dpkg-architecture", "-L").split(), "all", "any", "source"}
        rows = self.rows_of("debian", ("rw", "-"))
        self.fact("Debian's names are dpkg's, or listed here",
                  ((row.name, row.name in {*known, *NOT_DPKG}, True) for row in rows))
        meanings, said, gnu, multiarch = {name: it for name, it in self.meanings("debian").items()
                                          if name not in NOT_DPKG}, {}, {}, {}
        for name in meanings:
            it = dict(line.split("=", 1) for line in output("dpkg-architecture", "-f", "-a", name).splitlines())
            said[name], gnu[name] = (it["DEB_HOST_ARCH_ENDIAN"], int(it["DEB_HOST_ARCH_BITS"])), it["DEB_HOST_GNU_TYPE"]
            multiarch[name] = it["DEB_HOST_MULTIARCH"]
        self.fact("Debian's names have dpkg's byte order and width", (
            (name, order_and_width(it), said[name]) for name, it in meanings.items()))
        written = {row.name for row in self.rows_of("debian", ("rw",))}
        self.fact("the name of GNU's compiler is dpkg's GNU type", (
            (name, it.name_in("gnu"), gnu[name]) for name, it in meanings.items() if name in written))
        self.fact("the multiarch tuple is dpkg's",
                  ((name, it.multiarch_tuple, multiarch[name]) for name, it in meanings.items() if name in written))

    def check_go(self):
        go = shutil.which("go")
        if not self.has("go", go):
            return
        environment = {**os.environ, "GOFLAGS": "", "GO111MODULE": "off", "CGO_ENABLED": "0",
                       "GOCACHE": f"{self.folder}/go",
                       "GOPATH": "/usr/share/gocode"}
        theirs = output(go, "tool", "dist", "list", env=environment).split()
        ours = [row.name for row in self.rows_of("go", ("rw", "w", "-")) if row.name not in NOT_PORTS
                and "_" not in row.name]
        newer = {row.name for row in self.rows if row.note.startswith("since")} | {"wasip1/wasm"}
        self.fact("Go's names are those of `go tool dist list`", (
            (name, name in ours, name in theirs) for name in {*ours, *theirs} - (newer - {*theirs})))
        arch = crates.read(f"{output(go, 'env', 'GOROOT').strip()}/src/cmd/internal/sys/arch.go")
        machines = {}
        for text in re.findall(r"= &Arch\{(.*?)\n\}", arch, re.S):
            width = 8 * int(re.search(r"PtrSize:\s+(\d)", text)[1])
            machines[re.search(r'Name:\s+"(\w+)"', text)[1]] = ("little" if "LittleEndian" in text else "big", width)
        self.fact("Go's names have Go's byte order and width", (
            (name, order_and_width(it), machines[name.split("/")[1]]) for name, it in self.meanings("go").items()
            if name in ours),
            "wasm")  # Go's own pointers have 64 bits there, and its memories 32.
        if not self.has("containerd",
                        os.path.isdir("/usr/share/gocode/src/github.com/containerd/containerd/platforms")):
            return
        crates.write(f"{self.folder}/platforms.go", PLATFORMS)
        subprocess.run([go, "build", "-o", f"{self.folder}/platforms", f"{self.folder}/platforms.go"], env=environment,
                       check=True)
        meanings = {**self.meanings("oci"), **{name: self.read(name, "oci") for name in platforms()}}
        lines = output(f"{self.folder}/platforms", input="".join(f"{name}\n" for name in meanings)).splitlines()
        normal = dict(zip(meanings, lines, strict=True))
        self.fact("a name of OCI means what containerd's normal form of it means", (
            (name, normal[name], self.read(normal[name], "oci"), it) for name, it in meanings.items()), "v[89][.]")
        self.fact("a name of OCI that is written is containerd's normal form", (
            (row.name, normal[row.name]) for row in self.rows_of("oci", ("rw",))))

    def check_rpm(self):
        if not self.has("rpm", shutil.which("rpm")):
            return
        # Levels of x86-64 are newer than Debian's rpm, and that of Zen is OpenMandriva's.
        others = ("x86_64_v", "znver")
        meanings = {name: it for name, it in self.meanings("rpm").items() if not name.startswith(others)}
        asked = {name: output("rpm", f"--target={name}-linux", "--eval", "%{_lib} %{optflags}") for name in meanings}
        known = re.findall(r"^arch_canon:\s*(\w+):", crates.read("/usr/lib/rpm/rpmrc"), re.M)
        self.fact("rpm has its architectures", ((name, name in known, True) for name in meanings))
        self.fact("rpm has 64-bit libraries for 64-bit machines", (
            (name, it.pointer_width, 64 if "lib64" in asked[name] else 32) for name, it in meanings.items()),
                  "amd64|em64t|ia32e")
        self.fact("rpm passes floating-point numbers in registers where the ABI is hard-float", (
            (name, str(it.environment).endswith("hf"), "-mfloat-abi=hard" in asked[name])
            for name, it in meanings.items()))
        said = {name: re.search(r"-march=(armv\d+\w*)", flags) for name, flags in asked.items()}
        self.fact("rpm compiles for the version of Arm", (
            (name, str(meanings[name].architecture)[:5], it[1][:5]) for name, it in said.items() if it))

    def check_uname(self):
        guess = "/usr/share/misc/config.guess"
        if not self.has("config.guess", os.path.exists(guess)):
            return
        crates.write(f"{self.folder}/uname", UNAME)
        os.chmod(f"{self.folder}/uname", 0o755)
        rows = []
        for row in self.rows_of("uname"):
            system, machine = row.name.replace("*", "19045").split(" ", 1)
            told = {**os.environ, "PATH": f"{self.folder}:{os.environ['PATH']}", "TOLD_SYSTEM": system,
                    "TOLD_MACHINE": machine}
            said = self.read(output("sh", guess, env=told).strip().lower())
            ours = self.read(row.name.replace("*", "19045"), "uname")
            rows.append((row.name, *(it and f"{family(it)} {re.sub('[0-9.]', '', str(it.operating_system))}"
                                     for it in (ours, said))))
        # Of the systems of BSD it asks `uname -p` and `arch`, and not `uname -m`; a compiler tells it what Mac it is;
        # it doesn't know busybox.
        self.fact("config.guess means the same machine and system as the words of uname", rows,
                  "BSD|Power Macintosh|Darwin i386|Darwin x86_64|DragonFly|Windows_NT|MINGW32_NT-\\S* x86_64|GNU|"
                  "UCRT64|CLANG64|CLANGARM64")

        if not self.has("meson", shutil.which("meson")):
            return
        # Of the systems of BSD it asks `uname -p`.
        asked = [row for row in self.rows_of("uname", ("r",)) if "*" not in row.name and "BSD" not in row.name
                 and "Windows" not in row.name]
        families = output("/usr/bin/python3", "-c", MESON,
                          input="".join(f"{row.name.split(' ', 1)[1]}\n" for row in asked)).splitlines()
        self.fact("Meson has the same family of machines", (
            (row.name, machine_of_rustc(self.read(row.name, "uname")).replace("powerpc", "ppc"), family)
            for row, family in zip(asked, families, strict=True)), "_NT")

    def check_android(self):
        """The prefixes of Android's NDK, and the words of Python's tags, as CMake knows them."""
        file = glob.glob("/usr/share/cmake-*/Modules/Platform/Android-Determine.cmake")
        if not self.has("cmake", file):
            return
        text = crates.read(file[0])
        prefixes, triples = (dict(re.findall(rf'set\(NDK_ABI_([\w-]+)(?<!_LLVM)_{word} +"([\w-]+)"\)', text))
                             for word in ("TRIPLE", "LLVM_TRIPLE"))
        names = {row.name for row in self.rows_of("gnu", ("rw",))}
        # NDKs of today have no MIPS and no Armv5.
        self.fact("CMake's prefixes of the NDK are names of GNU's compilers", (
            (abi, prefix, prefix in names, True) for abi, prefix in prefixes.items()), "mips")
        self.fact("and are those of the triples that CMake gives to LLVM", (
            (abi, self.read(triples[abi]).name_in("gnu"), prefix) for abi, prefix in prefixes.items()), "mips")
        self.fact("Python's tags of Android mean the triples that CMake gives to LLVM", (
            (abi, target(self.read(f"android_21_{abi.replace('-', '_')}", "python")), target(self.read(triples[abi])))
            for abi in triples), "mips|'armeabi|armeabi-v6")

    def check_sources(self):
        """Each source of the table that is a file or a command."""
        with open(f"{built.ROOT}/packages/names/names.json", encoding="utf-8") as file:
            sources = {name: it for name, it in json.load(file)["sources"].items() if it["seen"]}
        there = {name: bool(glob.glob(it["where"])) if it["where"].startswith("/")
                 else bool(shutil.which(it["where"].strip("`").split()[0]))
                 for name, it in sources.items()}
        for name, it in sources.items():
            self.has(it["debian_package"] or name, there[name])
        versions = {name: output("dpkg-query", "-W", "-f", "${Version}", it["debian_package"]) if it["debian_package"]
                    else output(name, "--version").split()[1]
                    for name, it in sources.items() if there[name]}
        self.fact("a source of the table is the version that it says, or a later one", (
            (name, sources[name]["version"], found,
             subprocess.run(["dpkg", "--compare-versions", found, "ge", sources[name]["version"]]).returncode, 0)
            for name, found in versions.items()))

    def check_host(self):
        """Tools that name the machine that they run on."""
        host = output("uname", "-m").strip()
        nix = shutil.which("nix-instantiate") and output("nix-instantiate", "--store", "dummy://", "--eval", "--expr",
                                                         "builtins.currentSystem").strip('"\n')
        makepkg = re.search(r'^CARCH="(.*)"', crates.read("/etc/makepkg.conf"),
                            re.M) if os.path.exists("/etc/makepkg.conf") else None
        for tool, dialect, name in (("nix-instantiate", "nix", nix), ("makepkg", "pacman", makepkg and makepkg[1])):
            if self.has(tool, name):
                self.fact(f"{tool} names this machine so",
                          [(name, self.read(name, dialect).architecture,
                            self.read(f"Linux {host}", "uname").architecture)])

    def check_node(self):
        main = glob.glob("/usr/lib/*/nodejs/esbuild/lib/main.js")
        if self.has("esbuild", main):
            found = re.findall(r'"(\w+) (\w+) ([LB]E)": "@esbuild/', crates.read(main[0]))
            rows = [(f"{system}-{machine}", {"LE": "little", "BE": "big"}[order]) for system, machine, order in found]
            self.fact("esbuild's platforms have its byte order", (
                (name, str(getattr(self.read(name, "node"), "endianness", None)), order) for name, order in rows),
                      "sunos")
        manual = glob.glob("/usr/share/doc/nodejs/api/process.md*")
        if self.has("nodejs-doc", manual):
            with (gzip.open if manual[0].endswith(".gz") else open)(manual[0], "rt") as file:
                text = file.read()
            # Machines and a system that are newer than the manual, as esbuild has them.
            known = {"arch": {"loong64", "riscv64", "mips64el"}, "platform": {"netbsd", "openharmony"}}
            for of, words in known.items():
                words |= {*re.findall(r"`'(\w+)'`", text[text.index(f"## `process.{of}`"):][:900])}
            # A platform of `@types/node`, and a word of napi-rs.
            names = [(row.name, *row.name.split("-")[:2]) for row in self.rows_of("node", ("rw", "w"))
                     if row.name not in ("cygwin-x64", "wasm32-wasi")]
            self.fact("Node's words are the manual's or newer, in names that are written", (
                (name, system in known["platform"] and machine in known["arch"], True)
                for name, system, machine in names))

    def check_gnu(self):
        rows = self.rows_of("gnu")
        self.fact("a name of GNU's compilers without a system or a vendor is read as its triple without a dialect too",
                  (
            (row.name, str(self.read(row.name)), row.triple) for row in rows),
                  "hurd|none|i486|rs6000|sparcv9|'mingw(32|64)'")
        self.fact("and has that one's byte order and width", (
            (row.name, order_and_width(self.read(row.name)), order_and_width(it)) for row in rows
            if (it := self.read(row.name, "gnu"))), "'mingw(32|64)'")
        sub = "/usr/share/misc/config.sub"
        if self.has("config.sub", os.path.exists(sub)):
            self.fact("config.sub takes the names of GNU's compilers", (
                (row.name, output("sh", sub, row.name) != "", True) for row in rows))
            # An i486 is an i686 by the name of NetBSD's compiler, and a sparcv9 a sparc64 by that of Solaris.
            texts = [row.name for row in rows] + [f"{machine}-{end}" if end else machine for machine in MACHINES
                                                  for end in ENDS]
            said = {text: output("sh", sub, text).strip() for text in texts}
            self.fact("a string means to the dialect gnu what config.sub's form of it means", (
                (text, form, self.read(text, "gnu"), self.read(form, "gnu")) for text, form in said.items() if form),
                      "i486|sparcv9")
            self.fact("and Linux has the C library of that form", (
                (text, form, it.environment.value, form.split("-")[-1]) for text, form in said.items()
                if (it := self.read(text, "gnu")) and form.split("-")[-2:-1] == ["linux"]), "uclibcgnu")
            self.try_words(sub)
        crate = glob.glob("/usr/share/cargo/registry/cc-1*/src/lib.rs")
        if self.has("librust-cc-dev", crate):
            text = crates.read(crate[0])
            pairs = dict(re.findall(r'"([\w.-]+)" => Some\("([\w.-]+)"\)',
                                    text[text.index("fn prefix_for_target"):][:9000]))
            written = {name: it.name_in("gnu") for name, it in self.parsed(list(pairs)).items()}
            # cc takes GNU's compiler for musl, 32-bit PowerPC's for 64 bits, and little-endian Arm's for big-endian
            # Arm, and NetBSD's has a version of Arm; two names have a vendor, which the shape drops.
            self.fact("the crate cc's prefixes are the names of GNU's compilers", (
                (name, it, pairs[name]) for name, it in written.items()),
                      "musl|powerpc64|armebv7r|armv[67]--netbsdelf|-frc-|-rumprun-|-uwp-")

    def try_words(self, sub):
        """What config.sub makes of each machine of the library with each word, of its own and of the library, in one
        place, each word in each with some machines."""
        text = crates.read(sub)
        lexicon = self.target_lexicon
        known = [str(it) for field in (lexicon.Vendor, lexicon.OperatingSystem, lexicon.Environment,
                                       lexicon.BinaryFormat) for it in known_names(field)]
        spelled = [re.sub(r"[*+]$", "7.1", row.name.rstrip("!")) for of in ("second", "hard", "later")
                   for row in self.rows_of(of) if "-" not in row.name]
        own = [word for case in (*SYSTEM_CASES, MAKER_CASE, PAIR_CASE) for word in words_of_case(text, case)]
        words = [*dict.fromkeys([*own, *known, *spelled, *MAKERS])]
        machines = [*dict.fromkeys([*map(str, known_names(lexicon.Architecture)),
                                    *(row.name.rstrip("!") for row in self.rows_of("first")), "arm64"])]
        texts = [*dict.fromkeys(f"{machine}{before}-{word}{after}" for i, machine in enumerate(machines)
                                for j, word in enumerate(words)
                                for before, after in [PLACES[(i + j) % len(PLACES)]] if word or not after)]
        texts = [it for it in texts if not it.endswith("-")] + machines
        forms = forms_of_config_sub(text, texts)
        sample = texts[::len(texts) // 300]
        self.fact("config.sub, run many times in one shell, says what it says alone", (
            (it, forms[it], output("sh", sub, it).strip()) for it in sample))
        ours = {it: self.read(it, "gnu") for it in texts}
        self.fact(f"of each of {len(machines)} machines with each of {len(words)} words in one place, what "
                  "config.sub refuses is refused", ((it, ours[it], None) for it in texts if not forms[it]))
        # A machine alone may be a program's name: that of Debian's `mingw32` is a row.
        self.fact("and what it takes has its system, or is refused", (
            (it, forms[it], str(ours[it]), system_of(ours[it]), system_of_form(forms[it])) for it in texts if forms[it]
            and ours[it]))

    def check_rust(self):
        if not self.has("rustc", shutil.which("rustc")):
            return
        targets = output("rustc", "--print", "target-list").split()
        old = [*NOT_RUSTC, *(row.name for row in self.rows_of("rust") if row.note.startswith("rustc's name"))]
        ours = [row.name for row in self.rows_of("rust", ("rw", "r", "-")) if row.name not in old]
        meanings, theirs = self.meanings("rust"), rustc_answers(rustc_specs())
        self.fact("rust's names are those of `rustc --print target-list`", (
            (name, name in ours, name in targets) for name in {*ours, *targets}))
        read = {name: it for name, it in meanings.items() if name in theirs}
        self.fact("rust's names have rustc's architecture",
                  ((name, machine_of_rustc(it), theirs[name]["machine"]) for name, it in read.items()))
        self.fact("rust's names have rustc's byte order and width", (
            (name, order_and_width(it), (theirs[name]["order"], int(theirs[name]["width"])))
            for name, it in read.items()))
        # rustc doesn't say that this target's objects are Wasm.
        self.fact("rust's names have rustc's object format", (
            (name, it.object_format.value, theirs[name]["format"]) for name, it in read.items()), "wali")
        self.fact("a target that parses without a custom vendor has a triple, and that triple its name", (
            (name, it.name_in("rust"), name) for name, it in self.parsed(targets).items() if not it.has_custom_vendor),
                  "-uwp-")
        self.fact("each target that parses is itself, or has no name", (
            (name, written, name) for name, it in self.parsed(targets).items() if (written := it.name_in("rust"))))

    def check_clang(self):
        clang = shutil.which("clang")
        if not self.has("clang", clang):
            return
        names = crates.read(f"{built.ROOT}/checks/upstream/known_triples.txt").split()
        printed = {name: output(clang, "-target", name, "-print-target-triple").strip() for name in names}
        # clang has kernels as systems, and older versions print androideabi as android.
        self.fact("what clang prints for a known name is read as that name", (
            (name, text, target(self.read(text)), target(self.read(name))) for name, text in printed.items()),
            "kernel-none|androideabi")

    def check_python(self):
        self.has("Python's sysconfig", True)
        tags = {name: re.sub("[-.]", "_", name).lower() for name in python_platforms.from_sysconfig()}
        said = {name: self.read(name, "python") for name in tags}
        self.fact("what sysconfig says is read", ((name, it is not None, True) for name, it in said.items()))
        # A deployment target may be one number. The tag that is written has two.
        full = {name: re.sub(r"^(macosx|ios)_(\d+)_(?!\d+_)", r"\1_\2_0_", tag) for name, tag in tags.items()}
        self.fact("the tag of what sysconfig says is written", (
            (name, it and it.name_in("python"), full[name]) for name, it in said.items()),
                  "android|bsd|dragonfly|haiku|cygwin|wasm32")
        made = []
        try:
            made = python_platforms.from_packaging()
        except ImportError:
            pass
        self.has("packaging", made)
        of_several = {tag for tag in made if re.search(r"_(universal2?|intel|fat\w*)$", tag)}
        meanings = {tag: self.read(tag, "python") for tag in [*made, *tags.values()]}
        self.fact("each tag that packaging makes is read, if it is one machine's", (
            (tag, meanings[tag] is not None, tag not in of_several) for tag in made))
        named = {tag: it for tag, it in meanings.items() if it}
        self.fact("the machine's word has the byte order and width", (
            (tag, order_and_width(it), order_and_width_of_tag(tag)) for tag, it in named.items()))
        self.fact("a tag of Linux has the machine of `uname -m`, and the C library of its word", (
            (tag, it, self.read(gnu_type(tag))) for tag, it in named.items() if "linux" in tag))


def known_names(values):
    return [getattr(it, "value", it) for it in values]


def forms_of_config_sub(text, strings):
    """What config.sub prints for each string, or nothing: its own text as a function, in a few shells."""
    body = text[text.index("# Split fields of configuration type"):text.index("# Local variables:")]
    body = re.sub(r"^([ \t]*)exit( 1)?[ \t]*$", r"\1return", body, flags=re.M)
    script = (f'sub() {{\ncase $1 in *local*) echo "$1"; return;; esac\n{body}}}\n'
              'while IFS= read -r line; do sub "$line" 2>&1; done\n')
    parts = [strings[i::SHELLS] for i in range(SHELLS)]
    with concurrent.futures.ThreadPoolExecutor(SHELLS) as shells:
        answers = shells.map(lambda part: output("sh", "-c", script,
                                                 input="".join(f"{it}\n" for it in part)).splitlines(), parts)
    found = {it: said for part, lines in zip(parts, answers) for it, said in zip(part, lines, strict=True)}
    return {it: "" if said.startswith("Invalid") else said for it, said in found.items()}


def system_of_form(form):
    """The library's word for the system of a string that config.sub prints."""
    _, _, *rest = form.split("-", 3)
    if len(rest) == 2:
        return "none" if rest[0] == "unknown" else bare(rest[0])
    words = ((r"android", "linux"), (r"gnu(?!eabi)", "hurd"), (r"elf|coff|eabi|none", "none"), (r"mingw", "windows"),
             (r"solaris2", "solaris"),
             (r"macosx?", "macosx"), (r"netbsd", "netbsd"))
    return next((word for pattern, word in words if re.match(pattern, rest[0])), bare(rest[0]))


def bare(word):
    return re.sub(r"(?<=[a-z])[\d.]+$", "", re.sub(r"^netbsd.*", "netbsd", word))


def system_of(triple):
    return bare(str(triple.operating_system))


def words_of_case(text, start):
    """The words of the patterns of a `case` in a shell script, from this line on. A star is nothing, and a choice its
    first."""
    lines = re.sub("#.*", "", text[text.index(start)
                                   + len(start):].partition("esac")[0]).replace("\\\n", " ").splitlines()
    patterns = [line.strip()[:-1].split("|") for line in lines if line.strip().endswith(")")
                and not re.search(r"[(`]", line)]
    words = [re.sub(r"\[(.).*?\]", r"\1", pattern.strip()).replace("*", "") for of_case in patterns
             for pattern in of_case]
    return [*dict.fromkeys(filter(None, words))]


def machine_of_rustc(triple):
    """The architecture of a triple as rustc names it."""
    name, family = triple.architecture.value, str(triple.family)
    if family in ("mips32", "mips64"):
        return family.removesuffix("32") + ("32" * (family == "mips32") + "r6") * ("r6" in name)
    words = {"x86_32": "x86", "powerpc64le": "powerpc64", "sparcv9": "sparc64", "bpfeb": "bpf", "bpfel": "bpf",
             "amdgcn": "amdgpu", "x86_64h": "x86_64"}
    return words.get(family, words.get(name, family))


def words_of(dialect, name):
    """The system's and the machine's word of a name. A name without a system's is Linux's. A dialect that isn't named
    here has the system's first, and after it a dash, a slash or `_`."""
    if dialect in OF_MACHINES:
        return "linux", name
    if dialect == "debian":
        return (name.split("-")[0] if "-" in name else "linux"), name.split("-")[-1]
    is_node = dialect in ("node", "dotnet", "conda")
    if is_node:
        found = re.match(r"(?:node\*-|bun-)?(?P<system>[a-z]+\d*)(?:\.[\d.*]+)?(?:-(?:musl|bionic))?-(?P<machine>\w+)",
                         re.sub("^(linux|win)(64)$", r"\1-\2", name))
    elif dialect == "uname":
        found = re.fullmatch(r"(?P<system>\w+?)(?:-[\w.*-]+)? (?P<machine>.+)", name.lower())
    elif dialect in ("zig", "nix"):
        found = re.match(r"(?P<machine>\w+)-(?P<system>\w+)", name)
    elif dialect == "python":
        # Tags with dots between them are those of one file.
        found = re.fullmatch(
            r"(?P<system>win|linux|mingw|manylinux|musllinux|macosx|ios|android|freebsd|openbsd|netbsd|dragonfly|haiku|"
            r"cygwin|emscripten|pyodide|wasi)[0-9_*]*_?(?:RELEASE_|release_)?(?P<machine>\D.*?)??"
            r"(?:_iphone\w+|_(?:ucrt|msvcrt|clang)(?:_\w+)?)?", re.sub(r"^manylinux.*_(?=manylinux)", "", name))
    else:
        found = re.fullmatch(r"(?P<system>[a-z0-9]+)(?:\(.*\))?[/_-](?P<machine>.+)", name)
    if not found:
        raise RuntimeError(
            f"which words of {dialect}'s name {name} are the system's and the machine's? words_of in "
            "checks/comparisons/elsewhere.py doesn't know")
    system, machine = found["system"], name if name == "win32" else found["machine"]
    if (system, machine) == ("wasm32", "wasi"):
        return machine, system
    return (system if not is_node or system in SYSTEM_WORDS else system.rstrip("0123456789")), machine


def platforms():
    """Names of platforms: words that containerd knows, in any case, with variants."""
    systems = """linux Linux WINDOWS windows darwin macos MacOS freebsd netbsd openbsd dragonfly android ios solaris
        illumos aix""".split()
    machines = """386 i386 amd64 AMD64 x86_64 x86-64 X86_64 arm arm64 ARM64 aarch64 armhf armel ppc64le riscv64 s390x
        mips""".split()
    return [f"{system}/{machine}{variant}" for system in systems for machine in machines
            for variant in ("", "/v1", "/v5", "/v6", "/v7", "/v8", "/V8", "/5", "/6", "/7", "/8")]


def family(triple):
    """The architecture, without the model of an Arm or an i386."""
    return re.sub(r"^i\d86$", "i686", str(triple.architecture))


def target(triple):
    """What a tool has to agree on: all but the vendor."""
    return triple and str((triple.architecture, triple.operating_system, triple.environment, triple.binary_format))


def spelled_by_rule(name):
    """What a part is read as if a rule explains it: `l`, `hl` or `hnl` after an Arm is dropped, `ppc` is `powerpc`,
    `eb` after `mips` goes without saying, release 6 of MIPS is an architecture of its own, later models of the i686 are
    one, a later part loses its version, and uClibc and musl don't say that they are with GNU's tools."""
    for pattern, new in ((r"(armv\d[a-z]*?)(hn?)?l", r"\1"), ("ppc(32)?", "powerpc"), ("ppc64(le)?", r"powerpc64\1"),
                         ("(mips(64)?)eb", r"\1"),
                         ("mips64r6(el)?", r"mipsisa64r6\1"), ("mipsr6(el)?", r"mipsisa32r6\1"), ("i[789]86", "i686"),
                         ("(uclibc|musl)gnu(eabi(hf)?)", r"\1\2"), (r"(\w+)\*", r"\1")):
        if re.fullmatch(pattern, name):
            return re.sub(pattern, new, name)
    return None


def order_and_width_of_tag(tag):
    """What the machine at the end of a tag means to Linux's `uname -m`, or to Apple, Android and Windows."""
    is_wide = re.search(r"(64|64le|64_v8a|s390x|amd64|iphoneos|iphonesimulator)$", tag)
    return "big" if re.search("_(ppc|ppc64|s390x)$", tag) else "little", 64 if is_wide else 32


def gnu_type(tag):
    """A name like those of GNU's compilers, for a tag of Linux. With a C library 32-bit Arm is hard-float."""
    libraries, machine = re.fullmatch(r"(many|musl|)linux[0-9_]*_([a-z]\w*)", tag).groups()
    library = {"many": "-gnu", "musl": "-musl", "": ""}[libraries]
    return f"{machine}-unknown-linux{library}{'eabihf' if library and machine.startswith('arm') else ''}"


def main(options, folder):
    comparison = Comparison(options, folder)
    for name, check in vars(Comparison).items():
        if name.startswith("check_"):
            check(comparison)
    rustc_cfg.check(comparison)
    return comparison.conclude()
