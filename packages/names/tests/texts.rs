//! The targets in any text.
use target_names::{targets_in, WordIs};

/// The words given of a text, with `>` and what was perhaps meant by a misspelled one, or `!` after an unknown one.
fn found(text: &str) -> Vec<String> {
    let mut at = 0;
    let words = targets_in(text).map(|word| {
        assert_eq!(&text[word.part.start..][..word.part.text.len()], word.part.text);
        assert!(word.part.start >= at, "{text}: the words are in order");
        at = word.part.start + word.part.text.len();
        match word.is() {
            WordIs::Name(_) => word.part.text.to_string(),
            WordIs::Misspelled(meant) => format!("{}>{meant}", word.part.text),
            WordIs::Unknown => format!("{}!", word.part.text),
        }
    });
    words.collect()
}

/// The words that are given of texts, and the texts. What is near a word says whether it is a key, a value, a comment,
/// an item or a part of a pattern.
#[rustfmt::skip]
const ROWS: &[(&str, &[&str])] = &[
    ("x86_64-linux linux/amd64", &[
        "x86_64-linux\nlinux/amd64", "\u{feff}x86_64-linux\r\n\r\nlinux/amd64\r\n", "x86_64-linux,linux/amd64",
        " - x86_64-linux # the first\n# all\n - 'linux/amd64'", "[\"x86_64-linux\", 'linux/amd64',]",
        "`x86_64-linux`\n* `linux/amd64`", "x86_64-linux (installed)\nlinux/amd64", "x86_64-linux# linux/amd64",
        "x86_64-linux #linux/amd64",
    ]),
    ("foo! x86_64-linxu>x86_64-linux linux/amd46>linux/amd64", &["foo\nx86_64-linxu,linux/amd46"]),
    ("Linux x86_64 @esbuild/linux-x64", &["Linux x86_64\n@esbuild/linux-x64"]),
    ("libc6:i386 windows(10.0.25398.709)/amd64", &["libc6:i386,windows(10.0.25398.709)/amd64"]),
    ("x\"\"x!", &["x\"\"x"]),
    ("avr", &[
        "{\"target\":\"avr\",\"os\":\"amd64\"}",
        "{\n  \"os\": [\n    \"linux\",\n    \"windows\"\n  ],\n  \"targets\": [\"avr\"]\n}",
    ]),
    ("", &[
        "", "---\n\n , [] # none\n", "  CARGO_TARGET_X86_64_UNKNOWN_LINUX_GNU_LINKER: clang",
        "runs-on: ${{ matrix.os }}-x86_64-linux", "sudo apt-get install -y gcc-aarch64-linux-gnu linux-headers-amd64",
        "  name: x86_64-unknown-linux-gnu-binaries",
        "Write-only memory, wasm-pack, arm-trusted-firmware, linux-only; win-win.",
        "clang --target=x86_64-unknown-${OS} -o x86_64-* 'a-$i-linux-gnu'", "compadd i{3..6}86-linux ia32-linux",
        "x: amd64 and more", "target:amd64 x", "target: \n  amd64 x", "see $-x86_64-linux-gnu x",
        "see <-x86_64-linux x", "see }-x86_64-linux x", "see }.x86_64-linux x", "see x86_64-linux-$ x",
        "see x86_64-linux.$ x", "  # linux/amd64", "x y", "- amd64 and more", "foo bar js/wasm or linu/am64",
        "foo bar x86_64-foo-msvc", "foo bar i368-w64-mingw32", "foo bar x86_64-foo-foo-gnu", "foo bar x86_64-unknown",
        "foo bar a_b", "foo bar x86_64", "foo bar arm-based x86-64-v2", "foo bar amd64-linxu", "goarch: amd64 x",
        "foo bar x86_64-linux-gnux86_64-linux-gnux86_64-linux-gnu", "hierarchical: amd64 x", "archive: amd64 x",
        "platform: linux x", "platform: win32 x", "platform: linux/arm/foo x", "target: arm64/foo\nplease",
    ]),
    ("linux/amd64 é! x86_64-linux", &["linux/amd64,é,x86_64-linux"]),
    ("arm64-linux avr amd64", &[
        "include:\n  - target: arm64-linux\n  - target: 'avr' # soon\n  -\n    rust-target: amd64",
        "- { target: arm64-linux }\n- {target: avr}\n- {\"target\": \"amd64\"}",
    ]),
    ("arm64-linux avr", &["[{\"triple\":\"arm64-linux\"},{\"triple\":\"avr\"}]", "platforms:\n- arm64-linux\n- avr"]),
    ("avr arm64", &["matrix:\n  os: [ubuntu-latest, macos-14]\n  target:\n    - avr\n    - arm64\nrunner: x"]),
    ("arm64-linux", &["| Target |\n|---|\n| arm64-linux |"]),
    ("wasm32-wasip1 avr-none", &["é `wasm32-wasip1`: rustup target add avr-none"]),
    ("aarch64-apple-darwn>aarch64-apple-darwin", &["- { target: aarch64-apple-darwn, os: macos-14-xlarge }"]),
    ("amd64 arm64", &[
        "arch: [amd64, arm64, web]", "os: x\narch: [\n  'amd64',\n  'arm64',\n]\nos: amd64\n", "targets = amd64 arm64",
        "target: \n- amd64 x\n- arm64 y\nfoo: i386 x",
    ]),
    ("wasm32-unknown-unknown thumbv7em-none-eabihf", &[
        "- run: rustup target add wasm32-unknown-unknown \"${ARCH}-unknown-linux-gnu\" thumbv7em-none-eabihf",
    ]),
    ("tool-1.2.3-x86_64-apple-darwin.tar.gz riscv64gc-unknown-linux-gnu", &[
        "tar czf tool-1.2.3-x86_64-apple-darwin.tar.gz target/riscv64gc-unknown-linux-gnu/release/tool",
    ]),
    ("x86_64-unknown-linux-gnu wasm32-unknown-unknwn>wasm32-unknown-unknown", &[
        "targets = [\n  \"x86_64-unknown-linux-gnu\",\n  \"wasm32-unknown-unknwn\", # a typo\n]",
    ]),
    ("x86_64-pc-windwos-gnu>x86_64-pc-windows-gnu", &["[target.x86_64-pc-windwos-gnu.dependencies]\nlinker = \"a b\""]),
    ("darwin-arm46>darwin-arm64", &[
        "{\"name\": \"some-arm-tool\", \"@tool/darwin-arm46\": \"1.0.0\", \"target\": \"ES2020\"}",
    ]),
    ("x86_64-unknown-linux-gnu", &["It runs on `x86_64-unknown-linux-gnu`, and not on arm-based or x86-64-v2 boards."]),
    ("aarch64-unknown-linxu-gnu>aarch64-unknown-linux-gnu", &["| aarch64-unknown-linxu-gnu | 2 | x86 |"]),
    ("aarch64-linux-gnu arm-linux-gnueabihf arm64", &[
        "./configure --host=aarch64-linux-gnu CROSS_COMPILE=arm-linux-gnueabihf- ARCH=arm64",
    ]),
    ("x86_64-linux-musl", &["zig build-exe a.zig -target x86_64-linux-musl -mcpu=x86_64_v3"]),
    ("amd64", &[
        "triple: amd64", "platform: amd64", "TARGET: amd64", "target =amd64 x", "'target': amd64 x",
        "target:\tamd64 x", "target:\"amd64\" x", "target:[amd64] x y", "target:{amd64 x", "target:\r\n- amd64 x\r\n",
        "target:\n- amd64 x", "target:'amd64' x", "archName: amd64 x", "ARCHITECTURES: amd64 x",
    ]),
    ("amd64 arm64 i386 riscv64", &["target: amd64 x\n\"arm64\" x\n'i386' x\n] riscv64 x"]),
    ("x86_64-linux", &[
        "see }x86_64-linux x", "see x86_64-linux$ x", "see target/x86_64-linux/release x", "see a.x86_64-linux.b x",
        "see a/b.x86_64-linux.c/d x", "see x86_64-linux. And x", "see -x86_64-linux- x", "see /x86_64-linux/ x",
        "x86_64-linux # linux/amd64",
    ]),
    ("linux/amd64 arm64", &["* linux/amd64, - arm64"]),
    ("linux/amd64", &[
        "linux/amd64 (a), arm64 (b) c", "linux/amd64, target: x", "linux/amd64, \"a\": b", "linux/amd64, a=b",
        "'linux/amd64' (installed)",
    ]),
    ("Linux x86_64 linux/amd64", &["Linux x86_64, linux/amd64"]),
    ("amd64-linx", &["target: amd64-linx x"]),
    ("x86_64-linx>x86_64-linux", &["foo bar x86_64-linx"]),
    ("x86_64-unknown-foo-gnu!", &["foo bar x86_64-unknown-foo-gnu"]),
    ("linux/amr64!", &["platform: linux/amr64 x"]),
    ("aarch64-aple-darwin>aarch64-apple-darwin", &["foo tool-v1.0-aarch64-aple-darwin"]),
    ("aarch64-lunix>aarch64-linux", &["foo aarch64-lunix"]),
];

#[test]
fn words_of_texts_are_given() {
    let same = |text: &str, expected: &str| assert_eq!(found(text).join(" "), expected, "{text}");
    let all = ROWS.iter().flat_map(|(expected, texts)| texts.iter().map(move |it| (it, found(it).join(" "), expected)));
    let wrong: Vec<_> = all.filter(|it| it.1 != *it.2).collect();
    assert!(wrong.is_empty(), "{wrong:#?}");
    let names = "x86_64-unknown-msvc plan9/amd64 linux_amd64 x86_64-pc-linux x86_64-elf x86_64-unknown-elf \
        x86_64-foo-elf x86_64-linux-gnu-g++";
    names.split(' ').for_each(|it| same(&format!("foo bar {it}"), it));
    // A name that is too long isn't looked at for a misspelling.
    let long = |end| format!("x86_64-apple-ios17{}{end}", ".2".repeat(119));
    same(&long(""), &format!("{}>x86_64-apple-ios", long("")));
    same(&long("2"), &format!("{}!", long("2")));
    // Of a path that is too long only the end is given.
    let (end, folder) = ("aarch64-linux-gnu-gcc", |length| "q".repeat(length));
    let path = format!("{}/{end}", folder(256 - 1 - end.len()));
    same(&format!("see {path} x"), &path);
    same(&format!("see {}/{end} x", folder(256 - end.len())), end);
}

#[test]
fn the_time_grows_with_the_length() {
    // A misspelled name costs most.
    for piece in ["linux/amd46 ", "target.x86_64-linux/", "x86_64-linxu-", "a,", "[", "# ", "\n", " (", "a#", "-"] {
        let size = if piece.contains('6') { 40_000 } else { 400_000 };
        let begin = std::time::Instant::now();
        let count = targets_in(&piece.repeat(size / piece.len())).count();
        assert!(begin.elapsed().as_secs() < 30, "{piece}: {count} words");
    }
}
