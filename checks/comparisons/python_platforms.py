"""Names of platforms, as Python's sysconfig and packaging give them on systems that they are told of."""
import os
import sys
import sysconfig
from unittest import mock

LINUX = "x86_64 i686 aarch64 armv6l armv7l armv8l loongarch64 ppc64 ppc64le riscv64 s390x".split()
MACS = [(10, 5, "ppc"), (10, 5, "ppc64"), (10, 6, "i386"), (10, 15, "x86_64"), (13, 0, "x86_64"), (13, 0, "arm64")]
WINDOWS = ["64 bit (AMD64)", "32 bit (Intel)", "64 bit (ARM64)", "32 bit (ARM)"]

# Other systems, with their releases and machines.
OTHERS = [("FreeBSD", "14.0-RELEASE", "amd64"), ("FreeBSD", "13.2-RELEASE", "arm64"), ("OpenBSD", "7.4", "amd64"),
          ("NetBSD", "10.0", "amd64"),
          ("DragonFly", "6.4-RELEASE", "x86_64"), ("Haiku", "1", "x86_64"),
          ("CYGWIN_NT-10.0-19045", "3.4.6-1.x86_64", "x86_64"),
          ("Emscripten", "3.1.58", "wasm32"), ("Emscripten", "4.0.9", "wasm32"), ("wasi", "0.0.0", "wasm32")]


def platform_of(machine, platform="linux", version=sys.version, multiarch="", system=None, release="6.1", **variables):
    """What sysconfig says on such a system, of which Python's makefile has these variables."""
    system = os.uname_result((system or ("Darwin" if platform in ("darwin", "ios") else "Linux"), "host", release, "1",
                              machine))
    with mock.patch.multiple(os, name="nt" if platform == "win32" else "posix", uname=lambda: system), \
            mock.patch.multiple(sys, platform=platform, version=version), \
            mock.patch.object(sys.implementation, "_multiarch", multiarch, create=True), \
            mock.patch.multiple(sysconfig, get_config_var=variables.get, get_config_vars=lambda *_: variables):
        return sysconfig.get_platform()


def from_sysconfig():
    """The names of sysconfig. Those of Android and iOS need Python 3.13."""
    yield from map(platform_of, LINUX)
    yield from (platform_of("", "win32", f"3.11 [MSC v.1934 {bits}]") for bits in WINDOWS)
    for target, machine in [("13.2", "arm64"), ("11", "arm64"), ("10.9", "x86_64"), ("10.6", "i386")]:
        yield platform_of(machine, "darwin", MACOSX_DEPLOYMENT_TARGET=target)
    yield from (platform_of(machine, system.lower(), system=system, release=release)
                for system, release, machine in OTHERS)
    if sys.version_info >= (3, 13):
        yield from (platform_of(machine, "android", ANDROID_API_LEVEL=21)
                    for machine in ("aarch64", "armv7l", "i686", "x86_64"))
        for multiarch in ("arm64-iphoneos", "arm64-iphonesimulator", "x86_64-iphonesimulator"):
            yield from (platform_of("arm64", "ios", multiarch=multiarch, IPHONEOS_DEPLOYMENT_TARGET=it)
                        for it in ("13.0", "17"))


def from_packaging():
    """The tags of packaging, on systems with glibc 2.36 and musl 1.2. It makes no manylinux for 32-bit Arm before
    Armv7."""
    from packaging import _manylinux, _musllinux, tags
    found = [tag for major, minor, machine in MACS for tag in tags.mac_platforms((major, minor), machine)]
    for machine in LINUX:
        with mock.patch("sysconfig.get_platform", lambda: f"linux-{machine}"), mock.patch(
            "platform.system", lambda: "Linux"), \
                mock.patch.object(_manylinux, "_get_glibc_version", lambda: (2, 36)), \
                mock.patch.object(_manylinux, "_have_compatible_abi", lambda *_: machine != "armv6l"), \
                mock.patch.object(_musllinux, "_get_musl_version", lambda _: _musllinux._MuslVersion(1, 2)):
            # For armv8l newer versions take the tags of armv7l.
            found += tags.platform_tags() if machine != "armv8l" else []
    return list(dict.fromkeys(found))
