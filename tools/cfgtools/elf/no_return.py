"""Functions that do not return: those that `cfg` knows by their names, those that a file declares in sections of a type of their
own, as docs/REPORT.md defines them, and names that `tools/add_entries --no-return` knows beside these.

A call of such a function has no edge `after`. A record of a section is the address of one, in eight bytes.
"""

from __future__ import annotations

import re
import struct
from typing import Dict, Iterable, Iterator, List, Set

from cfgtools.elf.elf_file import File

KIND, NAME = 0x8CF60002, b".cfg.no_return"
# Those that `cfg` knows: all end in a return to another frame.
BY_NAME = frozenset((b"_Unwind_Resume", b"longjmp", b"_longjmp", b"siglongjmp", b"__longjmp", b"__longjmp_chk", b"____longjmp_chk"))

# Go's functions that come back to their callers by ways of their own, though their code does not return.
COME_BACK = {f"runtime.{name}{end}".encode(): name.partition("_")[0] for name in ("morestack", "morestack_noctxt", "mcall") for end in ("", ".abi0")}

# C and POSIX, and what the C libraries glibc, musl, newlib and picolibc have in their place.
_OF_C = """abort exit _exit _Exit quick_exit thrd_exit pthread_exit __assert __assert_fail __assert_perror_fail __assert_func
    __stack_chk_fail __chk_fail __fortify_fail __libc_fatal __libc_assert_fail __malloc_assert _dl_fatal_printf __libc_start_call_main"""
# C++: what throws, and what ends the program (Itanium C++ ABI, exception handling; libstdc++ and libc++).
_OF_CPP = """__cxa_throw __cxa_rethrow __cxa_bad_cast __cxa_bad_typeid __cxa_call_unexpected __cxa_call_terminate __cxa_pure_virtual
    __cxa_deleted_virtual __cxa_throw_bad_array_new_length __cxa_throw_bad_array_length __clang_call_terminate _ZSt9terminatev
    _ZSt10unexpectedv _ZN10__cxxabiv111__terminateEPFvvE _ZN10__cxxabiv112__unexpectedEPFvvE"""
_OF_GO = """runtime.throw runtime.fatal runtime.fatalthrow runtime.fatalpanic runtime.abort runtime.exit runtime.goexit runtime.Goexit
    runtime.goexit1 runtime.gopanic runtime.panicwrap runtime.schedule runtime.gogo runtime.dieFromSignal os.Exit
    log.Fatal log.Fatalf log.Fatalln"""
NAMES = frozenset(name.encode() for text in (_OF_C, _OF_CPP, _OF_GO) for name in text.split())
# Functions of a name like these: what throws of libstdc++; of Go, which panic; of Rust, which have the type `!`.
_LIKE = re.compile(
    rb"_ZSt\d+__throw_\w+|runtime\.(?:go)?[pP]anic(?:Index|Slice|shift|divide|mem|overflow|float|nil|dottype|unsafe|makeslice)\w*"
    rb"|_(?:ZN|RNv)\w*4core9panicking\d+(?:panic|assert_failed|unreachable|const_panic)\w*"
    rb"|_(?:ZN|RNv)\w*4core(?:6option|6result|4cell|3str|5slice5index)\d+(?:unwrap_failed|expect_failed|panic_already|slice_\w*fail)\w*"
    rb"|_(?:ZN|RNv)\w*3std(?:7process\d+(?:exit|abort)|9panicking\d+(?:begin_panic|rust_panic)|2rt\d+begin_panic)\w*"
    rb"|_(?:ZN|RNv)\w*5alloc(?:5alloc18handle_alloc_error|7raw_vec\d+(?:capacity_overflow|handle_error))\w*|rust_begin_unwind|rust_panic")


def declared(elf: File) -> Iterator[int]:
    """The addresses that a file declares, section after section. What stands after the last whole record of one is passed over."""
    for section in elf.headers:
        if section.kind == KIND:
            data = elf.data[section.offset:section.offset + section.size]
            yield from (address for address, in struct.iter_unpack("<Q", data[:len(data) // 8 * 8]))


def packed(addresses: Iterable[int]) -> bytes:
    """The bytes of records."""
    return b"".join(struct.pack("<Q", address) for address in addresses)


def names_of(elf: File) -> Dict[int, Set[bytes]]:
    """The names of the function symbols at each address of code."""
    found: Dict[int, Set[bytes]] = {}
    for one in elf.functions():
        found.setdefault(one.address, set()).add(one.name)
    return found


def by_name(elf: File) -> Set[int]:
    """The functions of which `cfg` knows by their names that calls of them do not come back."""
    return {address for address, names in names_of(elf).items() if not BY_NAME.isdisjoint(names)}


def that_cfg_knows(elf: File) -> Set[int]:
    """The functions after whose calls a report has no edge, whatever they do: by their names, and by what the file declares."""
    return by_name(elf) | set(declared(elf))


def likely(elf: File) -> List[int]:
    """The functions whose names say that they do not return, but for those that `cfg` knows."""
    known = that_cfg_knows(elf)
    return sorted(address for address, names in names_of(elf).items() if address not in known and any(map(is_likely, names)))


def is_likely(name: bytes) -> bool:
    return name in NAMES or _LIKE.fullmatch(name) is not None
