"""The library in C++ and in Rust: the tests of the header and of the crate, and the examples."""

import os
import shutil
import sys

import pytest

from support.compiling import TOP, compiler_of, output

CPP = pytest.mark.parametrize("standard", ["c++17", "c++20"])
RUST = pytest.mark.needs("cc", "cargo", "rustc")


def text_of(example):
    return (TOP / f"tests/library/{example}.txt").read_text()


@CPP
@pytest.mark.needs("c++")
def test_header_in_cpp(standard, compiled):
    output(compiled("bindings/cpp/test.cpp", f"-std={standard}"))


@CPP
@pytest.mark.needs("c++", "nm")
def test_shared_object_in_cpp_can_be_unloaded(standard, library, tmp_path):
    """What camel.h has inline is its own."""
    source, shared = TOP / "bindings/cpp/test.cpp", tmp_path / "shared.so"
    words = [f"-std={standard}", f"-I{library}", "-shared", "-fPIC", "-Wl,--exclude-libs,libwenqolo.a", "-o", shared]
    output(*compiler_of(source), *words, source, library / "libwenqolo.a")
    unload = "import _ctypes, sys; _ctypes.dlclose(_ctypes.dlopen(sys.argv[1], 2)); print(open('/proc/self/maps').read())"
    assert str(shared) not in output(sys.executable, "-c", unload, shared)
    names = [line.split()[-1] for line in output("nm", "-D", "--defined-only", shared).splitlines()]
    assert [name for name in names if name.startswith("camel_")] == []


@CPP
@pytest.mark.needs("c++")
def test_event_loop_in_cpp(standard, compiled, sanitizers):
    program = compiled("examples/event_loop.cpp", f"-std={standard}", *sanitizers)
    assert output(program, input=text_of("event_loop")) == text_of("event_loop")


@pytest.fixture
def cargo(library, tmp_path):
    """Returns what runs cargo over the crate by itself, as a switch has it."""
    crate = tmp_path / "bindings/rust"
    shutil.copytree(TOP / "bindings/rust", crate, ignore=shutil.ignore_patterns("target", "Cargo.lock"))
    environment = os.environ | {"CAMEL_LIB_DIR": library}
    return lambda *words, **options: output("cargo", *words, cwd=crate, env=environment, **options)


@RUST
def test_crate_in_rust(cargo):
    cargo("test", "--offline", "--quiet")


@RUST
@pytest.mark.parametrize("name", ["switch", "event_loop"])
def test_example_in_rust(name, cargo):
    words = ["run", "--offline", "--quiet", "--release", "--example", name]
    assert cargo(*words, input=text_of(name)) == text_of(name)
