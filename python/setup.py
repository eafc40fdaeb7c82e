"""What pyproject.toml can't say of the wheel: the module in C, with the library that c/build left in the folder
that JSON_PATCH_PREFIX names. It is for each Python from 3.8 on, and asks for no newer glibc than manylinux2014's
(python/try_wheel looks)."""
import os
from pathlib import Path

from setuptools import Extension, setup

PREFIX = Path(os.environ["JSON_PATCH_PREFIX"])
NATIVE = Extension(
    "json_patch._native",
    ["native.c"],
    define_macros=[("Py_LIMITED_API", "0x03080000")],
    include_dirs=[str(PREFIX / "include")],
    extra_objects=[str(PREFIX / "lib/libjson_patch.a")],
    extra_compile_args=["-std=c99", "-Wall", "-Wextra", "-Werror", "-fvisibility=hidden", "-g0"],
    # the library's names stay its own, and a loader of glibc 2.33 or later refuses it on an older processor
    extra_link_args=["-Wl,--exclude-libs,ALL", "-Wl,-z,x86-64-v2"],
    py_limited_api=True,
)

setup(ext_modules=[NATIVE], options={"bdist_wheel": {"py_limited_api": "cp38", "plat_name": "manylinux2014_x86_64"}})
