"""Builds the wheel: the module, and the shared library inside it. setuptools finds the files and the metadata; it needs the package `wheel`
for the rest before its version 70, so the archive is written here.

The library is the one that `make` makes, or the one that the environment variable QORSHUDAN_LIBRARY names.
"""

import base64
import glob
import hashlib
import os
import shutil
import sysconfig
import tempfile
import zipfile

import setuptools

HERE = os.path.dirname(os.path.abspath(__file__))


def library(version):
    path = os.environ.get("QORSHUDAN_LIBRARY") or os.path.join(HERE, "..", "..", "target", "shared", "libqorshudan.so." + version)
    if not os.path.exists(path):
        raise SystemExit(f"There is no {os.path.normpath(path)}: `make` in the repository makes it, or QORSHUDAN_LIBRARY names another")
    return path


def record(name, content):
    """The line of a file in the wheel's list of files."""
    digest = base64.urlsafe_b64encode(hashlib.sha256(content).digest()).rstrip(b"=").decode()
    return f"{name},sha256={digest},{len(content)}\n"


def contents(work):
    """The files of the wheel, by their names in it; and its version."""
    setuptools.setup(script_args=["-q", "egg_info", "-e", work, "build", "-b", work, "--build-lib", work + "/lib"])
    with open(work + "/lib/qorshudan/_version.py") as file:
        version = file.read().split('"')[-2]
    shutil.copy(library(version), work + "/lib/qorshudan/libqorshudan.so." + version.split(".")[0])
    files = {}
    for path in sorted(glob.glob(work + "/lib/qorshudan/*")):
        with open(path, "rb") as file:
            files["qorshudan/" + os.path.basename(path)] = file.read()
    about = f"qorshudan-{version}.dist-info/"
    for there, here in (("PKG-INFO", "METADATA"), ("entry_points.txt", "entry_points.txt")):
        with open(f"{work}/qorshudan.egg-info/{there}", "rb") as file:
            files[about + here] = file.read()
    tag = "py3-none-" + sysconfig.get_platform().replace("-", "_").replace(".", "_")
    files[about + "WHEEL"] = f"Wheel-Version: 1.0\nGenerator: qorshudan\nRoot-Is-Purelib: false\nTag: {tag}\n".encode()
    listed = "".join(record(name, content) for name, content in files.items())
    files[about + "RECORD"] = (listed + about + "RECORD,,\n").encode()
    return files, version, tag


def get_requires_for_build_wheel(config_settings=None):
    return []


def build_wheel(wheel_directory, config_settings=None, metadata_directory=None):
    os.chdir(HERE)
    with tempfile.TemporaryDirectory() as work:
        files, version, tag = contents(work)
    name = f"qorshudan-{version}-{tag}.whl"
    with zipfile.ZipFile(os.path.join(wheel_directory, name), "w", zipfile.ZIP_DEFLATED) as wheel:
        for path, content in files.items():
            entry = zipfile.ZipInfo(path)  # its time is 1980's first day, so that the same files make the same wheel
            entry.external_attr = (0o755 if ".so" in path else 0o644) << 16
            entry.compress_type = zipfile.ZIP_DEFLATED
            wheel.writestr(entry, content)
    return name


class UnsupportedOperation(Exception):
    """As PEP 517 calls what a backend does not do."""


def build_sdist(sdist_directory, config_settings=None):
    raise UnsupportedOperation("the sources are the repository's: the library is proved and compiled there")
