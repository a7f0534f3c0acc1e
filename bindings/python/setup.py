"""Installs the package denkumari: the shared library is compiled by the machine's own C compiler from portable/denkumari.c. It is loaded by ctypes, so it is
tied to no version of Python. What stands elsewhere in the repository is copied when it is needed, and into c/ of a source distribution. It wants
setuptools alone."""
import base64
import hashlib
import os
import re
import shutil
import sys
import sysconfig
import zipfile
from pathlib import Path

from setuptools import Command, Extension, setup
from setuptools.command.build_ext import build_ext
from setuptools.command.build_py import build_py
from setuptools.command.sdist import sdist

HERE = Path(__file__).resolve().parent
ELSEWHERE = {"denkumari.c": "portable/denkumari.c", "denkumari.h": "include/denkumari.h", "refusals.def": "command/refusals.def", "NOTICE": "NOTICE"}


def source(name):
    """A file of the repository, or its copy in a source distribution."""
    for path in (HERE / "c" / name, HERE.parent.parent / ELSEWHERE[name]):
        if path.is_file():
            return path
    sys.exit(f"setup.py: there is neither c/{name} nor {ELSEWHERE[name]} of the repository: install from a checkout, with pip 21.3 or newer, or from an sdist")


class Library(build_ext):
    """The shared library, compiled from copies: what stands outside of this folder would put its objects outside of the build's."""

    def build_extension(self, ext):
        copies = Path(self.build_temp) / "c"
        copies.mkdir(parents=True, exist_ok=True)
        for name in ("denkumari.c", "denkumari.h"):
            shutil.copyfile(source(name), copies / name)
        ext.sources = [*ext.sources, str(copies / "denkumari.c")]
        ext.include_dirs = [*ext.include_dirs, str(copies)]
        super().build_extension(ext)

    def get_ext_filename(self, fullname):
        return os.path.join(*fullname.split(".")) + (".dll" if os.name == "nt" else ".so")

    def get_export_symbols(self, ext):
        return sorted(set(re.findall(r"^struct dk_\w+ (dk_\w+)\(", source("denkumari.h").read_text("utf-8"), re.M)))


class Modules(build_py):
    """The modules, and beside them the table of words and the licence."""

    beside = ("refusals.def", "NOTICE")

    def run(self):
        super().run()
        for name in self.beside:
            self.copy_file(str(source(name)), os.path.join(self.build_lib, "denkumari", name))

    def get_outputs(self, include_bytecode=1):
        return [*super().get_outputs(include_bytecode), *(os.path.join(self.build_lib, "denkumari", name) for name in self.beside)]


class Distribution(sdist):
    """A source distribution that stands by itself."""

    def make_release_tree(self, base_dir, files):
        super().make_release_tree(base_dir, files)
        copies = Path(base_dir) / "c"
        copies.mkdir(exist_ok=True)
        for name in ELSEWHERE:
            shutil.copyfile(source(name), copies / name)


class Wheel(Command):
    """A wheel, where neither setuptools (before 70.1) nor the package wheel can make one."""

    description = "make a wheel"
    user_options = [("dist-dir=", "d", "the folder of the wheel")]

    def initialize_options(self):
        self.dist_dir = None

    def finalize_options(self):
        self.dist_dir = self.dist_dir or "dist"

    def egg2dist(self, egg, dist):
        """What pip wants to know of a wheel, from what setuptools wrote."""
        shutil.rmtree(dist, ignore_errors=True)
        Path(dist).mkdir(parents=True)
        shutil.copyfile(Path(egg) / "PKG-INFO", Path(dist) / "METADATA")
        shutil.copyfile(Path(egg) / "top_level.txt", Path(dist) / "top_level.txt")

    def run(self):
        self.run_command("build")
        self.run_command("egg_info")
        made, egg = self.get_finalized_command("build").build_lib, self.get_finalized_command("egg_info").egg_info
        tag = "py3-none-" + re.sub("[-.]", "_", sysconfig.get_platform())
        whole = f"{self.distribution.get_name()}-{self.distribution.get_version()}"
        info = Path(self.get_finalized_command("build").build_base) / f"{whole}.dist-info"
        self.egg2dist(egg, info)
        (info / "WHEEL").write_text(f"Wheel-Version: 1.0\nGenerator: denkumari (setup.py)\nRoot-Is-Purelib: false\nTag: {tag}\n")
        parts = [(path, path.relative_to(made).as_posix()) for path in sorted(Path(made).rglob("*")) if path.is_file()]
        self.pack(Path(self.dist_dir) / f"{whole}-{tag}.whl", [*parts, *((path, f"{info.name}/{path.name}") for path in sorted(info.iterdir()))], info.name)
        self.distribution.dist_files.append(("bdist_wheel", "any", str(Path(self.dist_dir) / f"{whole}-{tag}.whl")))

    def pack(self, wheel, parts, info):
        wheel.parent.mkdir(parents=True, exist_ok=True)
        record = []
        with zipfile.ZipFile(wheel, "w", zipfile.ZIP_DEFLATED) as out:
            for path, name in parts:
                data = path.read_bytes()
                total = base64.urlsafe_b64encode(hashlib.sha256(data).digest()).rstrip(b"=").decode()
                record.append(f"{name},sha256={total},{len(data)}\n")
                out.writestr(name, data)
            out.writestr(f"{info}/RECORD", "".join([*record, f"{info}/RECORD,,\n"]))


def commands():
    ours = {"build_ext": Library, "build_py": Modules, "sdist": Distribution}
    try:
        import setuptools.command.bdist_wheel  # noqa: F401
    except ImportError:
        try:
            import wheel  # noqa: F401
        except ImportError:
            ours["bdist_wheel"] = Wheel
    return ours


setup(
    name="denkumari",
    version=re.search(r'DENKUMARI_VERSION "(.*)"', source("denkumari.h").read_text("utf-8")).group(1),
    description="From a table of banks and a list of nodes to an image, and from the flash back: the proved library, called from Python",
    long_description=(HERE / "README.md").read_text("utf-8"),
    long_description_content_type="text/markdown",
    license="Apache-2.0",
    python_requires=">=3.8",
    packages=["denkumari"],
    package_data={"denkumari": ["py.typed"]},
    ext_modules=[Extension("denkumari._library", ["denkumari/_words.c"])],
    cmdclass=commands(),
    zip_safe=False,
)
