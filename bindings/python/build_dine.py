"""Builds the package, for pip: a wheel with the sources and libdine.so, or an sdist with them and the rules as C.

libdine.so is that of ../lib, which ../build makes. If it is not there, ../build makes one, with the C compiler CC: of
the library that was proved and built, or where that is not, or DINE_NOKIT is set, of the rules as C. In an sdist
./build does that."""

import base64
import hashlib
import io
import os
import re
import subprocess
import sysconfig
import tarfile
import tempfile
import zipfile
from pathlib import Path

HERE = Path(__file__).resolve().parent
# The folder with ../build and ../c: an sdist has both itself.
BINDINGS = HERE if (HERE / "build").exists() else HERE.parent
BUILT = BINDINGS / "lib" / "libdine.so"
LICENSES = [it for folder in (HERE, BINDINGS.parent) for it in sorted(folder.glob("LICENSE-*"))]


def _field(name: str) -> str:
    text = (HERE / "pyproject.toml").read_text("utf-8")
    return re.search(rf'^{name} = "(.*)"$', text, re.M)[1]


def _library() -> bytes:
    """Returns what is in libdine.so."""
    if BUILT.is_file() and not os.environ.get("DINE_NOKIT"):
        return BUILT.read_bytes()
    with tempfile.TemporaryDirectory() as folder:
        nokit = ["--nokit"] if os.environ.get("DINE_NOKIT") else []
        words = ["sh", str(BINDINGS / "build"), *nokit, folder]
        ran = subprocess.run(words, stderr=subprocess.PIPE, text=True)
        if ran.returncode:
            raise SystemExit(f"{BINDINGS}/build made no library; is there a C compiler?\n{ran.stderr}")
        return Path(folder, "libdine.so").read_bytes()


def _metadata() -> bytes:
    fields = {"Metadata-Version": "2.1", "Name": _field("name"), "Version": _field("version"),
              "Summary": _field("description"), "License": "MIT OR Apache-2.0",
              "Requires-Python": _field("requires-python"), "Description-Content-Type": "text/markdown"}
    heads = "".join(f"{key}: {value}\n" for key, value in fields.items())
    return f"{heads}\n{(HERE / 'README.md').read_text('utf-8')}".encode()


def _sources() -> dict[str, bytes]:
    found = [it for it in sorted((HERE / "dine").iterdir()) if it.suffix == ".py" or it.name == "py.typed"]
    return {f"dine/{it.name}": it.read_bytes() for it in found}


def _wheel(folder: str, files: dict[str, bytes]) -> str:
    """Writes a wheel with these files, and returns its name."""
    name, version = _field("name"), _field("version")
    tag = f"py3-none-{re.sub('[-.]', '_', sysconfig.get_platform())}"
    info = f"{name}-{version}.dist-info"
    wheel = {"Wheel-Version": "1.0", "Generator": "build_dine", "Root-Is-Purelib": "false", "Tag": tag}
    files[f"{info}/METADATA"] = _metadata()
    files[f"{info}/WHEEL"] = "".join(f"{key}: {value}\n" for key, value in wheel.items()).encode()
    files.update({f"{info}/{it.name}": it.read_bytes() for it in LICENSES})
    rows = []
    for path, data in files.items():
        digest = base64.urlsafe_b64encode(hashlib.sha256(data).digest()).rstrip(b"=").decode()
        rows.append(f"{path},sha256={digest},{len(data)}\n")
    files[f"{info}/RECORD"] = "".join([*rows, f"{info}/RECORD,,\n"]).encode()
    with zipfile.ZipFile(Path(folder, f"{name}-{version}-{tag}.whl"), "w", zipfile.ZIP_DEFLATED) as it:
        for path, data in files.items():
            it.writestr(path, data)
    return f"{name}-{version}-{tag}.whl"


def build_wheel(wheel_directory, config_settings=None, metadata_directory=None):
    """Builds the wheel of `pip install .`."""
    return _wheel(wheel_directory, {**_sources(), "dine/libdine.so": _library()})


def build_sdist(sdist_directory, config_settings=None):
    """Builds an archive from which the wheel can be built where there is nothing else of the repository."""
    name = f"{_field('name')}-{_field('version')}"
    files = {**_sources(), "PKG-INFO": _metadata()}
    files.update({it: (HERE / it).read_bytes() for it in ("README.md", "pyproject.toml", "build_dine.py")})
    files.update({it.name: it.read_bytes() for it in LICENSES})
    files["build"] = (BINDINGS / "build").read_bytes()
    rules = [it for it in sorted((BINDINGS / "c").rglob("*")) if it.suffix in (".c", ".h")]
    files.update({str(it.relative_to(BINDINGS)): it.read_bytes() for it in rules})
    with tarfile.open(Path(sdist_directory, f"{name}.tar.gz"), "w:gz") as archive:
        for path, data in files.items():
            entry = tarfile.TarInfo(f"{name}/{path}")
            entry.size, entry.mode = len(data), 0o644
            archive.addfile(entry, io.BytesIO(data))
    return f"{name}.tar.gz"


def build_editable(wheel_directory, config_settings=None, metadata_directory=None):
    """Builds the wheel of `pip install -e .`, which leads to this folder."""
    (HERE / "dine" / "libdine.so").write_bytes(_library())
    return _wheel(wheel_directory, {"dine.pth": f"{HERE}\n".encode()})
