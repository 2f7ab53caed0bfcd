"""Builds the package `ror` of ror.py with the stored programs in it, by the standard library alone. It is marked as typed (PEP 561).

The programs are for x86-64 Linux, and so is a package that has them. On other machines the package has ror.py alone, and the
environment variable ROR has to name a program.
"""

import base64
import hashlib
import io
import platform
import sys
import tarfile
import zipfile
from pathlib import Path

NAME, VERSION = "ror", "1"
METADATA = f"""Metadata-Version: 2.1
Name: {NAME}
Version: {VERSION}
Summary: Robust ordinal regression, by the proved programs ror and ror_show
Requires-Python: >=3.9
"""
PROGRAMS = ("ror", "ror_show", "program.sh", "programs/ror", "programs/ror_show")
OWN = ("pyproject.toml", "build_backend.py", "ror.py")
HERE = Path(__file__).resolve().parent


def get_requires_for_build_wheel(config_settings=None):
    return []


get_requires_for_build_sdist = get_requires_for_build_editable = get_requires_for_build_wheel


def build_wheel(wheel_directory, config_settings=None, metadata_directory=None):
    files = {"ror/__init__.py": (HERE / "ror.py").read_bytes(), "ror/py.typed": b""}
    tag = "py3-none-any"
    if (sys.platform, platform.machine()) == ("linux", "x86_64"):
        files.update({f"ror/{path}": data for path, data in _programs().items()})
        tag = "py3-none-linux_x86_64"
    return _write_wheel(Path(wheel_directory), tag, files)


def build_editable(wheel_directory, config_settings=None, metadata_directory=None):
    return _write_wheel(Path(wheel_directory), "py3-none-any", {"ror.pth": f"{HERE}\n".encode("utf-8")})


def build_sdist(sdist_directory, config_settings=None):
    files = {name: (HERE / name).read_bytes() for name in OWN}
    files.update(_programs())
    files["PKG-INFO"] = METADATA.encode("utf-8")
    name = f"{NAME}-{VERSION}.tar.gz"
    with tarfile.open(Path(sdist_directory) / name, "w:gz", format=tarfile.PAX_FORMAT) as archive:
        for path, data in files.items():
            member = tarfile.TarInfo(f"{NAME}-{VERSION}/{path}")
            member.size, member.mode = len(data), _mode(path)
            archive.addfile(member, io.BytesIO(data))
    return name


def _programs():
    """The programs and their scripts: those beside this file, as in an archive of the sources, or those of the repository."""
    for folder in (HERE / "ror_programs", HERE.parent):
        if all((folder / name).is_file() for name in PROGRAMS):
            return {f"ror_programs/{name}": (folder / name).read_bytes() for name in PROGRAMS}
    raise SystemExit(
        f"the programs are not found beside {HERE}: install from the repository, with pip 21.3 or later"
        " (an older one copies this folder away)"
    )


def _mode(path):
    return 0o755 if "ror_programs/" in path and not path.endswith(".sh") else 0o644


def _write_wheel(folder, tag, files):
    about = f"{NAME}-{VERSION}.dist-info"
    wheel = f"Wheel-Version: 1.0\nGenerator: ror\nRoot-Is-Purelib: {'true' if tag.endswith('any') else 'false'}\nTag: {tag}\n"
    files = {**files, f"{about}/METADATA": METADATA.encode("utf-8"), f"{about}/WHEEL": wheel.encode("utf-8")}
    record = "".join(f"{path},sha256={_hash(data)},{len(data)}\n" for path, data in files.items()) + f"{about}/RECORD,,\n"
    files[f"{about}/RECORD"] = record.encode("utf-8")
    name = f"{NAME}-{VERSION}-{tag}.whl"
    with zipfile.ZipFile(folder / name, "w", zipfile.ZIP_DEFLATED) as archive:
        for path, data in files.items():
            member = zipfile.ZipInfo(path)
            member.external_attr = (0o100000 | _mode(path)) << 16
            member.compress_type = zipfile.ZIP_DEFLATED
            archive.writestr(member, data)
    return name


def _hash(data):
    return base64.urlsafe_b64encode(hashlib.sha256(data).digest()).rstrip(b"=").decode("ascii")
