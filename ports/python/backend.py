"""Makes the wheel of this folder with the standard library alone (PEP 517), so that `pip install` needs no network.

The shared library goes into the wheel where it is found: in the folder that KERZHOMA_LIB names, or in target/dist/lib of the repository,
where `./build` puts it. Without it the package looks for the library when it is imported.
"""
import base64
import hashlib
import io
import os
import re
import tarfile
import zipfile
from pathlib import Path

HERE = Path(__file__).resolve().parent
LIBRARY = "libkerzhoma.so.0"
PROJECT = (HERE / "pyproject.toml").read_text(encoding="utf-8")


def field(name):
    return re.search(rf'^{name} = "(.*)"$', PROJECT, re.M)[1]


NAME, VERSION = field("name"), field("version")


def metadata():
    head = f"Metadata-Version: 2.1\nName: {NAME}\nVersion: {VERSION}\nSummary: {field('description')}\n"
    head += f"Requires-Python: {field('requires-python')}\nLicense: Apache-2.0 OR MIT\nDescription-Content-Type: text/markdown\n\n"
    return head + (HERE / "README.md").read_text(encoding="utf-8")


def library():
    for folder in (os.environ.get("KERZHOMA_LIB"), HERE.parent.parent / "target" / "dist" / "lib"):
        for name in (LIBRARY, "libkerzhoma.so"):
            if folder and (Path(folder) / name).is_file():
                return Path(folder) / name
    return None


def sources():
    return sorted(p for p in (HERE / NAME).iterdir() if p.suffix == ".py" or p.name == "py.typed")


def build_wheel(wheel_directory, config_settings=None, metadata_directory=None):
    found = library()
    tag = "py3-none-linux_x86_64" if found else "py3-none-any"
    about = f"{NAME}-{VERSION}.dist-info"
    files = [(f"{NAME}/{path.name}", path.read_bytes()) for path in sources()]
    files += [(f"{NAME}/{LIBRARY}", found.read_bytes())] if found else []
    pure = "false" if found else "true"
    files += [
        (f"{about}/METADATA", metadata().encode()),
        (f"{about}/WHEEL", f"Wheel-Version: 1.0\nGenerator: {NAME}\nRoot-Is-Purelib: {pure}\nTag: {tag}\n".encode()),
    ]
    wheel = f"{NAME}-{VERSION}-{tag}.whl"
    lines = []
    with zipfile.ZipFile(Path(wheel_directory) / wheel, "w", zipfile.ZIP_DEFLATED) as out:
        for name, data in files:
            digest = base64.urlsafe_b64encode(hashlib.sha256(data).digest()).rstrip(b"=").decode()
            lines.append(f"{name},sha256={digest},{len(data)}\n")
            # a date of its own, so that the same files give the same wheel
            out.writestr(zipfile.ZipInfo(name, (2020, 1, 1, 0, 0, 0)), data, zipfile.ZIP_DEFLATED)
        record = "".join(lines) + f"{about}/RECORD,,\n"
        out.writestr(zipfile.ZipInfo(f"{about}/RECORD", (2020, 1, 1, 0, 0, 0)), record)
    return wheel


def build_sdist(sdist_directory, config_settings=None):
    base = f"{NAME}-{VERSION}"
    with tarfile.open(Path(sdist_directory) / f"{base}.tar.gz", "w:gz") as out:
        for path in sources() + [HERE / "pyproject.toml", HERE / "backend.py", HERE / "README.md"]:
            out.add(path, f"{base}/{path.relative_to(HERE)}")
        data = metadata().encode()
        info = tarfile.TarInfo(f"{base}/PKG-INFO")
        info.size = len(data)
        out.addfile(info, io.BytesIO(data))
    return f"{base}.tar.gz"
