"""Builds the package as a wheel, an editable wheel or a source archive, by the standard library alone (PEP 517, PEP 660).

The package's copy of the conclusions is made here: of docs/conclusions.json in a clone, of the one that a source archive
carries elsewhere."""

import base64
import hashlib
import io
import re
import tarfile
import zipfile
from pathlib import Path

HERE = Path(__file__).resolve().parent.parent
PACKAGE = HERE / "src" / "crnt_tools"
CONCLUSIONS = "conclusions.json"
WHEEL = "Wheel-Version: 1.0\nGenerator: crnt-tools\nRoot-Is-Purelib: true\nTag: py3-none-any\n"
# a wheel has no times of its own, so that the same sources give the same bytes
TIME = (2020, 1, 1, 0, 0, 0)


def project():
    """The fields of pyproject.toml that a wheel needs. They are one a line, between double quotes."""
    text = (HERE / "pyproject.toml").read_text("utf-8")
    return dict(re.findall(r'^([a-z-]+) = "([^"\n]*)"$', text, re.MULTILINE))


def conclusions():
    """The bytes of the conclusions."""
    places = [PACKAGE / CONCLUSIONS, HERE.parent / "docs" / CONCLUSIONS]
    return next(place for place in places if place.is_file()).read_bytes()


def package_files():
    """The files of the package by their names in an archive."""
    files = {f"crnt_tools/{path.relative_to(PACKAGE)}": path.read_bytes()
             for path in sorted(PACKAGE.rglob("*")) if path.is_file() and path.suffix in (".py", ".typed", ".json")}
    return {**files, f"crnt_tools/{CONCLUSIONS}": conclusions()}


def metadata():
    fields = project()
    return (f"Metadata-Version: 2.1\nName: {fields['name']}\nVersion: {fields['version']}\nSummary: {fields['description']}\n"
            f"Requires-Python: {fields['requires-python']}\nProvides-Extra: sbml\n"
            f"Requires-Dist: python-libsbml; extra == \"sbml\"\nDescription-Content-Type: text/markdown\n\n"
            + (HERE / "README.md").read_text("utf-8"))


def wheel(folder, files, tag=""):
    """Writes a wheel with these files, and gives its name."""
    fields = project()
    stem = f"crnt_tools-{fields['version']}"
    info = f"{stem}.dist-info"
    files = {
        **files,
        f"{info}/METADATA": metadata().encode(),
        f"{info}/WHEEL": WHEEL.encode(),
        f"{info}/entry_points.txt": f"[console_scripts]\ncrnt-tools = {fields['crnt-tools']}\n".encode(),
    }
    record = "".join(
        f"{name},sha256={base64.urlsafe_b64encode(hashlib.sha256(data).digest()).rstrip(b'=').decode()},{len(data)}\n"
        for name, data in files.items())
    files[f"{info}/RECORD"] = (record + f"{info}/RECORD,,\n").encode()
    name = f"{stem}{tag}-py3-none-any.whl"
    with zipfile.ZipFile(Path(folder) / name, "w", zipfile.ZIP_DEFLATED) as archive:
        for path, data in files.items():
            entry = zipfile.ZipInfo(path, TIME)
            entry.compress_type, entry.external_attr = zipfile.ZIP_DEFLATED, 0o644 << 16
            archive.writestr(entry, data)
    return name


def build_wheel(wheel_directory, config_settings=None, metadata_directory=None):
    return wheel(wheel_directory, package_files())


def build_editable(wheel_directory, config_settings=None, metadata_directory=None):
    return wheel(wheel_directory, {"crnt_tools.pth": f"{PACKAGE.parent}\n".encode()})


def build_sdist(sdist_directory, config_settings=None):
    stem = f"crnt_tools-{project()['version']}"
    files = {f"src/{name}": data for name, data in package_files().items()}
    for name in ("pyproject.toml", "README.md", "backend/build_wheel.py"):
        files[name] = (HERE / name).read_bytes()
    files["PKG-INFO"] = metadata().encode()
    with tarfile.open(Path(sdist_directory) / f"{stem}.tar.gz", "w:gz") as archive:
        for name, data in sorted(files.items()):
            entry = tarfile.TarInfo(f"{stem}/{name}")
            entry.size = len(data)
            archive.addfile(entry, io.BytesIO(data))
    return f"{stem}.tar.gz"
