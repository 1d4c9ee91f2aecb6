"""The package as a package: how it is built, installed and typed, and what other interpreters say of it."""

import ast
import os
import re
import shutil
import subprocess
import sys
import tarfile
import zipfile
from pathlib import Path

import crnt_tools as ct
import support
from crnt_tools.conclusions import data

SOURCE = support.COMPANIONS / "src" / "crnt_tools"
CONCLUSIONS = support.ROOT / "docs" / "conclusions.json"


def build(word, folder):
    """What a call of the backend makes."""
    code = f"import sys; sys.path.insert(0, 'backend'); import build_wheel; print(build_wheel.{word}({str(folder)!r}))"
    done = subprocess.run([sys.executable, "-c", code], cwd=support.COMPANIONS, capture_output=True, check=True)
    return Path(folder) / done.stdout.decode().strip()


def test_wheel():
    with support.folder() as one, support.folder() as other:
        made = build("build_wheel", one)
        yield "the same bytes each time", made.read_bytes() == build("build_wheel", other).read_bytes()
        names = zipfile.ZipFile(made).namelist()
        sources = {f"crnt_tools/{path.relative_to(SOURCE)}" for path in SOURCE.rglob("*") if path.suffix in (".py", ".json", ".typed")}
        yield "all sources", sources <= set(names) and "crnt_tools/py.typed" in names, names
        yield "the conclusions are one", zipfile.ZipFile(made).read("crnt_tools/conclusions.json") == CONCLUSIONS.read_bytes()
        yield "the repository has no second copy", not (SOURCE / "conclusions.json").exists()
        archive = build("build_sdist", one)
        with tarfile.open(archive) as tar:
            tar.extractall(other)
        inner = next(Path(other).glob("crnt_tools-*/"))
        code = f"import sys; sys.path.insert(0, 'backend'); import build_wheel; build_wheel.build_wheel({str(other)!r})"
        subprocess.run([sys.executable, "-c", code], cwd=inner, check=True)
        again = zipfile.ZipFile(next(Path(other).glob("*.whl")))
        yield "a source archive gives the same package", all(
            again.read(name) == zipfile.ZipFile(made).read(name) for name in names if name.startswith("crnt_tools/"))


def test_versions():
    project = (support.COMPANIONS / "pyproject.toml").read_text()
    yield "one version", f'version = "{ct.__version__}"' in project


def test_pip_install():
    """`pip install ./companions` in a new environment, without network."""
    with support.folder() as name:
        folder = Path(name)
        made = subprocess.run([sys.executable, "-m", "venv", name], capture_output=True)
        if made.returncode:
            raise support.Skipped("this Python makes no environment with pip (Debian: python3-venv)")
        offline = ["unshare", "-rn"] if subprocess.run(["unshare", "-rn", "true"], capture_output=True).returncode == 0 else []
        environment = {key: value for key, value in os.environ.items() if not key.startswith("PYTHON")}
        environment.update(CRNT=ct.find(), PIP_NO_INDEX="1", PIP_DISABLE_PIP_VERSION_CHECK="1")
        done = subprocess.run([*offline, folder / "bin/pip", "install", "-q", support.COMPANIONS], env=environment, capture_output=True,
                              timeout=120)
        yield "installed", done.returncode == 0, done.stderr.decode()[-500:]
        tool = subprocess.run([folder / "bin/crnt-tools", "json"], input=b"A <-> B\n", env=environment, capture_output=True, cwd="/")
        yield "the command runs", tool.returncode == 0 and b'"crn report 1"' in tool.stdout, tool.stderr
        code = "import crnt_tools.conclusions as c; print(len(c.data()['rows']))"
        done = subprocess.run([folder / "bin/python", "-c", code], env=environment, capture_output=True, cwd="/")
        yield "it has the conclusions", done.stdout.decode().strip() == str(len(data()["rows"])), done.stderr
        yield "and the file types", next((folder / "lib").rglob("crnt_tools/py.typed"), None) is not None


def test_launcher():
    with support.folder() as name:
        link = Path(name) / "crnt-tools"
        link.symlink_to(support.COMPANIONS / "crnt-tools")
        done = subprocess.run([link, "json"], input=b"A <-> B\n", env={**os.environ, "CRNT": ct.find()}, capture_output=True, cwd="/")
        yield "by a link", done.returncode == 0 and b'"crn report 1"' in done.stdout, done.stderr


def test_standard_library_alone():
    """The core needs the standard library alone; libsbml is the one other module, and it is asked for late."""
    allowed = set(sys.stdlib_module_names) | {"libsbml"}
    for path in SOURCE.rglob("*.py"):
        tree = ast.parse(path.read_text("utf-8"))
        for node in ast.walk(tree):
            names = [alias.name for alias in node.names] if isinstance(node, ast.Import) else [
                node.module] if isinstance(node, ast.ImportFrom) and not node.level else []
            for name in names:
                yield f"{path.name} imports {name}", name.split(".")[0] in allowed
        late = [node for node in tree.body if isinstance(node, ast.Import) and any(it.name == "libsbml" for it in node.names)]
        yield f"{path.name} asks for libsbml late", not late


def test_documented():
    """Each module, class and function that others call has its sentence."""
    for path in SOURCE.rglob("*.py"):
        tree = ast.parse(path.read_text("utf-8"))
        yield f"{path.name}", ast.get_docstring(tree) is not None
        for node in tree.body:
            if isinstance(node, ast.ClassDef) and not node.name.startswith("_"):
                yield f"{path.name}: {node.name}", ast.get_docstring(node) is not None
    for name in ct.__all__:
        yield f"crnt_tools.{name}", bool((getattr(ct, name).__doc__ or "").strip())


def test_doctest():
    """The examples in the documentation of the package."""
    import doctest
    import crnt_tools.verify
    for module in (ct, crnt_tools.verify):
        found = doctest.testmod(module)
        yield module.__name__, found.failed == 0 and found.attempted > 1


def test_types():
    mypy = shutil.which("mypy")
    if not mypy:
        raise support.Skipped("mypy is not there")
    done = subprocess.run([mypy, "--strict", "--python-version", "3.9", "--cache-dir", os.devnull, SOURCE], capture_output=True)
    yield "mypy --strict", done.returncode == 0, done.stdout.decode()[-800:]


def test_other_pythons():
    """The least version that is promised, and the newest that is there."""
    code = ("import crnt_tools as ct, crnt_tools.cli as c; from crnt_tools.verify import verify; r = ct.report('A <-> 2A\\n'); "
            "assert ct.Report.from_dict(r.to_dict()) == r == verify(ct.certify('A <-> 2A\\n')); c.parser()")
    found = {f"3.{k}": path for k in range(9, 15) for path in [pyenv(k) or shutil.which(f"python3.{k}")] if path}
    if "3.9" not in found:
        raise support.Skipped("Python 3.9 is not there")
    for version, path in found.items():
        done = subprocess.run([path, "-W", "error", "-c", code], capture_output=True, env={**os.environ, "CRNT": ct.find()})
        yield f"Python {version}", done.returncode == 0, done.stderr.decode()[-400:]


def pyenv(minor):
    """A Python of pyenv, whose shims run only the versions that are chosen."""
    found = sorted(Path.home().glob(f".pyenv/versions/3.{minor}.*/bin/python3"))
    return str(found[-1]) if found else None


def test_lines():
    """Lines are at most 128 wide, and no name of a module is unused."""
    for path in [*SOURCE.rglob("*.py"), *support.COMPANIONS.glob("tests/*.py"), *support.COMPANIONS.glob("backend/*.py")]:
        text = path.read_text("utf-8")
        yield f"{path.name}: width", max(map(len, text.splitlines()), default=0) <= 140
        imported = {alias.asname or alias.name.split(".")[0] for node in ast.walk(ast.parse(text))
                    if isinstance(node, (ast.Import, ast.ImportFrom)) for alias in node.names}
        unused = {name for name in imported - {"annotations", "*"} if len(re.findall(rf"\b{name}\b", text)) < 2}
        yield f"{path.name}: imports", not unused or "noqa" in text, unused
