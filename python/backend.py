"""Builds the wheel of this folder for `pip install ./python`, with the standard library alone, so that nothing has to be
fetched. A backend as PEP 517 has it; what is built is told by pyproject.toml."""

from __future__ import annotations

import base64
import hashlib
import pathlib
import tarfile
import tomllib
import zipfile

HERE = pathlib.Path(__file__).resolve().parent


def _project() -> dict:
    return tomllib.loads((HERE / "pyproject.toml").read_text(encoding="utf-8"))["project"]


def _label(project: dict) -> str:
    return f"{project['name'].replace('-', '_')}-{project['version']}"


def _metadata(project: dict) -> str:
    lines = ["Metadata-Version: 2.1", f"Name: {project['name']}", f"Version: {project['version']}",
             f"Summary: {project['description']}", f"Requires-Python: {project['requires-python']}"]
    for extra, needs in project.get("optional-dependencies", {}).items():
        lines.append(f"Provides-Extra: {extra}")
        lines += [f"Requires-Dist: {need}; extra == '{extra}'" for need in needs]
    return "\n".join(lines) + "\n"


def build_wheel(wheel_directory: str, config_settings: dict | None = None, metadata_directory: str | None = None) -> str:
    """Writes the wheel, and gives back its name."""
    project = _project()
    info = f"{_label(project)}.dist-info"
    files = {f"actus/{path.name}": path.read_bytes() for path in sorted((HERE / "actus").glob("*.py"))}
    scripts = "".join(f"{name} = {aim}\n" for name, aim in project["scripts"].items())
    files[f"{info}/METADATA"] = _metadata(project).encode()
    files[f"{info}/WHEEL"] = b"Wheel-Version: 1.0\nGenerator: backend\nRoot-Is-Purelib: true\nTag: py3-none-any\n"
    files[f"{info}/entry_points.txt"] = f"[console_scripts]\n{scripts}".encode()
    record = "".join(f"{name},sha256={_digest(data)},{len(data)}\n" for name, data in files.items())
    files[f"{info}/RECORD"] = f"{record}{info}/RECORD,,\n".encode()
    name = f"{_label(project)}-py3-none-any.whl"
    with zipfile.ZipFile(pathlib.Path(wheel_directory) / name, "w", zipfile.ZIP_DEFLATED) as wheel:
        for path, data in files.items():
            wheel.writestr(path, data)
    return name


def _digest(data: bytes) -> str:
    return base64.urlsafe_b64encode(hashlib.sha256(data).digest()).rstrip(b"=").decode()


def build_sdist(sdist_directory: str, config_settings: dict | None = None) -> str:
    """Writes the archive of the sources, and gives back its name."""
    label = _label(_project())
    with tarfile.open(pathlib.Path(sdist_directory) / f"{label}.tar.gz", "w:gz") as archive:
        for path in [HERE / "pyproject.toml", HERE / "backend.py", *sorted((HERE / "actus").glob("*.py"))]:
            archive.add(path, f"{label}/{path.relative_to(HERE)}")
    return f"{label}.tar.gz"
