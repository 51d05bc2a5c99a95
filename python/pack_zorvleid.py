"""Packs the package zorvleid: the hook that pip calls, as pyproject.toml says."""

import base64
import hashlib
import tomllib
import zipfile
from pathlib import Path

HERE = Path(__file__).resolve().parent


def build_wheel(
    wheel_directory: str, config_settings: object = None, metadata_directory: str | None = None
) -> str:
    """Writes the wheel into a folder, and answers its name."""
    package = HERE / project()["name"]
    return write_wheel(wheel_directory, {
        f"{package.name}/{path.name}": path.read_bytes()
        for path in sorted(package.iterdir())
        if path.suffix == ".py" or path.name == "py.typed"
    })


def build_editable(
    wheel_directory: str, config_settings: object = None, metadata_directory: str | None = None
) -> str:
    """The same for `pip install -e`: the wheel names this folder, where the package is."""
    return write_wheel(wheel_directory, {f"{project()['name']}.pth": f"{HERE}\n".encode()})


def project() -> dict[str, str]:
    """The facts of pyproject.toml that the package has."""
    found = tomllib.loads((HERE / "pyproject.toml").read_text(encoding="utf-8"))["project"]
    return {name: said for name, said in found.items() if isinstance(said, str)}


def write_wheel(wheel_directory: str, files: dict[str, bytes]) -> str:
    """Writes a wheel with these files, and answers its name."""
    about = project()
    release = f"{about['name']}-{about['version']}"
    metadata = (
        f"Metadata-Version: 2.1\nName: {about['name']}\nVersion: {about['version']}\n"
        f"Summary: {about['description']}\nRequires-Python: {about['requires-python']}\n"
        "Description-Content-Type: text/markdown\n\n"
    ) + (HERE / about["readme"]).read_text(encoding="utf-8")
    files[f"{release}.dist-info/METADATA"] = metadata.encode()
    files[
        f"{release}.dist-info/WHEEL"
    ] = b"Wheel-Version: 1.0\nGenerator: zorvleid\nRoot-Is-Purelib: true\nTag: py3-none-any\n"
    record = f"{release}.dist-info/RECORD"
    files[record] = "".join(
        [*(line_of(name, data) for name, data in files.items()), f"{record},,\n"]
    ).encode()
    name = f"{release}-py3-none-any.whl"
    with zipfile.ZipFile(Path(wheel_directory) / name, "w", zipfile.ZIP_DEFLATED) as packed:
        for inside, data in files.items():
            packed.writestr(inside, data)
    return name


def line_of(name: str, data: bytes) -> str:
    """What RECORD says of a file."""
    digest = base64.urlsafe_b64encode(hashlib.sha256(data).digest()).decode().rstrip("=")
    return f"{name},sha256={digest},{len(data)}\n"
