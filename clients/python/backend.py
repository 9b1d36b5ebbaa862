"""Builds the wheel of this folder for `pip install`, with the standard library alone, so that it needs no network."""
import base64
import hashlib
import pathlib
import re
import zipfile

HERE = pathlib.Path(__file__).resolve().parent
WHEEL = "Wheel-Version: 1.0\nGenerator: heapdbg\nRoot-Is-Purelib: true\nTag: py3-none-any\n"


def facts():
    """Returns what pyproject.toml says of the project: its texts by their names."""
    return dict(re.findall(r'^([a-z-]+) = "(.*)"$', (HERE / "pyproject.toml").read_text(), re.MULTILINE))


def metadata(project):
    """Returns the text of METADATA."""
    heads = {
        "Metadata-Version": "2.1",
        "Name": project["name"],
        "Version": project["version"],
        "Summary": project["description"],
        "Requires-Python": project["requires-python"],
        "Description-Content-Type": "text/markdown",
    }
    return "".join(f"{name}: {text}\n" for name, text in heads.items()) + "\n" + (HERE / "README.md").read_text()


def row(name, data):
    """Returns the row of a file in RECORD."""
    digest = base64.urlsafe_b64encode(hashlib.sha256(data).digest()).rstrip(b"=").decode()
    return f"{name},sha256={digest},{len(data)}\n"


def build_wheel(wheel_directory, config_settings=None, metadata_directory=None):
    """Writes the wheel to a folder, and returns its name, as pip asks."""
    project = facts()
    stem = f"{project['name']}-{project['version']}"
    files = {f"heapdbg/{path.name}": path.read_bytes() for path in sorted((HERE / "heapdbg").glob("*")) if path.is_file()}
    files[f"{stem}.dist-info/METADATA"] = metadata(project).encode()
    files[f"{stem}.dist-info/WHEEL"] = WHEEL.encode()
    record = f"{stem}.dist-info/RECORD"
    files[record] = ("".join(row(name, data) for name, data in files.items()) + f"{record},,\n").encode()
    wheel = f"{stem}-py3-none-any.whl"
    with zipfile.ZipFile(pathlib.Path(wheel_directory, wheel), "w", zipfile.ZIP_DEFLATED) as packed:
        for name, data in files.items():
            packed.writestr(name, data)
    return wheel
