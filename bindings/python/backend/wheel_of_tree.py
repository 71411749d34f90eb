"""Makes the wheel that pip installs (PEP 517), with the standard library alone: no network, no setuptools.

The wheel holds the package, and beside it the shared object, which bindings/shared makes from the proved archive; so it is made
in a clone of the repository, for x86-64 Linux.
"""
import base64
import hashlib
import pathlib
import subprocess
import zipfile

HOME = pathlib.Path(__file__).resolve().parent.parent
TAG = "py3-none-linux_x86_64"


def _stated(name):
    """What pyproject.toml says of the project, a line each; tomllib is not in every Python that pip has."""
    lines = (HOME / "pyproject.toml").read_text().splitlines()
    return next(line.split('"')[1] for line in lines if line.startswith(f"{name} = "))


def _metadata():
    name, version = _stated("name"), _stated("version")
    about = f"Summary: {_stated('description')}\nRequires-Python: {_stated('requires-python')}\nLicense: MIT\n"
    return f"{name}-{version}", {
        "METADATA": f"Metadata-Version: 2.1\nName: {name}\nVersion: {version}\n{about}",
        "WHEEL": f"Wheel-Version: 1.0\nGenerator: wheel_of_tree\nRoot-Is-Purelib: false\nTag: {TAG}\n",
        "entry_points.txt": f"[console_scripts]\nozp = {_stated('ozp')}\n",
    }


def _files(shared):
    """The files of the wheel by their path in it."""
    sources = [path for path in sorted((HOME / "ozpinduru").rglob("*")) if path.suffix == ".py" or path.name == "py.typed"]
    files = {str(path.relative_to(HOME)): path.read_bytes() for path in sources}
    files["ozpinduru/libozpinduru.so"] = shared.read_bytes()
    return files


def build_wheel(wheel_directory, config_settings=None, metadata_directory=None):
    folder = pathlib.Path(wheel_directory)
    shared = folder / "libozpinduru.so"
    subprocess.run([HOME.parent / "shared", shared], check=True)
    title, metadata = _metadata()
    info = f"{title}.dist-info"
    files = {**_files(shared), **{f"{info}/{name}": text.encode() for name, text in metadata.items()}}
    shared.unlink()
    with zipfile.ZipFile(folder / f"{title}-{TAG}.whl", "w", zipfile.ZIP_DEFLATED) as wheel:
        record = []
        for path, data in files.items():
            digest = base64.urlsafe_b64encode(hashlib.sha256(data).digest()).rstrip(b"=").decode()
            record.append(f"{path},sha256={digest},{len(data)}\n")
            wheel.writestr(path, data)
        wheel.writestr(f"{info}/RECORD", "".join(record) + f"{info}/RECORD,,\n")
    return f"{title}-{TAG}.whl"


def build_sdist(sdist_directory, config_settings=None):
    raise NotImplementedError("the library is proved and built in a clone of the repository")
