"""Makes the wheel for `pip install .`, with the standard library alone: pip asks for `build_wheel` (pyproject.toml). The wheel has sigla.py as a
package, so that type checkers read its annotations, and libsigla.so beside it, if there is one: that which SIGLA_SO names, else the one that
./install put there, else one made of target/staticlib/libsigla_lib.a (`tools/build sigla_lib`). Without one the module looks for it by SIGLA_SO
or the loader's rules when it is used."""

import base64
import hashlib
import os
import pathlib
import re
import tempfile
import zipfile

import sigla

HERE = pathlib.Path(__file__).resolve().parent


def _about(key):
    return re.search(rf'^{key} = "(.*)"$', (HERE / "pyproject.toml").read_text(), re.M)[1]


def _library(folder):
    """The shared library's bytes, or None."""
    if "SIGLA_SO" in os.environ:
        return pathlib.Path(os.environ["SIGLA_SO"]).read_bytes()
    for place in sigla.BESIDE:
        if (HERE / place).exists():
            return (HERE / place).read_bytes()
    static = HERE / "../../target/staticlib/libsigla_lib.a"
    if static.exists():
        made = pathlib.Path(folder) / "libsigla.so"
        sigla.make_library(static, made)
        return made.read_bytes()
    return None


def build_wheel(wheel_directory, config_settings=None, metadata_directory=None):
    """Writes the wheel and gives its file's name."""
    version = _about("version")
    files = {"sigla/__init__.py": (HERE / "sigla.py").read_bytes(), "sigla/py.typed": b""}
    with tempfile.TemporaryDirectory() as folder:
        library = _library(folder)
    tag = "py3-none-any"
    if library is not None:
        files["sigla/libsigla.so"] = library
        tag = "py3-none-linux_x86_64"
    info = f"sigla-{version}.dist-info"
    files[f"{info}/METADATA"] = (f"Metadata-Version: 2.1\nName: sigla\nVersion: {version}\nSummary: {_about('description')}\nLicense: MIT\n"
                                 f"Requires-Python: {_about('requires-python')}\n").encode()
    files[f"{info}/WHEEL"] = (f"Wheel-Version: 1.0\nGenerator: sigla\nRoot-Is-Purelib: {str(library is None).lower()}\nTag: {tag}\n").encode()
    record = ""
    name = f"sigla-{version}-{tag}.whl"
    with zipfile.ZipFile(pathlib.Path(wheel_directory) / name, "w", zipfile.ZIP_DEFLATED) as wheel:
        for path, data in files.items():
            digest = base64.urlsafe_b64encode(hashlib.sha256(data).digest()).rstrip(b"=").decode()
            record += f"{path},sha256={digest},{len(data)}\n"
            wheel.writestr(path, data)
        wheel.writestr(f"{info}/RECORD", record + f"{info}/RECORD,,\n")
    return name
