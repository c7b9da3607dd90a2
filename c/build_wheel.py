"""Makes the wheel that `pip install` asks for of this folder: the package wikzord, which is wikzord.py, py.typed and libwikzord.so.

It needs no other package. Where `rt` is there the library is built first, by build.sh; else the one is taken that build.sh has left in out/.
"""
import base64
import hashlib
import pathlib
import re
import shutil
import subprocess
import sysconfig
import zipfile

HERE = pathlib.Path(__file__).resolve().parent
LIBRARY = HERE / "out" / "libwikzord.so"


def setting(name):
    """What pyproject.toml says, which Python 3.8 has no reader for."""
    return re.search(rf'^{name} = "(.*)"$', (HERE / "pyproject.toml").read_text(encoding="utf-8"), re.M)[1]


def library():
    """The bytes of the library."""
    if shutil.which("rt"):
        subprocess.run([str(HERE / "build.sh")], check=True)
    if not LIBRARY.exists():
        raise SystemExit(f"wikzord: there is no library {LIBRARY}, and no command `rt` that c/build.sh could make it with (docs/LIBRARY.md)")
    return LIBRARY.read_bytes()


def record(name, content):
    """The line of a file in the list of a wheel's files."""
    digest = base64.urlsafe_b64encode(hashlib.sha256(content).digest()).decode().rstrip("=")
    return f"{name},sha256={digest},{len(content)}\n"


def build_wheel(wheel_directory, config_settings=None, metadata_directory=None):
    """Writes the wheel into a folder, and gives the name of its file."""
    name, version = setting("name"), setting("version")
    tag = "py3-none-" + re.sub(r"[-.]", "_", sysconfig.get_platform())
    about = f"{name}-{version}.dist-info"
    metadata = (
        f"Metadata-Version: 2.1\nName: {name}\nVersion: {version}\nSummary: {setting('description')}\n"
        f"Requires-Python: {setting('requires-python')}\n")
    files = {
        f"{name}/__init__.py": (HERE / "wikzord.py").read_bytes(),
        f"{name}/py.typed": (HERE / "py.typed").read_bytes(),
        f"{name}/libwikzord.so": library(),
        f"{about}/METADATA": metadata.encode(),
        f"{about}/WHEEL": f"Wheel-Version: 1.0\nGenerator: build_wheel\nRoot-Is-Purelib: false\nTag: {tag}\n".encode(),
    }
    files[f"{about}/RECORD"] = ("".join(map(record, files, files.values())) + f"{about}/RECORD,,\n").encode()
    wheel = f"{name}-{version}-{tag}.whl"
    with zipfile.ZipFile(pathlib.Path(wheel_directory) / wheel, "w", zipfile.ZIP_DEFLATED) as archive:
        for path, content in files.items():
            archive.writestr(path, content)
    return wheel


def build_sdist(sdist_directory, config_settings=None):
    """None is made: the library is built of the repository."""
    raise SystemExit("wikzord: install it of its repository, by `pip install ./c`")
