"""What pip calls to build the module. setuptools reads pyproject.toml and gathers the files, and this packs them as a wheel: older setuptools
needs a second package for that, `wheel`, which a fresh environment has not. Nothing is written beside the sources, and the wheel of the
same sources has the same bytes."""
import base64
import hashlib
import pathlib
import sys
import tempfile
import zipfile
from typing import Any, Collection, Dict

try:
    import setuptools
    from setuptools.build_meta import build_sdist
except ImportError:
    sys.exit("wfcheck is built by setuptools, and there is none here. Leave out --no-build-isolation, or first call `pip install setuptools`. "
             "Without pip: `make install`, or PYTHONPATH=python")

__all__ = ["build_editable", "build_sdist", "build_wheel"]
TAG = "py3-none-any"
# the first moment that a zip file can tell
MOMENT = (1980, 1, 1, 0, 0, 0)


def wheel_text(tag: str, is_pure: bool) -> str:
    """What a wheel says of itself."""
    return f"Wheel-Version: 1.0\nGenerator: wfcheck\nRoot-Is-Purelib: {str(is_pure).lower()}\nTag: {tag}\n"


def gathered(folder: pathlib.Path) -> Dict[str, bytes]:
    """The files of the module, and those that say what it is, by their paths in a wheel."""
    lib, about = folder / "lib", folder / "about"
    about.mkdir()
    words = ["--quiet", "egg_info", "--egg-base", str(about), "build_py", "--build-lib", str(lib)]
    made = setuptools.setup(script_name="setup.py", script_args=words)
    name = f"wfcheck-{made.get_version()}.dist-info"
    told = {"METADATA": "PKG-INFO", "entry_points.txt": "entry_points.txt", "top_level.txt": "top_level.txt"}
    found = {str(it.relative_to(lib)): it.read_bytes() for it in lib.rglob("*") if it.is_file()}
    return {**found, **{f"{name}/{mine}": (about / "wfcheck.egg-info" / its).read_bytes() for mine, its in told.items()}, f"{name}/WHEEL": wheel_text(TAG, True).encode()}


def packed(found: Dict[str, bytes], directory: str, tag: str = TAG, programs: Collection[str] = ()) -> str:
    """Writes a wheel with these files into a folder, of which some are programs, and returns its name."""
    about = next(it.rpartition("/")[0] for it in found if it.endswith("/WHEEL"))
    lines = [f"{path},sha256={digest(data)},{len(data)}" for path, data in sorted(found.items())]
    record = "".join(f"{it}\n" for it in [*lines, f"{about}/RECORD,,"])
    wheel = f"{about.removesuffix('.dist-info')}-{tag}.whl"
    with zipfile.ZipFile(pathlib.Path(directory) / wheel, "w", zipfile.ZIP_DEFLATED) as file:
        for path, data in [*sorted(found.items()), (f"{about}/RECORD", record.encode())]:
            info = zipfile.ZipInfo(path, MOMENT)
            mode = 0o100755 if path in programs else 0o100644
            info.external_attr, info.compress_type = mode << 16, zipfile.ZIP_DEFLATED
            file.writestr(info, data)
    return wheel


def digest(data: bytes) -> str:
    """The SHA-256 of a file as a wheel lists it."""
    return base64.urlsafe_b64encode(hashlib.sha256(data).digest()).rstrip(b"=").decode()


def build_wheel(wheel_directory: str, config_settings: Any = None, metadata_directory: Any = None) -> str:
    """Builds the wheel, and returns its name."""
    with tempfile.TemporaryDirectory() as folder:
        return packed(gathered(pathlib.Path(folder)), wheel_directory)


def build_editable(wheel_directory: str, config_settings: Any = None, metadata_directory: Any = None) -> str:
    """Builds a wheel that leads to the sources, for `pip install --editable`, and returns its name."""
    with tempfile.TemporaryDirectory() as folder:
        about = {path: data for path, data in gathered(pathlib.Path(folder)).items() if ".dist-info/" in path}
    return packed({**about, "wfcheck.pth": f"{pathlib.Path.cwd()}\n".encode()}, wheel_directory)
