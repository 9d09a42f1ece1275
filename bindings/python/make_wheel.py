"""Makes the wheel that pip installs, by the standard library alone: so `pip install` of this folder needs no network. pip calls
`build_wheel`."""

from __future__ import annotations

import base64
import hashlib
import os
import re
import shutil
import subprocess
import sysconfig
import tempfile
import zipfile
from typing import Optional

HERE = os.path.dirname(os.path.realpath(__file__))


def read(name: str) -> bytes:
    with open(os.path.join(HERE, name), "rb") as file:
        return file.read()


def facts() -> dict[str, str]:
    """What pyproject.toml says of the package: name, version, description, and so on."""
    return dict(re.findall(r'(?m)^([\w-]+) = "(.*)"$', read("pyproject.toml").decode()))


def build_fast(folder: str) -> Optional[str]:
    """Compiles the extension, for any Python from 3.9 on; None: there is no compiler, or a header is missing. The package does without."""
    made, compiler = os.path.join(folder, "_fast.abi3.so"), shutil.which("cc")
    roads = [sysconfig.get_path("include"), os.path.join(HERE, "..", "..", "include"), os.path.join(HERE, "include")]
    words = ["-O2", "-shared", "-fPIC", *(f"-I{it}" for it in roads), os.path.join(HERE, "labrun", "_fast.c"), "-o", made]
    if compiler is None or subprocess.run([compiler, *words], capture_output=True).returncode:
        return None
    return made


def build_wheel(wheel_directory: str, config_settings: Optional[dict[str, str]] = None, metadata_directory: object = None) -> str:
    """Writes the wheel into a folder, and returns its name. The setting `platform` says for which systems the library in it is; without: as this one."""
    of, names = facts(), sorted(it for it in os.listdir(os.path.join(HERE, "labrun")) if it.endswith((".py", ".typed", ".so")))
    here = re.sub(r"\W", "_", sysconfig.get_platform())
    with tempfile.TemporaryDirectory() as folder:
        fast = build_fast(folder)
        files = {} if fast is None else {"labrun/_fast.abi3.so": read(fast)}
    platform = (config_settings or {}).get("platform", here) if files or "liblabrun.so" in names else "any"
    tag, about = f"py3-none-{platform}", f"{of['name']}-{of['version']}.dist-info"
    head = f"Metadata-Version: 2.1\nName: {of['name']}\nVersion: {of['version']}\nSummary: {of['description']}\n"
    head += f"Requires-Python: {of['requires-python']}\nDescription-Content-Type: text/markdown\n\n"
    wheel = f"Wheel-Version: 1.0\nGenerator: make_wheel\nRoot-Is-Purelib: {str(platform == 'any').lower()}\nTag: {tag}\n"
    files |= {f"labrun/{it}": read(f"labrun/{it}") for it in names}
    files |= {f"{about}/METADATA": head.encode() + read("README.md"), f"{about}/WHEEL": wheel.encode()}
    record = ""
    for name, data in files.items():
        digest = base64.urlsafe_b64encode(hashlib.sha256(data).digest()).decode().rstrip("=")
        record += f"{name},sha256={digest},{len(data)}\n"
    files[f"{about}/RECORD"] = (record + f"{about}/RECORD,,\n").encode()
    made = f"{of['name']}-{of['version']}-{tag}.whl"
    with zipfile.ZipFile(os.path.join(wheel_directory, made), "w", zipfile.ZIP_DEFLATED) as out:
        for name, data in files.items():
            out.writestr(name, data)
    return made
