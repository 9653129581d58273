"""Builds the package for pip (PEP 517): a wheel, which is a zip archive of the sources with a description and check sums."""

from __future__ import annotations

import base64
import hashlib
import zipfile
from pathlib import Path
from typing import Optional

HERE = Path(__file__).resolve().parent
NAME, VERSION = "spasm", "0.1.0"
METADATA = f"""Metadata-Version: 2.1
Name: {NAME}
Version: {VERSION}
Summary: Exact sparse elimination modulo a prime: the programs spasm and spasm_batch from Python
License: MIT
Requires-Python: >=3.9
Provides-Extra: scipy
Requires-Dist: scipy; extra == "scipy"
Description-Content-Type: text/markdown

"""
WHEEL = "Wheel-Version: 1.0\nGenerator: build_package\nRoot-Is-Purelib: true\nTag: py3-none-any\n"


def build_wheel(wheel_directory: str, config_settings: Optional[dict] = None, metadata_directory: Optional[str] = None) -> str:
    """Writes the wheel into a folder, and gives its name."""
    folder = f"{NAME}-{VERSION}.dist-info"
    files = {f"{NAME}/{path.name}": path.read_bytes() for path in sorted((HERE / NAME).glob("*.py"))}
    files[f"{folder}/METADATA"] = METADATA.encode() + (HERE / "README.md").read_bytes()
    files[f"{folder}/WHEEL"] = WHEEL.encode()
    record = [f"{name},sha256={check_sum(content)},{len(content)}\n" for name, content in files.items()]
    files[f"{folder}/RECORD"] = "".join([*record, f"{folder}/RECORD,,\n"]).encode()
    name = f"{NAME}-{VERSION}-py3-none-any.whl"
    with zipfile.ZipFile(Path(wheel_directory) / name, "w", zipfile.ZIP_DEFLATED) as archive:
        for path, content in files.items():
            archive.writestr(path, content)
    return name


def check_sum(content: bytes) -> str:
    """The check sum of a file as a wheel records it."""
    return base64.urlsafe_b64encode(hashlib.sha256(content).digest()).rstrip(b"=").decode()
