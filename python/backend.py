"""What pip asks for to build the module: a wheel, which is an archive of its files with three that describe it.

The wheel has the shared library if it was built (`bin/build aes3_c`), and is for x86-64 Linux then. With the setting `library=no`, as the
packages have it, or without a built library, it has the module alone, which finds the library of the system.
"""

import base64
import hashlib
import os
import re
import subprocess
import tempfile
import zipfile

HERE = os.path.dirname(os.path.abspath(__file__))
ROOT = os.path.dirname(HERE)
LIBRARY = "libaes3.so.1"


def read(path):
    with open(f"{HERE}/{path}", encoding="utf-8") as file:
        return file.read()


def library():
    """The shared library of the sources, if it was built."""
    archive, link = f"{ROOT}/crates/aes3_c/out/libaes3_c.a", f"{ROOT}/bin/link-shared"
    if not os.path.isfile(archive):
        return None
    with tempfile.TemporaryDirectory() as folder:
        subprocess.run([link, f"{folder}/{LIBRARY}", archive], check=True)
        with open(f"{folder}/{LIBRARY}", "rb") as file:
            return file.read()


def build_wheel(wheel_directory, config_settings=None, metadata_directory=None):
    module = read("aes3/__init__.py")
    version = re.search(r'^VERSION = "(.*?)"', module, re.M)[1]
    about = f"aes3-{version}.dist-info"
    shared = None if (config_settings or {}).get("library") == "no" else library()
    tag = "py3-none-linux_x86_64" if shared else "py3-none-any"
    files = {
        **{f"aes3/{name}": read(f"aes3/{name}") for name in sorted(os.listdir(f"{HERE}/aes3")) if name.endswith((".py", ".typed"))},
        **({f"aes3/{LIBRARY}": shared} if shared else {}),
        f"{about}/METADATA": f"Metadata-Version: 2.1\nName: aes3\nVersion: {version}\nSummary: {module[3:].splitlines()[0]}\n"
        "Requires-Python: >=3.8\nProvides-Extra: numpy\nRequires-Dist: numpy; extra == 'numpy'\n",
        f"{about}/WHEEL": f"Wheel-Version: 1.0\nGenerator: backend.py\nRoot-Is-Purelib: {str(not shared).lower()}\nTag: {tag}\n",
    }
    files = {name: content if isinstance(content, bytes) else content.encode() for name, content in files.items()}
    rows = [f"{name},sha256={digest(content)},{len(content)}\n" for name, content in files.items()]
    files[f"{about}/RECORD"] = ("".join(rows) + f"{about}/RECORD,,\n").encode()
    name = f"aes3-{version}-{tag}.whl"
    with zipfile.ZipFile(os.path.join(wheel_directory, name), "w", zipfile.ZIP_DEFLATED) as wheel:
        for path, content in files.items():
            wheel.writestr(path, content)
    return name


def digest(content):
    return base64.urlsafe_b64encode(hashlib.sha256(content).digest()).decode().rstrip("=")
