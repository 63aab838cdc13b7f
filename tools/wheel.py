"""Makes the Python package a wheel. pip calls it, as pyproject.toml says, and a release does, which puts the program inside.

It needs Python alone, and neither a network nor a clone that can be written. The same files make the same bytes.
"""

import base64
import contextlib
import hashlib
import os
import re
import sys
import time
import zipfile

sys.dont_write_bytecode = True

HERE = os.path.dirname(os.path.realpath(__file__))
PACKAGE = f"{HERE}/cgrlist"
ANYWHERE = "py3-none-any"  # the tag of a wheel that any Python 3 on any machine takes
EPOCH = 315532800  # 1980-01-01, the first second of an archive's times


def version():
    with open(f"{PACKAGE}/version.py", encoding="utf-8") as file:
        return re.search(r'^VERSION = "(.*)"$', file.read(), re.M)[1]


def commands():
    """The modules of the commands."""
    return sorted(it[:-3] for it in os.listdir(f"{PACKAGE}/commands") if it.endswith(".py") and it != "__init__.py")


def package_files():
    """The files of the package: each one's place in the wheel, and its path."""
    paths = (f"{at}/{name}" for at, _, names in os.walk(PACKAGE) if not at.endswith("__pycache__") for name in names)
    return {os.path.relpath(it, HERE): it for it in paths}


def metadata(tag):
    """The files that say what the wheel is: each one's name, and its text."""
    points = "".join(f"cgrlist-{it.replace('_', '-')} = cgrlist.commands.{it}:main\n" for it in commands())
    about = "Summary: Routes through contact plans, as the program cgrlist lists them\nLicense: none has been chosen\nRequires-Python: >=3.9\n"
    return {
        "METADATA": f"Metadata-Version: 2.1\nName: cgrlist\nVersion: {version()}\n{about}",
        "WHEEL": f"Wheel-Version: 1.0\nGenerator: cgrlist\nRoot-Is-Purelib: {str(tag == ANYWHERE).lower()}\nTag: {tag}\n",
        "entry_points.txt": f"[console_scripts]\n{points}",
    }


def made(folder, tag=ANYWHERE, further=None):
    """Makes a wheel in a folder, and returns its name. Further files are the paths of files, by their places in the wheel."""
    name, about = f"cgrlist-{version()}-{tag}.whl", f"cgrlist-{version()}.dist-info"
    when = max(int(os.environ.get("SOURCE_DATE_EPOCH", EPOCH)), EPOCH)
    record = []
    with zipfile.ZipFile(f"{folder}/{name}", "w", zipfile.ZIP_DEFLATED) as wheel:

        def put(place, data, mode=0o644):
            info = zipfile.ZipInfo(place, time.gmtime(when)[:6])
            info.compress_type, info.external_attr = zipfile.ZIP_DEFLATED, (0o100000 | mode) << 16
            wheel.writestr(info, data)
            digest = base64.urlsafe_b64encode(hashlib.sha256(data).digest()).decode().rstrip("=")
            record.append(f"{place},sha256={digest},{len(data)}\n")

        for place, path in sorted({**package_files(), **(further or {})}.items()):
            with open(path, "rb") as file:
                put(place, file.read(), 0o755 if os.access(path, os.X_OK) else 0o644)
        for place, text in metadata(tag).items():
            put(f"{about}/{place}", text.encode())
        put(f"{about}/RECORD", "".join([*record, f"{about}/RECORD,,\n"]).encode())
    return name


# ---- What pip calls ---------------------------------------------------------------------------------------------


def build_wheel(folder, config_settings=None, metadata_directory=None):
    """Makes the wheel in a folder, and returns its name."""
    forget_this_module()
    return made(folder)


def build_sdist(folder, config_settings=None):
    raise NotImplementedError("the package is made from a clone")


def forget_this_module():
    """Removes what Python keeps of this module, which it compiled before it came to the line above that forbids that."""
    with contextlib.suppress(OSError):
        os.remove(__cached__)
        os.rmdir(os.path.dirname(__cached__))
