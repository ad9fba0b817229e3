"""How `pip install` makes a wheel of the package, without anything from elsewhere (PEP 517)."""
import base64
import hashlib
import os
import zipfile

HERE = os.path.dirname(os.path.abspath(__file__))
MODULES = ("__init__.py", "network.py", "node.py", "payload.py")


def _version():
    with open(os.path.join(HERE, "..", "VERSION"), encoding="ascii") as file:
        return file.read().strip()


def _files(version):
    """The files of the wheel but its list, by their names."""
    for name in MODULES:
        with open(os.path.join(HERE, "someip", name), "rb") as file:
            yield f"someip/{name}", file.read()
    info = f"someip-{version}.dist-info"
    yield f"{info}/METADATA", (
        f"Metadata-Version: 2.1\nName: someip\nVersion: {version}\n"
        "Summary: SOME/IP nodes for benches, by a verified library\n"
        "Requires-Python: >=3.11\n").encode()
    yield f"{info}/WHEEL", (
        b"Wheel-Version: 1.0\nGenerator: backend\nRoot-Is-Purelib: true\n"
        b"Tag: py3-none-any\n")


def _row(name, data):
    """A line of the list: the name, the sum and the size of a file."""
    sum_ = base64.urlsafe_b64encode(hashlib.sha256(data).digest())
    return f"{name},sha256={sum_.rstrip(b'=').decode()},{len(data)}\n"


def build_wheel(wheel_directory, config_settings=None,
                metadata_directory=None):
    version = _version()
    name = f"someip-{version}-py3-none-any.whl"
    record = f"someip-{version}.dist-info/RECORD"
    rows = []
    with zipfile.ZipFile(os.path.join(wheel_directory, name), "w") as wheel:
        for path, data in _files(version):
            wheel.writestr(path, data)
            rows.append(_row(path, data))
        wheel.writestr(record, "".join(rows) + f"{record},,\n")
    return name


def build_sdist(sdist_directory, config_settings=None):
    raise NotImplementedError("the package is built of the repository")
