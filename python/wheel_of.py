"""Makes the package's wheel, for `pip install ./python` and `pip install -e ./python`, with the standard library alone: so no network is needed."""
import base64
import hashlib
import pathlib
import re
import sysconfig
import zipfile

HERE = pathlib.Path(__file__).resolve().parent
# The module as a shared object, where tools/build library has made it: a wheel that has it is one for such machines alone.
LIBRARY = HERE.parent / "crates" / "pcm_c" / "out" / "libpcm.so.1"


def _project():
    """The fields of pyproject.toml's [project] that are texts."""
    text = (HERE / "pyproject.toml").read_text(encoding="utf-8").partition("[project]")[2]
    return dict(re.findall(r'^([a-z-]+) = "(.*)"$', text, re.MULTILINE))


def _metadata(project):
    return (
        f"Metadata-Version: 2.1\nName: {project['name']}\nVersion: {project['version']}\n"
        f"Summary: {project['description']}\nRequires-Python: {project['requires-python']}\n"
    )


def _built(wheel_directory, files, machine="any"):
    """Writes a wheel of these files, by their names, with what every wheel has; answers its name."""
    project = _project()
    stem = f"{project['name']}-{project['version']}"
    about = f"{stem}.dist-info"
    files = dict(files)
    files[f"{about}/METADATA"] = _metadata(project).encode()
    pure = "true" if machine == "any" else "false"
    files[f"{about}/WHEEL"] = f"Wheel-Version: 1.0\nGenerator: wheel_of\nRoot-Is-Purelib: {pure}\nTag: py3-none-{machine}\n".encode()
    record = "".join(
        f"{name},sha256={base64.urlsafe_b64encode(hashlib.sha256(data).digest()).decode().rstrip('=')},{len(data)}\n"
        for name, data in files.items()
    )
    files[f"{about}/RECORD"] = (record + f"{about}/RECORD,,\n").encode()
    name = f"{stem}-py3-none-{machine}.whl"
    with zipfile.ZipFile(pathlib.Path(wheel_directory) / name, "w", zipfile.ZIP_DEFLATED) as wheel:
        for path, data in files.items():
            wheel.writestr(path, data)
    return name


def build_wheel(wheel_directory, config_settings=None, metadata_directory=None):
    """Writes the wheel (PEP 517), and answers its name."""
    files = {f"pcm/{file.name}": file.read_bytes() for file in sorted((HERE / "pcm").iterdir()) if file.suffix in (".py", ".c", ".h")}
    files["pcm/py.typed"] = b""
    if not LIBRARY.is_file():
        return _built(wheel_directory, files)
    return _built(wheel_directory, {**files, f"pcm/{LIBRARY.name}": LIBRARY.read_bytes()}, re.sub("[-.]", "_", sysconfig.get_platform()))


def build_editable(wheel_directory, config_settings=None, metadata_directory=None):
    """Writes a wheel that has the place of this folder alone, for `pip install -e` (PEP 660), and answers its name."""
    return _built(wheel_directory, {"pcm_of_checkout.pth": f"{HERE}\n".encode()})


def build_sdist(sdist_directory, config_settings=None):
    """Source packages aren't made: the repository is the source."""
    raise NotImplementedError("install from the checkout: pip install ./python")
