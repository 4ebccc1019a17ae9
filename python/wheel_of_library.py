"""Makes the wheel of a library: it has the Python module and the commands for printing too. No other package is needed for it.

    wheel_of_library.py VERSION LIBRARY FOLDER

`make wheel` calls it so. As a build backend (`pip wheel python/`) it takes the library that `make library` left.
"""

import base64
import csv
import glob
import hashlib
import io
import os
import sys
import zipfile

HERE = os.path.dirname(os.path.abspath(__file__))
COMMANDS = os.path.join(HERE, "..", "commands", "stlslice_commands")
# The machines of ELF files, by their number. The library asks for no symbol of a later C library than 2.17.
ELF_MACHINES = {62: "manylinux_2_17_x86_64", 183: "manylinux_2_17_aarch64"}


def machine_of(library):
    """The machine that a library is for, as wheels name it: a DLL is for Windows on x86-64."""
    with open(library, "rb") as file:
        head = file.read(20)
    return "win_amd64" if head[:2] == b"MZ" else ELF_MACHINES[head[18]]


def made(version, library, folder):
    """The name of the wheel that was put into a folder. The same files give the same bytes."""
    info, tag = f"stlslice-{version}.dist-info", f"py3-none-{machine_of(library)}"
    # the name by which the module finds it
    named = "stlslice.dll" if tag.endswith("win_amd64") else "libstlslice.so.1"
    files = {f"stlslice/{named}": library, f"{info}/LICENSE": os.path.join(HERE, "..", "LICENSE")}
    files.update((f"stlslice/{os.path.basename(it)}", it) for it in sorted(glob.glob(f"{HERE}/stlslice/*.*")))
    files.update((f"stlslice_commands/{os.path.basename(it)}", it) for it in sorted(glob.glob(f"{COMMANDS}/*.*")))
    content = {}
    for name, path in files.items():
        with open(path, "rb") as file:
            content[name] = file.read()
    content[f"{info}/METADATA"] = (
        f"Metadata-Version: 2.1\nName: stlslice\nVersion: {version}\n"
        "Summary: Exact slices of a closed mesh, layer by layer, as numpy arrays\n"
        "License: MIT\nClassifier: Programming Language :: Python :: 3\nClassifier: Typing :: Typed\n"
        "Requires-Python: >=3.8\nProvides-Extra: numpy\nRequires-Dist: numpy >=1.17 ; extra == 'numpy'\n").encode()
    content[f"{info}/WHEEL"] = f"Wheel-Version: 1.0\nGenerator: stlslice\nRoot-Is-Purelib: false\nTag: {tag}\n".encode()
    scripts = "".join(f"stlslice-{it} = stlslice_commands.{it}:run\n" for it in ("sl1", "pngs", "page"))
    content[f"{info}/entry_points.txt"] = f"[console_scripts]\n{scripts}".encode()
    record = io.StringIO()
    rows = csv.writer(record, lineterminator="\n")
    for name, text in content.items():
        hashed = base64.urlsafe_b64encode(hashlib.sha256(text).digest()).rstrip(b"=").decode()
        rows.writerow([name, f"sha256={hashed}", len(text)])
    rows.writerow([f"{info}/RECORD", "", ""])
    content[f"{info}/RECORD"] = record.getvalue().encode()
    wheel = f"stlslice-{version}-{tag}.whl"
    with zipfile.ZipFile(os.path.join(folder, wheel), "w", zipfile.ZIP_DEFLATED) as zipped:
        for name, text in content.items():
            entry = zipfile.ZipInfo(name)
            entry.compress_type = zipfile.ZIP_DEFLATED
            entry.external_attr = (0o100755 if name.endswith(named) else 0o100644) << 16
            zipped.writestr(entry, text)
    return wheel


def get_requires_for_build_wheel(config_settings=None):
    return []


def build_wheel(wheel_directory, config_settings=None, metadata_directory=None):
    folder = os.path.join(HERE, "..", "build", "library")
    built = sorted(glob.glob(os.path.join(glob.escape(folder), "libstlslice.so.*.*")))
    if not built:
        raise FileNotFoundError("there is no library: make library makes it")
    return made(built[0].rpartition(".so.")[2], built[0], wheel_directory)


if __name__ == "__main__":
    print(os.path.join(sys.argv[3], made(*sys.argv[1:])))
