"""What an installed tree has, and where: used by tools/install and tools/dist.

    bin/pcm                     the wrapper, as ./pcm is
    libexec/pcm/                the programs
    share/pcm/                  README.md, docs/, examples/, c/ and python/pcm as in the repository, VERSION, and a link pcm to the wrapper: so links
                                lead on, and in a copy of it each recipe works as it is written; sentences of USING.md name pcm, not ./pcm
    share/man/man1/             pcm.1, pcm-stream.1, pcm-explain.1, pcm-view.1, pcm-disk.1 and pcm-parts.1
    share/bash-completion/completions/pcm, share/zsh/site-functions/_pcm
    include/                    pcm_stream.h and its like, for drivers in C and C++, and for SystemC
    bin/cut-firmware            with lib/pcm/pcm_copy.so and cut-firmware.1, where they could be built
    lib/                        libpcm.a, libpcm.so and pkgconfig/pcm.pc, by which programs in C link the module, where they could be built
    share/pcm/sv/               for SystemVerilog"""
import os
import pathlib
import re
import shutil
import subprocess
import sys

import crates
import pages

TOP = crates.TOP
FIRMWARE = TOP / "examples" / "firmware"
LIBRARY = TOP / "crates" / "pcm_c" / "out"
# What the loader looks for, by the name in the shared object.
LOADED = "libpcm.so.1"
PROGRAMS = ("pcm_cli", *(f"pcm_{it}" for it in pages.table().ALONE))


def built(name):
    return TOP / "crates" / name / "out" / name


def readme():
    """The repository's first page, without links to what stays there."""
    text = (TOP / "README.md").read_text(encoding="utf-8")
    return re.sub(r"\[([^]]*)\]\((crates/[^)]*)\)", r"\1 (in the repository)", text).encode()


# What USING.md says of a checkout, and what stands there in a tree.
OF_A_CHECKOUT = {
    "at the top of the repository": "in a copy of share/pcm (`pcm help` says how to make one)",
    "`tools/build library` makes it; installed: ": "",
    "; `pip install ./python` installs it": "",
}


def using():
    """USING.md for whom there is no checkout: its blocks are for a copy of the tree, which has ./pcm, its sentences name pcm."""
    text = pages.USING.read_text(encoding="utf-8")
    for here, there in OF_A_CHECKOUT.items():
        text = text.replace(here, there)
    parts = re.split(r"(?ms)(^```.*?^```$|^    [^\n]*$)", text)
    return "".join(part if at % 2 else part.replace("./pcm", "pcm") for at, part in enumerate(parts)).encode()


def texts():
    """What a reader has: documents with their pictures, examples, and the drivers in C, without what was made there."""
    for folder, kinds in (("docs", {".md", ".svg", ".png", "names"}), ("examples", None), ("c", None)):
        for it in sorted((TOP / folder).rglob("*")):
            if it.is_file() and not {"out", "__pycache__"} & set(it.parts) and (kinds is None or (it.suffix or it.name) in kinds):
                yield f"share/pcm/{it.relative_to(TOP)}", using() if it == pages.USING else it, os.access(it, os.X_OK)


def build_firmware():
    """Builds what cuts the power under firmware, where its tools are here; else it says that it isn't there."""
    if not FIRMWARE.is_dir():
        return
    try:
        built_it = subprocess.run(["make", "-s", "-C", FIRMWARE], stdout=subprocess.DEVNULL, stderr=subprocess.DEVNULL).returncode == 0
    except OSError:
        built_it = False
    if not built_it:
        print("cut-firmware is left out: it wants make, g++ and unicorn/unicorn.h (Debian: libunicorn-dev)", file=sys.stderr)
        for name in ("cut-firmware", "pcm_copy.so"):
            (FIRMWARE / "out" / name).unlink(missing_ok=True)


def firmware():
    """What cuts the power under firmware, where it is built, as `files` has it."""
    for name, path, runs in (("cut-firmware", "bin/cut-firmware", True), ("pcm_copy.so", "lib/pcm/pcm_copy.so", False)):
        if (FIRMWARE / "out" / name).is_file():
            yield path, FIRMWARE / "out" / name, runs
    if (FIRMWARE / "out" / "cut-firmware").is_file():
        for name, made in pages.FIRMWARE.items():
            yield f"share/man/man1/{name}", made().encode(), False


def build_library(*how):
    """Builds the module as a library for C, where a compiler is here; else it says that it isn't there. Its status where the build fails."""
    if "pcm_c" not in crates.listed():
        return 0
    if shutil.which("cc") and shutil.which("ar"):
        return subprocess.run([TOP / "tools" / "build", *how, "library"]).returncode
    print("libpcm is left out: it wants cc and ar (Debian: gcc binutils)", file=sys.stderr)
    for name in ("libpcm.a", LOADED):
        (LIBRARY / name).unlink(missing_ok=True)
    return 0


def found_by():
    """What pkg-config reads of the library; it goes by where it stands itself."""
    version = (TOP / "VERSION").read_text(encoding="utf-8").strip()
    lines = ("prefix=${pcfiledir}/../..", "", "Name: pcm", "Description: A proved phase-change memory module", f"Version: {version}")
    return "".join(f"{it}\n" for it in (*lines, "Libs: -L${prefix}/lib -lpcm", "Cflags: -I${prefix}/include")).encode()


def library():
    """The library for C, where it is built, as `files` has it."""
    if (LIBRARY / LOADED).is_file():
        yield "lib/libpcm.a", LIBRARY / "libpcm.a", False
        yield f"lib/{LOADED}", LIBRARY / LOADED, False
        yield "lib/pkgconfig/pcm.pc", found_by(), False


def files():
    """Each file by its path in the tree: its bytes or the file that it is copied from, and whether it is run."""
    yield "bin/pcm", TOP / "pcm", True
    for name in PROGRAMS:
        yield f"libexec/pcm/{name}", built(name), True
    yield "share/pcm/README.md", readme(), False
    yield from texts()
    yield "share/pcm/VERSION", TOP / "VERSION", False
    for it in sorted(it for it in (TOP / "python" / "pcm").iterdir() if it.suffix in (".py", ".c", ".h")):
        yield f"share/pcm/python/pcm/{it.name}", it, False
    for name in pages.MANUAL:
        yield f"share/man/man1/{name}", pages.PAGES[name]().encode(), False
    yield "share/bash-completion/completions/pcm", pages.bash().encode(), False
    yield "share/zsh/site-functions/_pcm", pages.zsh().encode(), False
    for it in sorted((TOP / "c").glob("pcm*.h")):
        yield f"include/{it.name}", it, False
    yield from firmware()
    yield from library()
    for it in sorted((TOP / "sv").glob("pcm_*")):
        yield f"share/pcm/sv/{it.name}", it, False


def links():
    """Each link by its path in the tree, and what it leads to: the package looks for the wrapper where a checkout has it."""
    yield "share/pcm/pcm", "../../bin/pcm"
    if (LIBRARY / LOADED).is_file():
        yield "lib/libpcm.so", LOADED


def place(source, target, runs):
    """Puts one file into a tree, whole at once, for all to read."""
    new = target.with_name(f".{target.name}.new")
    if isinstance(source, bytes):
        new.write_bytes(source)
    else:
        shutil.copyfile(source, new)
    new.chmod(0o755 if runs else 0o644)
    new.replace(target)


def make_folder(folder):
    """Makes a folder with those above it, for all to read; answers those that weren't there, the uppermost first."""
    made = [it for it in (folder, *folder.parents) if not it.exists()][::-1]
    for it in made:
        it.mkdir()
        it.chmod(0o755)
    return made


def link(root):
    """Makes the links of a tree; answers their paths."""
    for path, target in links():
        (pathlib.Path(root) / path).unlink(missing_ok=True)
        (pathlib.Path(root) / path).symlink_to(target)
    return [path for path, _ in links()]
