"""What is in a release: for each path (mode, bytes), or the target of a link. The archive, the package for Debian, the wheel, the colours
for VS Code and the bundle for a class are made of these.
"""

import os
import re
import subprocess

import manual
import options
from program import load

TOP = os.path.dirname(os.path.dirname(os.path.realpath(__file__)))
# The scripts that are commands, by their names in tools/.
COMMANDS = ["by-value", "check-calls", "check-circuit", "check-workers", "draw-net", "run-many", "show-walk", "why"]
# What the Python package has of tools/.
PARTS = ["by-value", "draw-net", "options.json", "program.py", "why"]
# The crates of the kit that are linked in, as `rt` lists them by `statements NAME`, and its libraries.
LINKED = "atomic_table clap core crossbeam_utils io itoa libc os std std_alloc std_collections std_heap std_io strsim".split()
LINKED += ["ucd_derived", "ucd_table", "unicode_ident", "liblibc_c.a", "libos_c.a"]
# The documents, as files and folders of the checkout.
DOCUMENTS = ["docs", "README.md", "CHANGELOG.md", "CONTRIBUTING.md", "CITATION.cff", "c/README.md", "bench/RESULTS.md", "bench/NOTES.md"]
# The pages of the lessons, with what tools/show-walk is given. By one worker a page is the same each time.
WALKS = {name: [] for name in ("named", "double", "door", "apply", "sum", "unfolded", "fibonacci")}
WALKS["tree"] = "--budget 10000000 --from 1000000 --most 30000".split()
# The page to which the lessons link, as they name it.
LIVE = b"](../../out/goi.html"

WRAPPER = b"""#!/bin/sh
# Runs goi with the caller's words; the status is the program's. tools/limit.sh says what a run may take and gets.
me=$0
case $me in */*) ;; *) me=./$me ;; esac
[ ! -L "$me" ] || me=$(readlink -f -- "$me")
here=${me%/*}/..
. "$here/share/goi/tools/limit.sh"
limit
widen "$@"
exec "$here/libexec/goi/goi" "$@"
"""


def read(*path):
    with open(os.path.join(TOP, *path), "rb") as it:
        return it.read()


def walk_page():
    """The page of a walk, without one, as tools/walk/build makes it."""
    return load(os.path.join(TOP, "tools", "walk", "build")).page().encode()


def tracked(*paths):
    """The files of the repository at these paths."""
    told = subprocess.run(["git", "-C", TOP, "ls-files", "-z", *paths], capture_output=True, text=True, check=True).stdout
    return [it for it in told.split("\0") if it]


def mode_of(path):
    return 0o755 if os.access(os.path.join(TOP, path), os.X_OK) else 0o644


def licences(kit):
    """The licence texts that are known: of goi, and by crate of what is linked in."""
    found = {it: read(it) for it in ("COPYING", "LICENSE", "LICENSE-APACHE", "LICENSE-MIT")}
    for name in LINKED:
        at = os.path.join(kit, "rattle", name)
        for file in sorted(os.listdir(at)) if os.path.isdir(at) else ():
            if file.startswith("LICENSE"):
                with open(os.path.join(at, file), "rb") as it:
                    found[f"licenses/{name}.{file}"] = it.read()
    return found


def without_licence(kit):
    """What is linked in and has no licence text that we know."""
    known = {it.split("/")[1].split(".")[0] for it in licences(kit) if "/" in it}
    return [it for it in LINKED if it not in known]


def python_package(version):
    """The files of the Python package, without the library."""
    tree = {f"goi/{it}": (0o644, read("c", "goi", it)) for it in ("__init__.py", "notebook.py", "parts.py")}
    tree["goi_pygments.py"] = (0o644, read("c", "goi_pygments.py"))
    for it in PARTS:
        tree[f"goi/parts/{it}"] = (mode_of(f"tools/{it}"), read("tools", it))
    tree["goi/parts/walk.html"] = (0o644, walk_page())
    says = f"Metadata-Version: 2.1\nName: goi\nVersion: {version}\nSummary: A geometry-of-interaction machine for PCF\n"
    says += "License: Apache-2.0 OR MIT\nRequires-Python: >=3.9\nProvides-Extra: notebook\nRequires-Dist: ipython; extra == 'notebook'\n"
    says += "Description-Content-Type: text/markdown\n\n"
    info = f"goi-{version}.dist-info"
    tree[f"{info}/METADATA"] = (0o644, says.encode() + read("c", "README.md"))
    tree[f"{info}/entry_points.txt"] = (0o644, b"[pygments.lexers]\npcf = goi_pygments:PcfLexer\n")
    tree[f"{info}/top_level.txt"] = (0o644, b"goi\ngoi_pygments\n")
    return tree


def whole(given):
    """The tree below a prefix, of what a release was given."""
    major = f"libgoi.so.{given.version.split('.')[0]}"
    tree = {}

    def put(path, data, mode=0o644):
        tree[path] = (mode, data if isinstance(data, bytes) else data.encode())

    # the program, the tools and the pages
    put("bin/goi", WRAPPER, 0o755)
    put("libexec/goi/goi", given.program, 0o755)
    tree["share/goi/goi"] = "../../bin/goi"
    for path in tracked("tools"):
        name = path.split("/", 1)[1]
        # (commands, and what they read; what else is there serves a checkout alone)
        if name in COMMANDS or "/" not in name and name.endswith((".json", ".py", ".sh")) and name != "built.sh":
            put(f"share/goi/{path}", read(path), mode_of(path))
    put("share/goi/tools/walk.html", walk_page())
    for it in COMMANDS:
        tree[f"bin/goi-{it}"] = f"../share/goi/tools/{it}"
    put("share/goi/goi.html", given.page)
    put("share/goi/goi.wasm", given.module)
    put("share/goi/goi.mjs", read("c", "goi.mjs"))
    for path in tracked("examples"):
        put(f"share/goi/{path}", read(path))
    for path in tracked("c/rust"):
        put("share/goi/" + path.split("/", 1)[1], read(path))
    # the documents, as they lie in the checkout, so that their links lead somewhere
    for path in tracked(*DOCUMENTS):
        put(f"share/doc/goi/{path}", read(path).replace(LIVE, b"](../../../../goi/goi.html"))
    tree["share/doc/goi/examples"] = "../../goi/examples"
    for name, text in licences(given.kit).items():
        put(f"share/doc/goi/{name}", text)
    put("share/doc/goi/BUILT", given.built)
    # the libraries
    put("include/goi.h", read("c", "goi.h"))
    put("lib/libgoi.a", given.archive)
    put(f"lib/libgoi.so.{given.version}", given.shared)
    tree[f"lib/{major}"], tree["lib/libgoi.so"] = f"libgoi.so.{given.version}", major
    put("lib/pkgconfig/goi.pc", pkg_config("${pcfiledir}/../..", "${prefix}/lib", given))
    for path, entry in python_package(given.version).items():
        tree[f"lib/python3/dist-packages/{path}"] = entry
    tree[f"lib/python3/dist-packages/goi/{major}"] = f"../../../{major}"
    # the manual
    put("share/man/man1/goi.1", manual.of_program(given.date, given.version))
    for it in COMMANDS:
        put(f"share/man/man1/goi-{it}.1", manual.of_script(it, given.date, given.version))
    page, names = manual.of_header(given.date, given.version)
    put("share/man/man3/goi.3", page)
    for it in names:
        tree[f"share/man/man3/{it}.3"] = "goi.3"
    # shells and editors
    put("share/bash-completion/completions/goi", options.completion("goi.bash"))
    put("share/zsh/site-functions/_goi", options.completion("_goi"))
    put("share/fish/vendor_completions.d/goi.fish", options.completion("goi.fish"))
    for it in ("syntax", "ftdetect", "ftplugin"):
        put(f"share/vim/vimfiles/{it}/pcf.vim", read("release", "vim", it, "pcf.vim"))
    put("share/mime/packages/goi.xml", read("release", "mime", "goi.xml"))
    return tree


def pkg_config(prefix, libdir, given):
    text = read("c", "goi.pc.in").decode().replace("@PREFIX@", prefix).replace("@LIBDIR@", libdir)
    return text.replace("@VERSION@", given.version).replace("@KIT@", given.kit_id)


def extension(version):
    """The files of the extension for VS Code."""
    at = "release/vscode/"
    tree = {path[len(at) :]: (0o644, read(path).replace(b"@VERSION@", version.encode())) for path in tracked(at)}
    tree["LICENSE.txt"] = (0o644, read("LICENSE-MIT"))
    return tree


def class_bundle(given):
    """The lessons with all that their links lead to, and their pages made ready."""
    tree = {"README.txt": (0o644, read("release", "class", "README.txt").replace(b"@VERSION@", given.version.encode()))}
    for path in tracked(*DOCUMENTS, "examples"):
        tree[path] = (0o644, read(path).replace(LIVE, b"](../../goi.html"))
    for name, text in licences(given.kit).items():
        tree[name] = (0o644, text)
    tree["goi.html"] = (0o644, given.page)
    tool = os.path.join(TOP, "tools", "show-walk")
    for name, options in WALKS.items():
        made = subprocess.run([tool, f"examples/{name}.pcf", *options], cwd=TOP, env={**os.environ, "GOI": given.path}, capture_output=True)
        if made.returncode:
            raise RuntimeError(f"show-walk: {made.stderr.decode()[-500:]}")
        tree[f"{name}.html"] = (0o644, made.stdout)
    return tree


def words_of_lessons():
    """The pages that the lessons name, as in `named.html#move=21`."""
    return {it for path in tracked("docs/lessons") for it in re.findall(rb"\b(\w+)\.html\b", read(path))}
