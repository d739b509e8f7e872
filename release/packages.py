"""Writes the files of a release. The same trees give the same bytes: every time is the given one, and every list is sorted."""

import base64
import csv
import gzip
import hashlib
import io
import os
import re
import subprocess
import tarfile
import tempfile
import time
import zipfile

import tree

MAINTAINER = "Nandushelf maintainers <maintainers@users.noreply.nandushelf.example>"
ONE_LINE = "geometry-of-interaction machine for PCF, proved from bytes to bytes"


def packed(data, epoch):
    return gzip.compress(data, 9, mtime=epoch)


def tarball(path, entries, top, epoch):
    """An archive of a tree, below a folder `top`."""

    def entry(name, kind, mode, size=0):
        it = tarfile.TarInfo(f"{top}/{name}" if name else top)
        it.type, it.mode, it.size, it.mtime, it.uname, it.gname = kind, mode, size, epoch, "root", "root"
        return it

    folders = {"/".join(name.split("/")[:at]) for name in entries for at in range(len(name.split("/")))}
    made = io.BytesIO()
    with tarfile.open(fileobj=made, mode="w", format=tarfile.USTAR_FORMAT) as tar:
        for name in sorted(folders | set(entries)):
            if name not in entries:
                tar.addfile(entry(name, tarfile.DIRTYPE, 0o755))
            elif isinstance(entries[name], str):
                it = entry(name, tarfile.SYMTYPE, 0o777)
                it.linkname = entries[name]
                tar.addfile(it)
            else:
                mode, data = entries[name]
                tar.addfile(entry(name, tarfile.REGTYPE, mode, len(data)), io.BytesIO(data))
    with open(path, "wb") as out:
        out.write(packed(made.getvalue(), epoch))


def zipped(path, entries, epoch):
    """A zip of a tree without links. A wheel's own lists come last."""
    with zipfile.ZipFile(path, "w", zipfile.ZIP_DEFLATED, compresslevel=9) as out:
        for name in sorted(entries, key=lambda it: (".dist-info/" in it, it)):
            mode, data = entries[name]
            it = zipfile.ZipInfo(name, time.gmtime(epoch)[:6])
            it.external_attr, it.compress_type, it.create_system = (0o100000 | mode) << 16, zipfile.ZIP_DEFLATED, 3
            out.writestr(it, data)


def wheel(into, given, glibc):
    """The Python package with the library inside."""
    tag = "py3-none-manylinux_%d_%d_x86_64" % glibc
    entries = tree.python_package(given.version)
    entries[f"goi/libgoi.so.{given.version.split('.')[0]}"] = (0o755, given.shared)
    info = f"goi-{given.version}.dist-info"
    says = f"Wheel-Version: 1.0\nGenerator: tools/release\nRoot-Is-Purelib: false\nTag: {tag}\n"
    entries[f"{info}/WHEEL"] = (0o644, says.encode())
    for name, text in tree.licences(given.kit).items():
        entries[f"{info}/licenses/{name.split('/')[-1]}"] = (0o644, text)
    rows = io.StringIO()
    out = csv.writer(rows, lineterminator="\n")
    for name in sorted(entries):
        digest = base64.urlsafe_b64encode(hashlib.sha256(entries[name][1]).digest()).rstrip(b"=").decode()
        out.writerow([name, "sha256=" + digest, len(entries[name][1])])
    out.writerow([f"{info}/RECORD", "", ""])
    entries[f"{info}/RECORD"] = (0o644, rows.getvalue().encode())
    zipped(os.path.join(into, f"goi-{given.version}-{tag}.whl"), entries, given.epoch)


CONTENT_TYPES = """<?xml version="1.0" encoding="utf-8"?>
<Types xmlns="http://schemas.openxmlformats.org/package/2006/content-types">
  <Default Extension=".json" ContentType="application/json"/>
  <Default Extension=".txt" ContentType="text/plain"/>
  <Default Extension=".vsixmanifest" ContentType="text/xml"/>
</Types>
"""
MANIFEST = """<?xml version="1.0" encoding="utf-8"?>
<PackageManifest Version="2.0.0" xmlns="http://schemas.microsoft.com/developer/vsx-schema/2011">
  <Metadata>
    <Identity Language="en-US" Id="goi-pcf" Version="@VERSION@" Publisher="goi"/>
    <DisplayName>PCF, as goi reads it</DisplayName>
    <Description xml:space="preserve">Colours, brackets and comments for .pcf, and the first fault of a program by a task</Description>
    <Categories>Programming Languages</Categories>
    <Properties><Property Id="Microsoft.VisualStudio.Code.Engine" Value="^1.60.0"/></Properties>
  </Metadata>
  <Installation><InstallationTarget Id="Microsoft.VisualStudio.Code"/></Installation>
  <Dependencies/>
  <Assets><Asset Type="Microsoft.VisualStudio.Code.Manifest" Path="extension/package.json" Addressable="true"/></Assets>
</PackageManifest>
"""


def extension(into, version, epoch):
    """The extension for VS Code: a zip with two lists beside the extension's folder."""
    entries = {f"extension/{name}": entry for name, entry in tree.extension(version).items()}
    entries["[Content_Types].xml"] = (0o644, CONTENT_TYPES.encode())
    entries["extension.vsixmanifest"] = (0o644, MANIFEST.replace("@VERSION@", version).encode())
    zipped(os.path.join(into, f"goi-pcf-{version}.vsix"), entries, epoch)


def class_bundle(into, given):
    top = f"goi-class-{given.version}"
    entries = {f"{top}/{name}": entry for name, entry in tree.class_bundle(given).items()}
    zipped(os.path.join(into, f"{top}.zip"), entries, given.epoch)


# ---- the package for Debian

LIBRARIES = "lib/x86_64-linux-gnu"
DESCRIPTION = """ goi reads a program of PCF, checks its types, translates it into a proof net,
 and lets tokens walk the net until a number comes out. It was proved that it
 prints the program's call-by-name value, whatever the number of workers.
 .
 The package has the program, the library for C, C++, Rust and Python with its
 header, pages that show a walk, seven lessons, and colours for editors.
"""
SUGGESTED = "graphviz, iverilog, parallel, python3-ipykernel, python3-pygments, rsync"
COMPILE = '#!/bin/sh\nset -e\nif [ "$1" = configure ] && command -v py3compile >/dev/null; then py3compile -p goi; fi\n'
CLEAN = "#!/bin/sh\nset -e\nif command -v py3clean >/dev/null; then py3clean -p goi; fi\n"


def copyright_of(kit):
    """The list of licences in Debian's form."""

    def quoted(text):
        return "\n".join(" " + (line.rstrip() or ".") for line in text.decode().rstrip().split("\n"))

    found = tree.licences(kit)
    says = "Format: https://www.debian.org/doc/packaging-manuals/copyright-format/1.0/\nUpstream-Name: goi\n\n"
    says += "Files: *\nCopyright: the authors of goi\nLicense: Apache-2.0 or Expat\n\n"
    for name in tree.LINKED:
        kinds = [it.partition(".LICENSE")[2].lstrip("-").lower() for it in found if it.startswith(f"licenses/{name}.LICENSE")]
        if kinds:
            says += f"Files: {name}\nCopyright: its authors\nLicense: {name}-{'-'.join(it or 'only' for it in kinds)}\n"
            says += f" The texts are in /usr/share/doc/goi/licenses, under {name}. It is linked in.\n\n"
        else:
            says += f"Files: {name}\nCopyright: the makers of the Rattle kit\nLicense: {name}-unknown\n"
            says += " It is linked in, and we know of no licence text for it: see /usr/share/doc/goi/COPYING.\n\n"
    says += "License: Apache-2.0 or Expat\n The Apache license, version 2.0, is in /usr/share/common-licenses/Apache-2.0.\n"
    says += " The Expat license:\n .\n"
    return (says + quoted(found["LICENSE-MIT"]) + "\n").encode()


def on_debian(entries, given):
    """The tree where Debian wants its parts, with Debian's own lists."""
    moved = {}
    for path, entry in entries.items():
        if path.startswith("lib/python3/dist-packages/goi/libgoi.so"):
            continue  # the system's library is found without it
        if path in ("share/doc/goi/LICENSE", "share/doc/goi/LICENSE-APACHE", "share/doc/goi/LICENSE-MIT"):
            continue  # they are in the list of licences
        if path.startswith("lib/") and not path.startswith("lib/python3/"):
            path = LIBRARIES + path[3:]
        path = path.replace("share/zsh/site-functions/", "share/zsh/vendor-completions/")
        if path.startswith("share/man/"):
            path += ".gz"
            entry = entry + ".gz" if isinstance(entry, str) else (0o644, packed(entry[1].replace(b"@PREFIX@", b"/usr"), given.epoch))
        moved["usr/" + path] = entry
    config = tree.pkg_config("/usr", "${prefix}/" + LIBRARIES, given)
    # (what the compiler looks through anyhow isn't named)
    moved[f"usr/{LIBRARIES}/pkgconfig/goi.pc"] = (0o644, re.sub(r" *-[IL]\$\{\w+\} *", " ", config).encode())
    day = time.strftime("%a, %d %b %Y %H:%M:%S +0000", time.gmtime(given.epoch))
    log = f"goi ({given.version}) unstable; urgency=medium\n\n  * What changed is in /usr/share/doc/goi/CHANGELOG.md.\n\n"
    log += f" -- {MAINTAINER}  {day}\n"
    moved["usr/share/doc/goi/changelog.gz"] = (0o644, packed(log.encode(), given.epoch))
    moved["usr/share/doc/goi/copyright"] = (0o644, copyright_of(given.kit))
    moved["usr/share/lintian/overrides/goi"] = (0o644, tree.read("release", "debian", "overrides"))
    return moved


def debian(into, entries, given, glibc):
    """The package, by dpkg-deb."""
    moved, version = on_debian(entries, given), given.version
    files = {path: entry for path, entry in moved.items() if not isinstance(entry, str)}
    size = sum((len(data) + 1023) // 1024 for _, data in files.values())
    control = f"Package: goi\nVersion: {version}\nArchitecture: amd64\nMaintainer: {MAINTAINER}\nInstalled-Size: {size}\n"
    control += f"Depends: libc6 (>= {'%d.%d' % glibc}), python3:any (>= 3.9)\nSuggests: {SUGGESTED}\n"
    control += f"Section: science\nPriority: optional\nDescription: {ONE_LINE}\n{DESCRIPTION}"
    own = {"control": (0o644, control), "shlibs": (0o644, f"libgoi {version.split('.')[0]} goi (>= {version})\n")}
    own["md5sums"] = (0o644, "".join(f"{hashlib.md5(files[path][1]).hexdigest()}  {path}\n" for path in sorted(files)))
    own["triggers"] = (0o644, "activate-noawait ldconfig\n")
    own["postinst"], own["prerm"] = (0o755, COMPILE), (0o755, CLEAN)
    moved.update({f"DEBIAN/{name}": (mode, text.encode()) for name, (mode, text) in own.items()})
    path = os.path.join(into, f"goi_{version}_amd64.deb")
    with tempfile.TemporaryDirectory(prefix="goi-deb-") as room:
        lay_out(room, moved)
        # (dpkg-deb gives each file that is younger the time of SOURCE_DATE_EPOCH, and sorts its lists)
        words = ["dpkg-deb", "-Zxz", "--threads-max=1", "--root-owner-group", "--build", room, path]
        subprocess.run(words, check=True, stdout=subprocess.DEVNULL, env={**os.environ, "SOURCE_DATE_EPOCH": str(given.epoch)})


def lay_out(room, entries):
    """Writes a tree into a folder."""
    os.chmod(room, 0o755)
    for path, entry in entries.items():
        at = os.path.join(room, path)
        os.makedirs(os.path.dirname(at), exist_ok=True)
        if isinstance(entry, str):
            os.symlink(entry, at)
            continue
        with open(at, "wb") as it:
            it.write(entry[1])
        os.chmod(at, entry[0])
    for folder, names, _ in os.walk(room):
        for it in names:
            if not os.path.islink(os.path.join(folder, it)):
                os.chmod(os.path.join(folder, it), 0o755)
