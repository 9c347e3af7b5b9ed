"""The Debian package of an archive."""

import gzip
import os
import shutil
import subprocess

CONTROL = """Package: joshuapool
Version: {version}
Architecture: amd64
Maintainer: Joshuapool maintainers <maintainers@users.noreply.joshuapool.example>
Depends: libc6 (>= 2.34)
Section: devel
Priority: optional
Installed-Size: {size}
Description: compiler of ISLE rules whose trees are proved
 Checks, explains, runs and compiles rules of ISLE, the language of Cranelift's
 instruction selection: the command isle, a server for editors, and libraries
 for C and for build scripts in Rust.
"""

# Where the parts of the archive's folder share stand in the package.
PLACES = {
    "man/man1/isle.1": "usr/share/man/man1/isle.1.gz",
    "bash-completion/completions/isle": "usr/share/bash-completion/completions/isle",
    "zsh/site-functions/_isle": "usr/share/zsh/vendor-completions/_isle",
    "fish/vendor_completions.d/isle.fish": "usr/share/fish/vendor_completions.d/isle.fish",
}


def package(root, to, version, time):
    """Makes the package of an unpacked archive, and answers its path in a list, which is empty where there is no dpkg-deb."""
    if not shutil.which("dpkg-deb"):
        print("no Debian package: there is no dpkg-deb")
        return []
    tree = f"{root}.deb"
    home = f"{tree}/usr/lib/joshuapool"
    shutil.copytree(root, home)
    for path, place in PLACES.items():
        move(f"{home}/share/{path}", f"{tree}/{place}")
    shutil.rmtree(f"{home}/share")
    os.remove(f"{home}/SHA256SUMS")
    os.makedirs(f"{tree}/usr/bin")
    for name in ("isle", "isle-tree"):
        os.symlink(f"../lib/joshuapool/{name}", f"{tree}/usr/bin/{name}")
    os.makedirs(f"{tree}/usr/share/doc/joshuapool")
    shutil.copyfile(f"{home}/LICENSE", f"{tree}/usr/share/doc/joshuapool/copyright")
    os.mkdir(f"{tree}/DEBIAN")
    with open(f"{tree}/DEBIAN/control", "w") as file:
        file.write(CONTROL.format(version=version, size=size_of(tree)))
    for folder, _, _ in os.walk(tree):
        os.chmod(folder, 0o755)
    package = f"{to}/joshuapool_{version}_amd64.deb"
    words = ["dpkg-deb", "--root-owner-group", "--build", tree, package]
    subprocess.run(words, check=True, stdout=subprocess.DEVNULL, env={**os.environ, "SOURCE_DATE_EPOCH": str(time)})
    return [package]


def move(path, place):
    """Moves a file to its place, packed where the place is."""
    os.makedirs(os.path.dirname(place), exist_ok=True)
    if not place.endswith(".gz"):
        shutil.move(path, place)
        return
    with open(path, "rb") as file, open(place, "wb") as raw, gzip.GzipFile("", "wb", mtime=0, fileobj=raw) as packed:
        packed.write(file.read())


def size_of(tree):
    """The size of all files in kibibytes."""
    paths = [f"{folder}/{name}" for folder, _, names in os.walk(tree) for name in names]
    return sum((os.lstat(path).st_size + 1023) // 1024 for path in paths)
