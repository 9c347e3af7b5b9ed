"""Tries an archive, and the Debian package beside it, in empty folders and with an empty environment."""

import hashlib
import json
import os
import re
import shutil
import subprocess
import tarfile
import tempfile



class Trial:
    """What was tried: how many checks passed, and which failed."""

    def __init__(self, top, room):
        self.top = top
        self.room = room
        self.passed = 0
        self.failed = 0
        self.folders = ["/usr/bin", "/bin"]
        os.mkdir(f"{room}/home")

    def check(self, what, holds, why=""):
        """Counts a check, and tells one that fails."""
        if holds:
            self.passed += 1
        else:
            self.failed += 1
            print(f"FAIL {what}{': ' if why else ''}{why}")

    def skip(self, what, why):
        """Tells what isn't tried."""
        print(f"not tried: {what}: {why}")

    def run(self, *words, cwd=None, **more):
        """Runs a command in the empty environment."""
        env = {"PATH": ":".join(self.folders), "HOME": f"{self.room}/home", **more.pop("env", {})}
        how = {"stdout": subprocess.PIPE, "stderr": subprocess.PIPE, "stdin": subprocess.DEVNULL, "timeout": 900}
        if "input" in more:
            del how["stdin"]
        return subprocess.run(words, cwd=cwd or self.room, env=env, **{**how, **more})

    def works(self, what, *words, says=b"", **more):
        """Runs a command that must succeed, and say this."""
        ran = self.run(*words, **more)
        told = (ran.stderr + ran.stdout).decode(errors="replace").strip().split("\n")
        self.check(what, ran.returncode == 0 and says in ran.stdout, f"status {ran.returncode}: {' / '.join(told[-3:])}")
        return ran

    def has(self, command):
        """Whether a command is there in the empty environment."""
        return shutil.which(command, path=":".join(self.folders)) is not None


def try_archive(archive, top):
    """Tries an archive and answers the status: 1 where something fails."""
    with tempfile.TemporaryDirectory() as room:
        trial = Trial(top, room)
        trial.check("no toolchain is on the path", not trial.has("rt"))
        with tarfile.open(archive) as packed:
            packed.extractall(f"{room}/unpacked", filter="tar")
        (name,) = os.listdir(f"{room}/unpacked")
        root = f"{room}/unpacked/{name}"
        try_files(trial, root)
        try_programs(trial, root)
        try_pages(trial, f"{root}/share")
        try_server(trial, root)
        try_c(trial, root)
        try_rust(trial, root)
        try_package(trial, archive)
        print(f"{trial.passed} passed, {trial.failed} failed")
        return 1 if trial.failed else 0


def try_files(trial, root):
    """Each file is as its checksum says, and has one."""
    with open(f"{root}/SHA256SUMS") as sums:
        listed = dict(reversed(line.rstrip("\n").split("  ", 1)) for line in sums)
    files = {os.path.relpath(f"{folder}/{name}", root) for folder, _, names in os.walk(root) for name in names}
    trial.check("all files are listed", files - {"SHA256SUMS"} == set(listed))
    for path, wanted in listed.items():
        with open(f"{root}/{path}", "rb") as file:
            trial.check(path, hashlib.sha256(file.read()).hexdigest() == wanted, "another checksum")
    with open(f"{root}/RELEASE") as file:
        print(file.read().rstrip("\n"))


def try_programs(trial, root):
    """The programs answer, also by a link and from another folder."""
    version = re.search(r"joshuapool-(.*)-x86_64", root)[1]
    isle = f"{root}/isle"
    trial.works("isle --version", isle, "--version", says=f"isle {version} of joshuapool".encode())
    trial.works("isle --help", isle, "--help", says=b"usage: isle TASK")
    trial.works("isle lower", isle, "lower", "examples/add.isle", says=b"term add\n", cwd=root)
    trial.works("isle-tree", f"{root}/isle-tree", "fall", says=b"term f\n")
    os.symlink(isle, f"{trial.room}/link")
    trial.works("isle by a link", f"{trial.room}/link", "check", f"{root}/examples/add.isle")
    wrong = trial.run(isle, "check", "-", input=b"(decl f (u8) u8)\n(rule (f x) y)\n")
    trial.check("an error", wrong.returncode == 1 and b"y" in wrong.stderr)
    # A project file serves its folder and those below, so it stands apart.
    lists = f"{trial.room}/lists"
    os.mkdir(lists)
    with open(f"{lists}/isle.files", "w") as project:
        project.write(f"[add]\n{root}/examples/add.isle\n")
    trial.works("isle by a list", isle, "lower", "add", says=b"term add\n", cwd=lists)
    trial.works("isle rust --stubs", isle, "rust", "--stubs", "add", says=b"pub struct Stubs;\n", cwd=lists)
    # templates in one another, which take stack
    deep = "(decl f (u8) u8) (decl e0 (u8) u8) (extern extractor e0 e0)\n"
    deep += "".join(f"(decl e{i} (u8) u8) (extractor (e{i} x) (e{i - 1} x))\n" for i in range(1, 200)) + "(rule (f (e199 x)) x)\n"
    answered = trial.run(isle, "lower", "-", input=deep.encode())
    trial.check("deep templates", answered.returncode in (0, 1), f"status {answered.returncode}")


def try_pages(trial, share):
    """The man page is one, and shells take their completions."""
    if trial.has("man"):
        ran = trial.run("man", "--warnings", "-l", f"{share}/man/man1/isle.1", env={"LC_ALL": "C.UTF-8", "MANWIDTH": "80"})
        trial.check("the man page", ran.returncode == 0 and not ran.stderr and b"EXIT STATUS" in ran.stdout, ran.stderr.decode())
    else:
        trial.skip("the man page", "there is no man")
    script = 'source "$1"; COMP_WORDS=(isle lo); COMP_CWORD=1; _isle; echo "${COMPREPLY[*]}"; COMP_WORDS=(isle lower --format j); COMP_CWORD=3; _isle; echo "${COMPREPLY[*]}"'
    path = f"{share}/bash-completion/completions/isle"
    trial.check("bash completes", trial.run("bash", "-c", script, "bash", path).stdout == b"lower\njson\n")
    for shell, path in (("zsh", "zsh/site-functions/_isle"), ("fish", "fish/vendor_completions.d/isle.fish")):
        if trial.has(shell):
            trial.works(f"{shell} takes its completions", shell, "-n", f"{share}/{path}")
        else:
            trial.skip(f"the completions for {shell}", f"there is no {shell}")


def message(value):
    """A message to the server."""
    text = json.dumps({"jsonrpc": "2.0", **value})
    return f"Content-Length: {len(text.encode())}\r\n\r\n{text}".encode()


def try_server(trial, root):
    """The server tells an error of an open file; Neovim edits, where it is there."""
    opened = {"uri": "file:///a.isle", "languageId": "isle", "version": 1, "text": "(decl f (u8) u8)\n(rule (f x) y)\n"}
    sent = message({"id": 1, "method": "initialize", "params": {"capabilities": {}, "rootUri": None}})
    sent += message({"method": "initialized", "params": {}})
    sent += message({"method": "textDocument/didOpen", "params": {"textDocument": opened}})
    # The server tells errors once a question comes, or no message is left.
    asked = {"textDocument": {"uri": opened["uri"]}, "position": {"line": 1, "character": 7}}
    sent += message({"id": 2, "method": "textDocument/hover", "params": asked})
    sent += message({"id": 3, "method": "shutdown"}) + message({"method": "exit"})
    ran = trial.run(f"{root}/isle", "lsp", input=sent)
    trial.check("the server", ran.returncode == 0 and b"publishDiagnostics" in ran.stdout and b"Unknown variable" in ran.stdout)
    nvim = shutil.which("nvim")
    if not nvim:
        trial.skip("Neovim", "there is no nvim")
        return
    env = {"ISLE_PROGRAM": f"{root}/isle", "PATH": ":".join([*trial.folders, os.path.dirname(nvim)])}
    trial.works("Neovim", f"{trial.top}/tools/try-editor", env=env)


def try_c(trial, root):
    """A C program is compiled and linked with the library, where the archive has it."""
    compiler = next((name for name in ("cc", "gcc", "clang") if trial.has(name)), None)
    if not os.path.isfile(f"{root}/lib/libisle_capi.a"):
        trial.skip("a C program", "the archive has no library")
    elif not compiler:
        trial.skip("a C program", "there is no C compiler")
    else:
        libraries = [f"{root}/lib/libisle_capi.a", f"{root}/lib/liblibc_c.a"]
        trial.works("a C program is compiled", compiler, "-std=c11", "-o", f"{trial.room}/example", f"{root}/bindings/c/example.c", *libraries)
        trial.works("a C program", f"{trial.room}/example", f"{root}/examples/add.isle", says=b"term add")


def try_rust(trial, root):
    """Cargo builds and tests the examples, by the library where there is one, and by the program."""
    rustc = shutil.which("rustc")
    if not rustc:
        trial.skip("the examples in Rust", "there is no rustc")
        return
    bin_folder = subprocess.run([rustc, "--print", "sysroot"], stdout=subprocess.PIPE, text=True).stdout.strip() + "/bin"
    if not os.path.isfile(f"{bin_folder}/cargo"):
        trial.skip("the examples in Rust", f"there is no cargo in {bin_folder}")
        return
    trial.folders.insert(0, bin_folder)
    for env in ({}, {"ISLE_PROGRAM": f"{root}/isle"}):
        for example in ("toy", "patched"):
            what = f"examples/{example}, by {'ISLE_PROGRAM' if env else 'what the archive has'}"
            env = {**env, "CARGO_TARGET_DIR": f"{trial.room}/target{len(env)}"}
            trial.works(what, "cargo", "test", "--offline", "--locked", cwd=f"{root}/examples/{example}", env=env)


def try_package(trial, archive):
    """The package is installed in an empty system, answers, and leaves nothing when it is removed."""
    version = re.search(r"joshuapool-(.*)-x86_64", archive)[1]
    package = f"{os.path.dirname(archive)}/joshuapool_{version}_amd64.deb"
    if not os.path.isfile(package) or not trial.has("dpkg"):
        trial.skip("the Debian package", "there is no dpkg" if os.path.isfile(package) else f"there is no {package}")
        return
    system = f"{trial.room}/system"
    os.makedirs(f"{system}/var/lib/dpkg/updates")
    os.makedirs(f"{system}/var/lib/dpkg/info")
    for name in ("status", "available"):
        open(f"{system}/var/lib/dpkg/{name}", "w").close()
    # The empty system has no C library of its own, and its scripts and its log are nobody's.
    dpkg = ["dpkg", f"--root={system}", "--force-depends", "--force-not-root", "--log=/dev/null", "--force-script-chrootless"]
    trial.folders += ["/usr/sbin", "/sbin"]
    trial.works("the package is installed", *dpkg, "-i", package)
    trial.works("isle of the package", f"{system}/usr/bin/isle", "samples", "fall", says=b"term f\n")
    trial.works("isle-tree of the package", f"{system}/usr/bin/isle-tree", "fall", says=b"term f\n")
    trial.works("the package is removed", *dpkg, "--purge", "joshuapool")
    left = [name for folder, _, names in os.walk(f"{system}/usr") for name in names]
    trial.check("nothing is left", not left, " ".join(left[:5]))
