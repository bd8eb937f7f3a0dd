"""`make install` into an empty folder: what is installed runs from there, and goes again."""

from __future__ import annotations

import os
import re
import shutil
import subprocess
from pathlib import Path

import pytest
from elftools.elf.elffile import ELFFile
from conftest import EXAMPLES, TOP, started

from murdjohe.core.forms import FORMS
from murdjohe.main import LIBRARIES

RING = EXAMPLES / "ring"


def make(target: str, root: Path, core: str, prefix: str) -> None:
    words = ["make", "-s", "-C", str(TOP), target, f"DESTDIR={root}", f"PREFIX={prefix}", f"CORE={core}"]
    subprocess.run(words, check=True, capture_output=True)


@pytest.mark.parametrize("prefix", ["/usr/local", "/usr", "/opt/planner"])
def test_what_is_installed_runs(tmp_path: Path, core: str, prefix: str) -> None:
    make("install", tmp_path, core, prefix)
    at = tmp_path / prefix[1:]
    command, bare = str(at / "bin" / "murdjohe"), {"MURDJOHE_CORE": "", "PATH": "/usr/bin:/bin"}
    ran = started([command, "check", "plan.toml", "certificate.csv"], RING, b"", **bare)
    assert (ran.status, ran.out) == (1, b"falls L3>A L1>B\n")
    ran = started([command, "check", "certificate.csv", "plan.toml"], RING, b"", **bare)
    assert ran.status == 3 and "the two words are swapped" in ran.err
    lines = started([command, "--version"], RING, b"", **bare).out.decode().splitlines()
    assert lines[1].startswith(f"core {at}/lib/") and not lines[2].endswith("of the checkout")
    pages = (
        "murdjohe.1",
        "murdjohe-lab.1",
        "murdjohe-plan.5",
        "murdjohe-events.5",
        "murdjohe-rows.5",
        "murdjohe-refusals.5",
    )
    for page in pages:
        assert (at / "share" / "man" / f"man{page[-1]}" / page).stat().st_size > 500
    modules = at / "lib" / ("python3" if prefix == "/usr" else "python3.11") / "dist-packages"
    assert (modules / "murdjohe" / "py.typed").exists() and not (modules / "murdjohe" / "refusals.toml").is_symlink()
    script = "import murdjohe; print(murdjohe.gen(2).result.text.count('[[link]]'))"
    ran = started(["/usr/bin/python3", "-c", script], None, b"", PYTHONPATH=str(modules), **bare)
    assert ran.out == b"1\n", ran.err
    ran = started([command, "report", "plan.toml", "events.csv", "-o", str(tmp_path / "page.html")], RING, b"", **bare)
    assert ran.status == 0 and 'id="picture"' in (tmp_path / "page.html").read_text(), ran.err
    (tmp_path / "page.html").unlink()
    assert "murdjohe" in (at / "share" / "bash-completion" / "completions" / "murdjohe").read_text()
    assert all(os.stat(path).st_mode & 0o444 == 0o444 for path in at.rglob("*"))
    make("uninstall", tmp_path, core, prefix)
    assert [path for path in tmp_path.rglob("*") if not path.is_dir()] == []


def test_bash_completes_what_is_installed(tmp_path: Path, core: str) -> None:
    make("install", tmp_path, core, "/usr")
    script = (
        f"PATH={tmp_path}/usr/bin:$PATH; . {tmp_path}/usr/share/bash-completion/completions/murdjohe\n"
        "COMP_WORDS=(murdjohe prio-); COMP_CWORD=1; _murdjohe_completion murdjohe prio- murdjohe; echo ${COMPREPLY[@]}"
    )
    ran = started(["bash", "-c", script])
    assert ran.out.decode().split() == [name for name in FORMS if name.startswith("prio-")]


FAKE_RT = """\
#!/bin/sh
[ "$1" = version ] && exit 0
echo "arguments: $*"
sh -c 'sleep 6' --crate-name sync_ql src/lib.rt &
wait
case $FAKE in fail) echo "the last line"; exit 3 ;; esac
mkdir -p out; printf '#!/bin/sh\\nexit 2\\n' > out/sync_main; chmod 755 out/sync_main
case $FAKE in elf) cp /bin/true out/sync_main ;; esac
"""


def bare_checkout(folder: Path) -> Path:
    """A checkout with what building the program needs, and nothing else."""
    top = folder / "top"
    (top / "packaging").mkdir(parents=True)
    (top / "crates" / "sync_main").mkdir(parents=True)
    for name in ("packaging/build_core", "packaging/no_toolchain", "crates.txt", "Makefile"):
        shutil.copy(TOP / name, top / name)
    return top


@pytest.mark.parametrize("fake", ["", "fail"])
def test_the_program_is_built_where_it_is_not_there(tmp_path: Path, fake: str) -> None:
    (tmp_path / "rt").write_text(FAKE_RT)
    (tmp_path / "rt").chmod(0o755)
    top = bare_checkout(tmp_path)
    ran = started(["make", "-s", "-C", str(top), "core"], None, b"", PATH=f"{tmp_path}:/usr/bin:/bin", FAKE=fake)
    text = ran.out.decode()
    assert re.search(r"some \d+ minutes on \d+ idle processors", text) and "  sync_ql (" in text
    if fake:
        assert ran.status != 0 and "the last line" in ran.err and "rt ends with 3" in ran.err
    else:
        assert ran.status == 0 and text.endswith("is proved and built\n")


def origin(program: Path) -> list[str]:
    """What --version says of a program's commit and toolchain."""
    told = started([str(TOP / "workbench" / "murdjohe"), "--version"], MURDJOHE_CORE=str(program)).out.decode()
    return [line.split(": ", 1)[1] for line in told.splitlines()[2:]]


def git(top: Path, *words: str) -> str:
    words = ("git", "-C", str(top), "-c", "user.name=A", "-c", "user.email=a@example.com", *words)
    return subprocess.run(words, check=True, capture_output=True, text=True).stdout.strip()


def built(folder: Path) -> tuple[Path, Path]:
    """A checkout of one commit in which a program was built, and the program."""
    (folder / "rt").write_text(FAKE_RT.replace("&& exit 0", "&& { echo kit 7; exit 0; }", 1))
    (folder / "rt").chmod(0o755)
    top = bare_checkout(folder)
    (top / ".gitignore").write_text("out/\n/build/\n")
    git(top, "init", "-q")
    git(top, "add", "-A")
    git(top, "commit", "-q", "-m", "one")
    ran = started(["make", "-s", "-C", str(top), "core"], None, b"", PATH=f"{folder}:/usr/bin:/bin", FAKE="elf")
    assert ran.status == 0 and "doesn't say" not in ran.err, ran.err
    return top, top / "crates" / "sync_main" / "out" / "sync_main"


def test_a_program_says_the_commit_that_it_was_built_of(tmp_path: Path) -> None:
    top, program = built(tmp_path)
    commit = git(top, "rev-parse", "HEAD")
    assert origin(program) == [commit, "kit 7"] and started([str(program)]).status == 0
    # (wherever the checkout goes, and wherever the program is put)
    git(top, "commit", "-q", "--allow-empty", "-m", "two")
    moved = Path(shutil.copy(program, tmp_path / "moved"))
    assert origin(program) == origin(moved) == [commit, "kit 7"]
    # (another program that was put there is none of that commit)
    shutil.copy("/bin/true", program)
    assert origin(program) == ["unknown", "unknown"]


def test_a_section_that_is_built_in_changes_nothing_that_is_loaded(tmp_path: Path) -> None:
    _, program = built(tmp_path)
    with open(program, "rb") as after, open("/bin/true", "rb") as before:
        pairs = zip(ELFFile(before).iter_segments(), ELFFile(after).iter_segments(), strict=True)
        skipped = ELFFile(before).header["e_ehsize"]
        for one, other in pairs:
            start = skipped if one.header["p_offset"] == 0 else 0
            assert one.header == other.header and one.data()[start:] == other.data()[start:]


def test_the_commit_of_a_checkout_is_never_that_of_a_program(tmp_path: Path, core: str) -> None:
    program = tmp_path / "other"
    program.write_text("#!/bin/sh\necho commit 0123abcd; echo toolchain kit 9\n")
    program.chmod(0o755)
    assert origin(program) == ["unknown", "unknown"]


def test_without_the_toolchain_that_is_told(tmp_path: Path) -> None:
    build = bare_checkout(tmp_path) / "packaging" / "build_core"
    (tmp_path / "cat").symlink_to("/usr/bin/cat")
    (tmp_path / "sh").symlink_to("/usr/bin/sh")
    ran = started(["/usr/bin/python3", str(build)], None, b"", PATH=str(tmp_path))
    assert ran.status == 1 and ran.err.startswith("There is no command `rt`.")


PIP = ["-m", "pip", "--disable-pip-version-check", "install", "--no-build-isolation", "--no-index", "-q", "-e"]


@pytest.mark.long
def test_a_checkout_installs_into_an_environment(tmp_path: Path, core: str) -> None:
    """`pip install -e workbench`, of a copy of the checkout, with nothing from outside."""
    if subprocess.run(
        ["/usr/bin/python3", "-c", "import ensurepip, setuptools, wheel"], capture_output=True
    ).returncode:
        pytest.skip("there is no python3-venv, python3-setuptools or python3-wheel")
    checkout, room = tmp_path / "checkout", tmp_path / "room"
    for name in ("pyproject.toml", "README.md"):
        (checkout / "workbench").mkdir(parents=True, exist_ok=True)
        shutil.copy(TOP / "workbench" / name, checkout / "workbench" / name)
    ignored = shutil.ignore_patterns("__pycache__", "*.egg-info")
    shutil.copytree(TOP / "workbench" / "src", checkout / "workbench" / "src", symlinks=True, ignore=ignored)
    (checkout / "docs").mkdir()
    shutil.copy(TOP / "docs" / "refusals.toml", checkout / "docs")
    subprocess.run(["/usr/bin/python3", "-m", "venv", "--system-site-packages", str(room)], check=True)
    run = started([str(room / "bin" / "python"), *PIP, str(checkout / "workbench")])
    assert run.status == 0, run.err
    script = "import murdjohe; print(murdjohe.__file__, murdjohe.rank('plan.toml').result.ring)"
    run = started([str(room / "bin" / "python"), "-c", script], RING)
    assert run.out.decode().startswith(f"{checkout}/workbench/src/murdjohe/__init__.py ('L1>B',"), run.err
    run = started([str(room / "bin" / "murdjohe"), "check", "certificate.csv", "plan.toml"], RING)
    assert run.status == 3 and "the two words are swapped" in run.err


def test_the_package_declares_what_it_needs() -> None:
    """What pip is told to need is what Debian's package depends on, but for programs."""
    wanted = (TOP / "workbench" / "packages").read_text().partition("# tests")[0]
    debian = {line.split()[0].removeprefix("python3-") for line in wanted.splitlines() if line.startswith("python3-")}
    (declared,) = re.findall(r"^dependencies = \[(.*)\]$", (TOP / "workbench" / "pyproject.toml").read_text(), re.M)
    assert {re.match(r"[a-z0-9-]+", one.strip(' "'))[0] for one in declared.split(",")} == debian  # type: ignore[index]


def test_a_missing_package_is_told_with_what_installs_it(folder: Path) -> None:
    """Libraries that can't be imported, one or all: a sentence, by whatever needs them."""
    for gone, words in (
        (tuple(LIBRARIES), ["lint", "plan.toml"]),
        (tuple(LIBRARIES), ["rank", "--help"]),
        (("matplotlib",), ["draw", "plan.toml", "-o", "plan.svg"]),
        (("jinja2",), ["orders", "plan.toml", "--template", "t.j2", "-o", "out"]),
    ):
        (folder / "plan.toml").write_bytes((RING / "plan.toml").read_bytes())
        (folder / "t.j2").write_text("{{ element.name }}\n")
        hidden = f"sys.meta_path.insert(0, type('Gone', (), {{'find_spec': staticmethod(gone)}}))"
        script = f"""import sys
def gone(name, path=None, target=None):
    if name.partition('.')[0] in {gone}:
        raise ModuleNotFoundError(f'No module named {{name!r}}', name=name)
{hidden}
import importlib.util
real = importlib.util.find_spec
importlib.util.find_spec = lambda name: None if name in {gone} else real(name)
sys.argv = ['murdjohe', *{words}]
from murdjohe.main import start
start()
"""
        ran = started(["/usr/bin/python3", "-c", script], folder, b"", PYTHONPATH=str(TOP / "workbench" / "src"))
        packages = [f"python3-{LIBRARIES[name]}" for name in gone]
        said = f"{', '.join(packages)} {'is' if len(gone) == 1 else 'are'} not installed"
        assert (ran.status, ran.err) == (69, f"murdjohe: {said}: sudo apt-get install {' '.join(packages)}\n")


def test_the_libraries_are_those_of_the_package() -> None:
    wanted = (TOP / "workbench" / "packages").read_text().partition("# tests")[0]
    assert sorted(LIBRARIES.values()) == sorted(re.findall(r"^python3-(\S+)", wanted, re.M))
