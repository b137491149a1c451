"""What `make install` and `make uninstall` do: in a folder that is taken for the root, and in a system."""

from __future__ import annotations

import re
import stat
import subprocess
from collections.abc import Iterator
from pathlib import Path

from common.crates import TOP, crates_below, kit, of_kit
from common.served import same
from usage.completing import Shell, completed_by_fish
from usage.fresh_system import System, run
from usage.packaged import check_serving, differing, trace

PREFIX = "/usr/local"
ENVIRONMENT = "etc/default/pnuts"
FEEDS = ("kafka", "postgres-outbox", "rabbitmq-stream", "redis-stream")
FILES = {
    "bin/pnuts": 0o755,
    "bin/pnuts-ctl": 0o755,
    "bin/pnuts-http": 0o755,
    ENVIRONMENT: 0o644,
    f"{ENVIRONMENT}-http": 0o644,
    **{f"lib/systemd/system/{it}": 0o644 for it in ("pnuts-exporter.service", "pnuts-feed@.service", "pnuts-http.service",
                                                            "pnuts-save.service", "pnuts-save.timer")},
    "lib/systemd/system/pnuts.service": 0o644,
    "lib/sysusers.d/pnuts-http.conf": 0o644,
    "lib/sysusers.d/pnuts.conf": 0o644,
    **{f"share/pnuts-feeds/{name}": 0o755 for name in FEEDS},
    **{f"share/pnuts-feeds/feed/{path.name}": 0o644 for path in (TOP / "feeds/feed").glob("*.py")},
    **{f"share/pnuts-tools/pnuts_client/{path.name}": 0o644 for path in (TOP / "clients/python/src/pnuts_client").glob("*.*")
       if path.suffix in (".py", ".css", ".js")},
    "share/doc/pnuts-feeds/README.md": 0o644,
    "share/doc/pnuts-http/openapi.json": 0o644,
    "share/doc/pnuts-http/third-party": 0o644,
    "share/doc/pnuts/third-party": 0o644,
    "share/man/man1/pnuts.1": 0o644,
    "share/man/man5/pnuts-formats.5": 0o644,
    "share/man/man8/pnuts-ctl.8": 0o644,
    "share/man/man8/pnuts-http.8": 0o644,
    "share/man/man8/pnuts.8": 0o644,
    "share/pnuts-feeds/postgres-outbox.sql": 0o644,
    "share/pnuts-feeds/postgres-table.sql": 0o644,
    **{f"share/pnuts-tools/pnuts.{it}": 0o644 for it in ("dashboard.json", "rules.yml", "tests.yml")},
    "share/pnuts-tools/container": 0o755,
    **{f"share/{shown}": 0o644 for it in ("pnuts", "pnuts-ctl")
       for shown in (f"bash-completion/completions/{it}", f"fish/vendor_completions.d/{it}.fish", f"zsh/site-functions/_{it}")},
}
# Where each shell finds the completion of a program.
SHELLS = {
    "bash": "share/bash-completion/completions/{}",
    "zsh": "share/zsh/site-functions/_{}",
    "fish": "share/fish/vendor_completions.d/{}.fish",
}

# A line that is typed, and what each shell makes of its last word, in no order and without a stream's name.
COMPLETIONS = {
    "pnuts -": {"--help", "--version", "-V", "-h"},
    "pnuts h": {"help"},
    "pnuts help s": {"serve"},
    "pnuts r": {"replay"},
    "pnuts c": {"check"},
    "pnuts s": {"serve"},
    "pnuts serve --b": {"--bounds"},
    "pnuts serve --co": {"--connections", "--control", "--copies"},
    "pnuts serve --copies m": {"messages"},
    "pnuts serve --stay --control m": {"messages"},
    "pnuts serve --s": {"--sessions", "--socket", "--socket-mode", "--stay"},
    "pnuts serve --socket-mode ": set(),
    "pnuts serve --socket m": {"messages"},
    "pnuts serve --stay --idle ": set(),
    "pnuts replay --w": {"--workers"},
    "pnuts serve --workers ": set(),
    "pnuts serve east=": {"a folder", "messages"},
    "pnuts serve east=m": {"messages"},
    "pnuts serve --stay east=listen:": {"a folder", "messages"},
    "pnuts serve --stay east=listen:m": {"messages"},
    "pnuts serve east=messages --po": {"--port"},
    "pnuts steal ": set(),
    "pnuts-ctl -": {"--control", "--help", "--json", "-h"},
    "pnuts-ctl st": {"status", "stop"},
    "pnuts-ctl --json st": {"status", "stop"},
    "pnuts-ctl --control m": {"messages"},
    "pnuts-ctl --control messages re": {"ready", "recover"},
    "pnuts-ctl save m": {"messages"},
    "pnuts-ctl save --f": {"--from"},
    "pnuts-ctl save --from ": set(),
    "pnuts-ctl save messages --e": {"--every"},
    "pnuts-ctl tablets --copies m": {"messages"},
    "pnuts-ctl exporter --l": {"--lag", "--listen"},
    "pnuts-ctl steal ": set(),
}

# How `pnuts --version` ends where the program is not proved.
NOT_PROVED = " (not proved)\n"

# What docs/installing.md tells the administrator to do begins so.
TOLD = "    sudo "


def files_in(folder: Path) -> dict[str, int]:
    """The files below a folder, and what may be done with each."""
    found = (path for path in folder.rglob("*") if not path.is_dir())
    return {str(path.relative_to(folder)): stat.S_IMODE(path.stat().st_mode) for path in found}


def make(target: str, folder: Path, program: Path) -> str:
    return run(["make", "-C", TOP, target, f"PREFIX={PREFIX}", f"DESTDIR={folder}", f"PNUTS={program}"])


def check_unit(installed: Path) -> None:
    """The units name the paths that programs and environment files have once they are installed, and so does their page."""
    units, page = installed / "lib/systemd/system", (installed / "share/man/man8/pnuts.8").read_text(encoding="utf-8")
    unit, feed = ((units / it).read_text(encoding="utf-8") for it in ("pnuts.service", "pnuts-feed@.service"))
    found = [it.split(" ")[0] for it in unit.splitlines() if it.startswith(("ExecStart=", "EnvironmentFile="))]
    same("the unit", found, [f"EnvironmentFile={PREFIX}/{ENVIRONMENT}", "EnvironmentFile=-%t/pnuts/start", f"ExecStart={PREFIX}/bin/pnuts"])
    same("whether the feeds' unit names both", [it in feed for it in (f"={PREFIX}/{ENVIRONMENT}-feed-%i\n", f" {PREFIX}/share/pnuts-feeds/$")], [True] * 2)
    front = (units / "pnuts-http.service").read_text(encoding="utf-8")
    same("whether the front's unit names both", [it in front for it in (f"={PREFIX}/{ENVIRONMENT}-http\n", f"={PREFIX}/bin/pnuts-http $")], [True] * 2)
    same("paths that are not filled in", re.findall("@[A-Z]+@", unit + feed + front + page), [])
    same("whether its page names the environment file", f"{PREFIX}/{ENVIRONMENT}" in page, True)


def check_pages(share: Path) -> None:
    """The pages can be read, and `man` has nothing to say against them."""
    pages = {"man1/pnuts.1": "EXIT STATUS", "man5/pnuts-formats.5": "REFUSALS", "man8/pnuts.8": "SIGNALS", "man8/pnuts-ctl.8": "COMMANDS",
             "man8/pnuts-http.8": "OPTIONS"}
    for page, words in pages.items():
        shown = run(["man", "--warnings", "--encoding=UTF-8", "--local-file", share / "man" / page])
        same(f"the page {page}", [it for it in shown.splitlines() if "warning:" in it or it == words], [words])


def completions_of(shell: str, program: str, completion: Path, folder: Path) -> dict[str, set[str]]:
    """What a shell makes of the last word of each line of a program."""
    lines = [line for line in COMPLETIONS if line.split()[0] == program]
    if shell == "fish":
        found = {line: completed_by_fish(completion, folder, line) for line in lines}
    else:
        with Shell(shell, program, completion, folder) as running:
            found = {line: running.completed(line)[line.count(" ") :] for line in lines}
    return {line: {it.removeprefix("east=").removeprefix("listen:").removesuffix("/") for it in words} for line, words in found.items()}


def check_completions(installed: Path, folder: Path) -> None:
    (folder / "a folder").mkdir(parents=True)
    (folder / "messages").touch()
    for shell, path in SHELLS.items():
        found = {line: words for program in ("pnuts", "pnuts-ctl") for line, words in completions_of(shell, program, installed / path.format(program), folder).items()}
        same(f"completions of {shell}", found, COMPLETIONS)


def check_licences(text: str, program: Path) -> int:
    """The libraries that crates.txt leads to are listed, and no others, each with all its texts. How many.

    Those that the names of the program's functions begin with are among them.
    """
    crates = crates_below("pnuts")
    lines = dict(re.findall(r"^(\w+): (.*)$", text.partition("----")[0], re.MULTILINE))
    same("libraries that are linked", sorted(lines), of_kit(crates))
    same("others in the program", set(re.findall(r" (\w+)::", run(["nm", program]))) - crates.keys() - lines.keys(), set())
    for library, names in lines.items():
        found = sorted(it for it in (kit() / "rattle" / library).iterdir() if re.match("licen|copy|notice", it.name, re.IGNORECASE))
        same(f"licences of {library}", names.split() if found else [], [it.name for it in found])
        missing = [it for it in found if it.read_text(encoding="utf-8").strip() not in text]
        same(f"licences of {library} that are not whole", missing, [])
    return len(lines)


def check_quick(folder: Path) -> Iterator[str]:
    """Builds the program without proofs, and a package of it, with a section that `dwz` cannot read."""
    run(["make", "-C", TOP, "quick"])
    quick = TOP / "out/quick/pnuts"
    same("the end of its version", run([quick, "--version"]).endswith(NOT_PROVED), True)
    script, replies = (TOP / "crates/pnuts" / name for name in ("stdin", "stdout"))
    with script.open("rb") as lines:
        same("its replies", subprocess.run([quick, "replay"], stdin=lines, capture_output=True).stdout, replies.read_bytes())
    make("install", folder / "root", quick)
    same("the end of the version that is installed", run([folder / "root" / PREFIX[1:] / "bin/pnuts", "--version"]).endswith(NOT_PROVED), True)
    run(["objcopy", "--add-section", f".debug_str_offsets={script}", quick, folder / "pnuts"])
    run(["make", "-C", TOP, "deb", f"DEBS={folder}", f"PNUTS={folder}/pnuts"])
    (package,) = folder.glob("pnuts_*.deb")
    _, version, _ = package.name.split("_")
    run(["dpkg", "--compare-versions", version, "lt", version.removesuffix("~quick")])
    yield f"make quick: says that it is not proved, answers the script, and a proved package replaces its {package.name}"


def check_make_install(program: Path, folder: Path) -> Iterator[str]:
    """Installs, looks at what is there, and removes it. Says what was done."""
    root = folder / "root"
    installed = root / PREFIX[1:]
    make("http", root, program)
    make("install", root, program)
    same("installed files", files_in(installed), FILES)
    same("the installed program", (installed / "bin/pnuts").read_bytes() == program.read_bytes(), True)
    same("files elsewhere", len(files_in(root)), len(FILES))
    yield f"make install: {len(FILES)} files, and none elsewhere"
    check_unit(installed)
    check_pages(installed / "share")
    yield "man reads all pages without a warning"
    check_completions(installed, folder / "typing")
    yield f"{', '.join(SHELLS)} complete {len(COMPLETIONS)} lines alike"
    count = check_licences((installed / "share/doc/pnuts/third-party").read_text(encoding="utf-8"), program)
    yield f"the licences of {count} libraries are those that crates.txt leads to"
    environment = installed / ENVIRONMENT
    as_it_was = environment.read_bytes()
    environment.write_text("changed\n")
    make("install", root, program)
    make("uninstall", root, program)
    same("files left", (files_in(installed), environment.read_text()), ({ENVIRONMENT: 0o644}, "changed\n"))
    environment.write_bytes(as_it_was)
    make("uninstall", root, program)
    same("files left", files_in(root), {})
    own = ("share/doc/pnuts", "share/doc/pnuts-feeds", "share/doc/pnuts-http", "share/pnuts-feeds", "share/pnuts-tools")
    left = [name for name in own if (installed / name).exists()]
    same("which folders of its own are left", left, [])
    yield "make uninstall: a changed environment file is kept, and all else removed"


def check_told(system: System, program: Path) -> Iterator[str]:
    """Does in a system what the document on installing tells the administrator to do, and looks whether it serves in between."""
    before = trace(system.root)
    lines = (TOP / "docs/installing.md").read_text(encoding="utf-8").splitlines()
    told = [line.removeprefix(TOLD).split() for line in lines if line.startswith(TOLD)]
    for command, *words in told:
        if command == "make":
            make(words[0], system.root, program)
        else:
            system.run(command, *words)
        if "enable" in words:
            check_serving(system)
    same("files that differ", {it for it in differing(system.root, before) if not (system.root / it).is_dir()}, set())
    yield f"did the {len(told)} lines of docs/installing.md: it serves in between, and no file is left"
