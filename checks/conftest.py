"""How pytest tries the checks: what they are told, a folder for each, and what is shown of them."""
import tempfile
from collections.abc import Iterator
from typing import Any

import pytest

from common.parts import OPTIONS, PROGRAMS, abouts, first, modules, program_at
from serving.staying import raise_descriptors


def pytest_addoption(parser: pytest.Parser) -> None:
    group = parser.getgroup("checks")
    for name, about in PROGRAMS.items():
        group.addoption(f"--{name}", type=program_at, help=about)
    for name, words in OPTIONS.items():
        group.addoption(f"--{name}", **words)


def pytest_configure(config: pytest.Config) -> None:
    raise_descriptors()
    for part, (_, about) in abouts().items():
        config.addinivalue_line("markers", f"{mark_of(part)}: {first(about)}")


def mark_of(part: str) -> str:
    return part.replace("-", "_")


def pytest_collection_modifyitems(items: list[pytest.Item]) -> None:
    """Marks each check with its part."""
    marks = {path: mark_of(part) for part, paths in modules().items() for path in paths}
    for it in (it for it in items if it.path in marks):
        it.add_marker(marks[it.path])


def pytest_generate_tests(metafunc: pytest.Metafunc) -> None:
    """A check of groups of cases is tried for each of its module's."""
    if "group" in metafunc.fixturenames:
        metafunc.parametrize("group", [name for name, *_ in metafunc.module.cases("", "")])


def told(name: str) -> Any:
    """A fixture that has what was told under a name."""
    @pytest.fixture(scope="session", name=name)
    def given(pytestconfig: pytest.Config) -> Any:
        found = pytestconfig.getoption(name)
        if found is None and name in PROGRAMS:
            pytest.skip(f"no {name} is told")
        return found
    return given


for name in (*PROGRAMS, *OPTIONS):
    globals()[f"{name}_that_is_told"] = told(name)


@pytest.fixture
def folder() -> Iterator[str]:
    """A folder that is gone afterwards."""
    with tempfile.TemporaryDirectory() as made:
        yield made


def pytest_terminal_summary(terminalreporter: Any) -> None:
    """Shows what checks wrote that passed."""
    for report in terminalreporter.getreports("passed"):
        if report.when == "call" and report.capstdout:
            terminalreporter.line(f"{report.nodeid.rpartition('check_')[2]}: {report.capstdout.strip()}")
