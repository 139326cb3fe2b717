"""The options and fixtures of the tests that checks/frozen runs by pytest."""

import functools
import sys

sys.dont_write_bytecode = True
import hypothesis
import pytest
from programs import compiled
from tool import OF_PROGRAM, Tool

hypothesis.settings.register_profile(
    "gate", derandomize=True, deadline=None, database=None, suppress_health_check=[*hypothesis.HealthCheck]
)
hypothesis.settings.load_profile("gate")


def pytest_addoption(parser):
    parser.addoption("--count", type=int, default=200_000, help="how many damaged frozen tables are made")
    parser.addoption("--part", default="0/1", help="K/N: runs the K-th of each N tests, counted from 0")


def pytest_configure(config):
    config.addinivalue_line("markers", "program: runs the built program")


def pytest_collection_modifyitems(config, items):
    part, parts = map(int, config.getoption("part").split("/"))
    items[:] = items[part::parts]


@pytest.fixture(scope="session")
def library(tmp_path_factory):
    """The library that refuses requests for memory, and lets reads and writes fail."""
    return compiled(tmp_path_factory.mktemp("library"))


@pytest.fixture(scope="session")
def tools(library, tmp_path_factory):
    """Gives the program, as one of the compilers built it."""
    return functools.cache(lambda build: Tool(build, tmp_path_factory.mktemp(build.strip(".") or "first"), library))


@pytest.fixture(scope="session", params=OF_PROGRAM)
def tool(request, tools):
    """The program, as each compiler built it."""
    return tools(request.param)


@pytest.fixture(autouse=True)
def folder(tmp_path, monkeypatch):
    """The working folder of each test, which is its own."""
    monkeypatch.chdir(tmp_path)
    return tmp_path
