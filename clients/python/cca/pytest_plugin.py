"""Fixtures for pytest, which are there once the package is installed, or by `pytest_plugins = ["cca.pytest_plugin"]`.

    def test_payment(cca_module):
        cca_module.cca.mac_generate(Label("TEST.MAC"), b"Pay 125.00 EUR")

The program is the one that the option cca_program of pytest's ini file names, or the variable CCA, or `cca`.
"""
import os
from collections.abc import Iterator
from pathlib import Path

import pytest

from .testing import Module, make_template, module


def pytest_addoption(parser: pytest.Parser) -> None:
    parser.addini("cca_program", "the program cca that the fixture cca_module starts", default="")


@pytest.fixture(scope="session")
def cca_program(pytestconfig: pytest.Config) -> str:
    """The program that the modules of tests are served by."""
    return str(pytestconfig.getini("cca_program")) or os.environ.get("CCA", "cca")


@pytest.fixture(scope="session")
def cca_template(cca_program: str, tmp_path_factory: pytest.TempPathFactory) -> Path:
    """The files of a module with a master key, roles and known keys, which each test has a copy of."""
    folder = tmp_path_factory.mktemp("cca-template")
    make_template(folder, cca_program)
    return folder


@pytest.fixture
def cca_module(cca_program: str, cca_template: Path, tmp_path_factory: pytest.TempPathFactory) -> Iterator[Module]:
    """A module of a test's own, and its coprocessor."""
    with module(tmp_path_factory.mktemp("cca-module"), template=cca_template, program=cca_program) as it:
        yield it
