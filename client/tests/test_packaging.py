# SPDX-License-Identifier: Apache-2.0 OR MIT
"""The client's two packages: by pip, and for Debian. Both are made without a network."""

from __future__ import annotations

import os
import shutil
import subprocess
from pathlib import Path

import pytest

from confd_client import __version__
from tests.conftest import ROOT

PYTHON = "/usr/bin/python3"


def done(*words: object, **environment: str) -> str:
    """What a command prints, in a network that reaches nothing where the system allows that."""
    command = [str(word) for word in words]
    if subprocess.run(["unshare", "--net", "true"], capture_output=True).returncode == 0:
        command = ["unshare", "--net", *command]
    told = subprocess.run(command, capture_output=True, text=True, env={**os.environ, **environment}, cwd="/")
    assert told.returncode == 0, told.stderr
    return told.stdout


@pytest.mark.skipif(shutil.which("dpkg-deb") is None, reason="no program dpkg-deb")
def test_the_debian_package_has_all_of_the_client(tmp_path: Path) -> None:
    name = done(ROOT / "deploy/package_client.sh", tmp_path).strip()
    assert name == str(tmp_path / f"confd-client_{__version__}_all.deb")
    before = Path(name).read_bytes()
    done(ROOT / "deploy/package_client.sh", tmp_path)
    assert Path(name).read_bytes() == before, "the same commit gives the same bytes"
    done("dpkg-deb", "--extract", name, tmp_path / "root")
    modules = tmp_path / "root/usr/lib/python3/dist-packages"
    assert done(tmp_path / "root/usr/bin/confd-client", "--version", PYTHONPATH=str(modules)).split()[-1] == __version__
    kept = {path.relative_to(ROOT / "client") for path in (ROOT / "client/confd_client").rglob("*")
            if path.is_file() and "__pycache__" not in path.parts}
    packed = {path.relative_to(modules) for path in (modules / "confd_client").rglob("*") if path.is_file()}
    assert packed == kept and (tmp_path / "root/usr/share/doc/confd-client/CLIENT.md").stat().st_size > 1_000


def test_pip_installs_the_client_without_a_network(tmp_path: Path) -> None:
    left = shutil.ignore_patterns("*cache*", "build", "*.egg-info")
    shutil.copytree(ROOT / "client", tmp_path / "client", ignore=left)
    done(PYTHON, "-m", "venv", "--system-site-packages", tmp_path / "venv")
    done(tmp_path / "venv/bin/pip", "install", "--quiet", "--no-build-isolation", tmp_path / "client")
    assert done(tmp_path / "venv/bin/confd-client", "--version").split()[-1] == __version__
    assert done(tmp_path / "venv/bin/python", "-m", "confd_client", "--version").split()[-1] == __version__
    shown = done(tmp_path / "venv/bin/python", "-c", "import importlib.resources as r; "
                 "print(r.files('confd_client').joinpath('templates/overview.js').is_file())")
    assert shown == "True\n"
