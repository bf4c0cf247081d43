# SPDX-License-Identifier: Apache-2.0 OR MIT
"""What scripts of bench/ share with those of checks/: the modules of checks/lib, by the same name."""

from pathlib import Path

__path__ = [str(Path(__file__).resolve().parents[2] / "checks" / "lib")]
