# SPDX-License-Identifier: Apache-2.0 OR MIT
"""Where things are: the top of the repository, and the program that `rt run` builds."""

from pathlib import Path

TOP = Path(__file__).resolve().parents[2]
CONFD = TOP / "crates/confd/out/confd"
