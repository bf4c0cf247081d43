# SPDX-License-Identifier: Apache-2.0 OR MIT
"""`python3 -m confd_client`: the command line."""

from confd_client.cli import main

main()
