# SPDX-License-Identifier: Apache-2.0 OR MIT
"""What several scripts of checks/ and bench/ share: bench/lib gives these modules to bench/.

How checks are run: `checking`. The program: `places`, `program`, `server`, `wire`, `timing`. What it keeps: `database`,
`journal_file`. What checks ask it: `cases`, `conference`, `drill`, `planned`. What is due: the small model (`model`,
`model_reports`, `model_views`, `searches`, `best_plans`) and `openapi_document`. What the system may do to it: `shim`,
`appends`, `confined`, `own_systemd`. The pages: `pages`, `contracts`, `specs`, `svg`.
"""
