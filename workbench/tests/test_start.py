"""What a start of the command reads: little. How long it takes is measured by bench/measure/start_time.py."""

from __future__ import annotations

import subprocess

from conftest import EXAMPLES


def test_a_check_imports_neither_click_nor_dataclasses() -> None:
    script = (
        "import sys; sys.path.insert(0, '../../workbench/src'); sys.argv = ['m', 'check', 'plan.toml', 'certificate.csv']\n"
        "from murdjohe import main; main.main(); print(sorted({'click', 'rich', 'dataclasses', 'subprocess'} & set(sys.modules)))"
    )
    run = subprocess.run(
        ["/usr/bin/python3", "-IS", "-c", script], cwd=EXAMPLES / "metro-ring", capture_output=True, check=True
    )
    assert run.stdout == b"accepted\n[]\n"
