"""Gives the worked rows that are kept outside the repository: `checks/run rows PROGRAM`."""
import os
import subprocess
from pathlib import Path

from common.crates import TOP
from common.parts import needs
from common.served import same

ROWS = Path(os.environ.get("ROWS", TOP.parent / "shared" / "rows")) / "check"
pytestmark = needs(also=() if ROWS.exists() else (str(ROWS),))


def check_rows(program: str) -> None:
    """The program answers the worked rows."""
    same("how they end", subprocess.run([ROWS, program, "numbers"], stdin=subprocess.DEVNULL).returncode, 0)
