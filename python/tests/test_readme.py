"""What the README shows is so."""
import re
import subprocess
import sys

from tests.scripts import ROOT

README = (ROOT / "python" / "README.md").read_text(encoding="utf-8")


def test_the_example() -> None:
    (found,) = re.findall(r"```python\n(.*?)```\n\nwrites\n\n```\n(.*?)```", README, re.DOTALL)
    code, shown = found
    done = subprocess.run([sys.executable, "-c", code], cwd=ROOT / "python", capture_output=True, text=True, check=False)
    assert (done.stdout, done.stderr) == (shown, "")
