"""README's first command, as a newcomer calls it: with the answers of the stored run to its lines. `.ci/run` begins with it, so what follows
there is called after it, in the same checkout."""
import re
import subprocess

from rt_api import read, stored


def test_the_first_command():
    command, texts = re.search(r"(?m)^(printf '(.*?)' \| \./locations) +#", read("README.md")).groups()
    answers = dict(zip(*(stored(f"crates/locations/{it}").split(b"\n") for it in ("stdin", "stdout")), strict=True))
    wanted = [answers[it.encode()] for it in texts.split(r"\n")[:-1]]
    ran = subprocess.run(["bash", "-c", command], stdout=subprocess.PIPE)
    assert wanted and (ran.returncode, ran.stdout.splitlines()) == (0, wanted)
