"""The instructions that a talk with the program takes, by callgrind."""
import re
import shutil
import subprocess

from messages import PAGES

VALGRIND = shutil.which("valgrind")


def counted(data, file="/dev/null"):
    """The instructions that a talk took."""
    words = [VALGRIND, "--tool=callgrind", f"--callgrind-out-file={file}", PAGES, "play"]
    said = subprocess.run(words, input=data, stdout=subprocess.DEVNULL, stderr=subprocess.PIPE).stderr
    return int(re.search(rb"Collected : (\d+)", said)[1])
