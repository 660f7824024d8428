"""nginx with one of the example's configurations, on free ports of this machine."""

import ctypes
import os
import signal
import subprocess

from server import DIES_WITH_ITS_PARENT, HOST


def make_key(folder, name, *words):
    """A key and its certificate, in files of this name."""
    subprocess.run(
        ["openssl", "req", "-x509", "-newkey", "rsa:2048", "-subj", "/CN=localhost"]
        + ["-addext", f"subjectAltName=IP:{HOST}", *words]
        + ["-keyout", f"{folder}/{name}.key", "-out", f"{folder}/{name}.crt"],
        check=True,
        capture_output=True,
    )


def start_nginx(configuration, folder, ports):
    """nginx with this configuration, in this folder, with other ports in the place of those that
    the configuration says. What it says goes into a file."""
    name = os.path.basename(configuration)
    with open(configuration) as example:
        text = example.read()
    for said, free in ports.items():
        text = text.replace(f"{HOST}:{said}", f"{HOST}:{free}")
    with open(f"{folder}/{name}", "w") as out:
        out.write(text)
    with open(f"{folder}/messages.txt", "a") as messages:
        return subprocess.Popen(
            ["nginx", "-p", folder, "-c", f"{folder}/{name}", "-g", "daemon off;"],
            stdin=subprocess.DEVNULL,
            stderr=messages,
            preexec_fn=lambda: ctypes.CDLL(None).prctl(DIES_WITH_ITS_PARENT, signal.SIGTERM),
        )
