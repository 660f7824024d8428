"""Runs the commands of documents as they stand there, in a copy of the repository, and compares what they print with what the document
says.

A block `sh` is run; a block `text` behind it is what it prints, a line `..` standing for any lines. A block `sh server` is started and
goes on until the document's end. A block `sh by-hand` is left out."""
import os
import re
import shutil
import signal
import socket
import subprocess
import tempfile
import time

import crates
import markdown

MOST_BY_HAND = 8
SECONDS = 900
MARK = "=== the block is done:"


class Shell:
    """One shell for all blocks of a document, at the top of its copy of the repository."""

    def __init__(self, folder):
        self.process = subprocess.Popen(
            ["bash"], cwd=folder, stdin=subprocess.PIPE, stdout=subprocess.PIPE, stderr=subprocess.STDOUT, text=True, errors="replace"
        )

    def run(self, text):
        """Runs a block, and answers its status and what it printed."""
        self.process.stdin.write(f"{text}status=$?; echo; echo '{MARK}' $status\n")
        self.process.stdin.flush()
        printed, begun = "", time.monotonic()
        for line in self.process.stdout:
            if line.startswith(MARK):
                return int(line.split()[-1]), printed.rstrip("\n")
            printed += line
            if time.monotonic() - begun > SECONDS:
                break
        return -1, printed

    def close(self):
        self.process.stdin.close()
        self.process.wait()


def start_server(text, folder):
    """Starts a server, and waits until each of its ports takes connections."""
    process = subprocess.Popen(["bash", "-c", text], cwd=folder, stderr=subprocess.PIPE, start_new_session=True)
    for port in re.findall(r"port=(\d+)", text):
        until = time.monotonic() + 20
        while time.monotonic() < until and process.poll() is None:
            try:
                socket.create_connection(("127.0.0.1", int(port)), 1).close()
                break
            except OSError:
                time.sleep(0.05)
    return process


def stop_server(process):
    """Ends a server that was started here, with its shell."""
    if process.poll() is None:
        os.killpg(process.pid, signal.SIGKILL)
    process.wait()
    process.stderr.close()


def is_as_said(printed, wanted):
    """Whether the lines that were printed are those that are wanted, `..` standing for any."""
    parts = [re.escape(line.rstrip()) for line in wanted.rstrip("\n").split("\n")]
    pattern = "\n".join(r"(?:.*\n?)*?" if part == r"\.\." else part for part in parts)
    return re.fullmatch(pattern, "\n".join(line.rstrip() for line in printed.split("\n"))) is not None


def copy_to(folder, programs):
    """Copies the files of the repository, and lends the programs that are built, if there are any."""
    listed = subprocess.run(["git", "ls-files", "-z", "--cached", "--others", "--exclude-standard"], cwd=crates.TOP, capture_output=True, check=True)
    for name in filter(None, listed.stdout.decode().split("\0")):
        if os.path.isfile(f"{crates.TOP}/{name}"):
            os.makedirs(os.path.dirname(f"{folder}/{name}"), exist_ok=True)
            shutil.copy2(f"{crates.TOP}/{name}", f"{folder}/{name}")
    if programs:
        os.symlink(os.path.abspath(programs), f"{os.path.dirname(folder)}/programs")


def run_block(block, wanted, shell, servers, folder, is_built):
    """What is wrong with a block, or nothing."""
    if "server" in block.words:
        servers.append(start_server(block.text, folder))
        return None if servers[-1].poll() is None else "the server ended"
    text = re.sub(r"^tools/build .*$", ":", block.text, flags=re.M) if is_built else block.text
    status, printed = shell.run(text)
    if wanted is None:
        return f"status {status}\n{printed}" if status else None
    return None if is_as_said(printed, wanted) else f"it printed\n{printed}"


def with_wanted(found):
    """The blocks of commands, each with the text that is to be printed, if the next block has one."""
    for block, after in zip(found, [*found[1:], None]):
        if block.words[:1] == ["sh"]:
            yield block, after.text if after and after.words[:1] == ["text"] else None


def run_document(name, programs):
    """Runs the blocks of a document; answers those that are left out, and how many were wrong."""
    left_out, wrong, servers = [], 0, []
    with tempfile.TemporaryDirectory() as top:
        folder = f"{top}/yalgimo"
        copy_to(folder, programs)
        shell = Shell(folder)
        try:
            for block, wanted in with_wanted(list(markdown.blocks(markdown.read(f"{crates.TOP}/{name}")))):
                if "by-hand" in block.words:
                    left_out.append(f"{name}:{block.line}: {block.text.split(chr(10))[0]}")
                    continue
                fault = run_block(block, wanted, shell, servers, folder, programs)
                wrong += fault is not None
                print(f"{name}:{block.line}: {fault or 'as it says'}", flush=True)
        finally:
            shell.close()
            for server in servers:
                stop_server(server)
    return left_out, wrong


def run(names, programs):
    """Runs the documents; the status is 1 if a block was wrong or too many are left out."""
    results = [run_document(name, programs) for name in names]
    left_out = [line for lines, _ in results for line in lines]
    print(f"left out, to be done by hand ({len(left_out)} of at most {MOST_BY_HAND}):", *left_out, sep="\n    ")
    wrong = sum(count for _, count in results)
    print(f"{wrong} blocks were wrong")
    return 1 if wrong or len(left_out) > MOST_BY_HAND else 0
