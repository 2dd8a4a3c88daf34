"""A software TPM for the checks: what has to be installed, and two free ports."""

import shutil
import socket

NEEDED = ("swtpm", "tpm2_create", "xxd")


def missing(commands):
    return [command for command in commands if shutil.which(command) is None]


def free_ports():
    """Two free ports, one behind the other, as swtpm's clients take them."""
    while True:
        with socket.socket() as first, socket.socket() as second:
            first.bind(("127.0.0.1", 0))
            port = first.getsockname()[1]
            try:
                second.bind(("127.0.0.1", port + 1))
            except (OSError, OverflowError):
                continue
            return port, port + 1
