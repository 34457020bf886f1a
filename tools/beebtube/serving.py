"""The tool `tools/dap`: its options, and where its clients are."""
from __future__ import annotations

import os
import socket
from typing import Sequence

from .adapter import Adapter
from .command import Usage
from .faults import Fault
from .words import number_of


def serve(words: Sequence[str]) -> int:
    """The tool."""
    if not words:
        # What anything else prints does not go among the messages.
        source, target = os.fdopen(os.dup(0), "rb"), os.fdopen(os.dup(1), "wb")
        os.dup2(2, 1)
        Adapter(source, target).serve()
        return 0
    port = number_of(words[1]) if len(words) == 2 and words[0] == "--port" else None
    if port is None or port > 65535:
        raise Usage("the only option is --port N, with N up to 65535")
    try:
        listening = socket.create_server(("127.0.0.1", port))
    except OSError as error:
        raise Fault(f"port {port}: {error.strerror}") from None
    with listening:
        print(listening.getsockname()[1], flush=True)
        while True:
            client, _ = listening.accept()
            with client, client.makefile("rb") as source, client.makefile("wb") as target:
                Adapter(source, target).serve()


