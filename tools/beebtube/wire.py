"""The Debug Adapter Protocol's messages: read in a thread of their own, so that `cancel` arrives
while a request is carried out."""
from __future__ import annotations

import json
import queue
import threading
from typing import Any, BinaryIO, Callable, Dict, Optional

Message = Dict[str, Any]
MOST = 1 << 24  # bytes of a message
LEAVING = ("cancel", "pause", "disconnect", "terminate")


class Wire:
    """A client at the other end of two streams.

    urgent  is called with each request that may end the one that is carried out
    """

    def __init__(self, source: BinaryIO, target: BinaryIO, urgent: Callable[[Message], None]):
        self._source, self._target, self._urgent = source, target, urgent
        self._waiting: "queue.Queue[Optional[Message]]" = queue.Queue()
        self._seq, self._lock = 0, threading.Lock()
        threading.Thread(target=self._read_all, daemon=True).start()

    def _read_all(self) -> None:
        try:
            while True:
                message = self._read()
                if message is None:
                    break
                if message.get("command") in LEAVING:
                    self._urgent(message)
                self._waiting.put(message)
        except (OSError, ValueError):
            pass
        self._urgent({"command": "disconnect"})
        self._waiting.put(None)

    def _read(self) -> Optional[Message]:
        length = -1
        while True:
            line = self._source.readline(4096)
            if not line:
                return None
            if line in (b"\r\n", b"\n"):
                break
            name, _, value = line.partition(b":")
            if name.strip().lower() == b"content-length":
                length = int(value)
        if not 0 <= length <= MOST:
            raise ValueError("a message without its length")
        data = self._source.read(length)
        message = json.loads(data)
        if len(data) < length or not isinstance(message, dict):
            raise ValueError("no message")
        return message

    def next(self) -> Optional[Message]:
        """The next request; None if the client is gone."""
        return self._waiting.get()

    def send(self, **body: Any) -> None:
        """Sends a message; one to a client that is gone is lost."""
        with self._lock:
            self._seq += 1
            data = json.dumps({"seq": self._seq, **body}).encode()
            try:
                self._target.write(b"Content-Length: %d\r\n\r\n" % len(data) + data)
                self._target.flush()
            except (OSError, ValueError):
                pass
