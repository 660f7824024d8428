"""How long a session lasts, by the clock of the wall."""

import time

from by_curl import CORE, COUNTER, FILES
from messages import Connection, publish

IDLE_SECONDS = 3
# Longer than that, and shorter than a connection lasts between two requests.
PAUSE_SECONDS = 4.5


def try_idle(server, tally):
    """A session is there within its time, and gone after it."""
    publish(server.editor_port, {COUNTER: CORE + FILES[COUNTER]})
    with Connection(server.port) as connection:
        first = connection.ask("GET", COUNTER)
        cookie = f"Cookie: {first.fields['set-cookie'].split(';')[0]}\r\n"
        seen = [first.body, connection.ask("GET", COUNTER, cookie).body]
        time.sleep(PAUSE_SECONDS)
        seen.append(connection.ask("GET", COUNTER, cookie).body)
    tally.same(f"a session that lasts {IDLE_SECONDS} seconds, in that time and after it", seen, [b"1", b"2", b"1"])
