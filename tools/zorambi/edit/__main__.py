"""The server of `zorambi edit`: python3 FOLDER-OF-THIS-FILE PROGRAM [--no-browser] -- DIR. The program zorambi starts it so."""

import os
import signal
import sys
import threading
import webbrowser

from program import Failed, NotBegun
from server import Server
from session import Session


def say(words):
    sys.stderr.write(words + "\n")
    sys.stderr.flush()


def is_screen():
    return any(os.environ.get(name) for name in ("DISPLAY", "WAYLAND_DISPLAY"))


def open_browser(server):
    """What a browser is started with can be seen by other users, so that it is given a ticket that is good once."""
    if not webbrowser.open(server.ticket_address()):
        say("no browser could be opened: open the address yourself")


def end_by_signals(server):
    """A signal ends the server; what a shell has ignored for a job in the background stays ignored."""

    def end(*_):
        threading.Thread(target=server.shutdown, daemon=True).start()

    for number in (signal.SIGINT, signal.SIGTERM, signal.SIGHUP):
        if signal.getsignal(number) != signal.SIG_IGN:
            signal.signal(number, end)


def serve(session, with_browser):
    server = Server(session)
    end_by_signals(server)
    say(f"editing {session.name}: {session.words()}")
    for note in session.notes:
        say(note)
    print(server.address, flush=True)
    say("open the address in a browser; Ctrl-C ends it")
    if with_browser and is_screen():
        threading.Thread(target=open_browser, args=(server,), daemon=True).start()
    try:
        server.serve_forever(poll_interval=0.1)
    finally:
        server.server_close()
    words = session.end()
    if words:
        say(words)


def main(program, *words):
    with_browser = words[0] != "--no-browser"
    try:
        serve(Session(program, words[-1]), with_browser)
    except NotBegun as not_begun:
        # The record is refused: what the program printed is what is said of it.
        sys.stdout.write(not_begun.printed)
        return not_begun.status
    except (Failed, OSError) as error:
        say(f"zorambi edit: {error}")
        return 2
    return 0


if __name__ == "__main__":
    sys.exit(main(*sys.argv[1:]))
