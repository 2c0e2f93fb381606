"""The program `zorambi grow --json`: each line that is said to it is answered by one object."""

import json
import os
import subprocess


class Failed(Exception):
    """What cannot be done, and what to do about it."""


class NotBegun(Exception):
    """The program does not begin: it has said why, and ended with a status."""

    def __init__(self, printed, status):
        super().__init__(printed)
        self.printed, self.status = printed, status


class Program:
    def __init__(self, program, folder, anew=False):
        words = [program, "grow", "--json", *(["--anew"] if anew else []), "--", os.path.abspath(folder)]
        # It runs in the folder, so that what it saves is named without a path; in a session of its own Ctrl-C is for the server.
        self.process = subprocess.Popen(
            words, cwd=folder, stdin=subprocess.PIPE, stdout=subprocess.PIPE, encoding="utf-8", start_new_session=True
        )
        line = self.process.stdout.readline()
        if not line.startswith("{"):
            printed = line + self.process.stdout.read()
            raise NotBegun(printed, self.end() or 2)
        self.first = json.loads(line)

    def say(self, line):
        """The answer to a line."""
        try:
            self.process.stdin.write(line + "\n")
            self.process.stdin.flush()
            answer = self.process.stdout.readline()
        except OSError:
            answer = ""
        if not answer.endswith("\n"):
            raise Failed(f"'zorambi grow' ended with status {self.end()}")
        return json.loads(answer)

    def end(self):
        """Its exit status: it ends with its input."""
        try:
            self.process.stdin.close()
        except OSError:
            pass
        self.process.stdout.close()
        return self.process.wait()
