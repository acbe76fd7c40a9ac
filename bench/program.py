"""A script program, run on one script after another."""

import os
import signal

SECONDS = 10  # that a program may take for a script


class Program:
    """A program that reads and writes two files in memory."""

    def __init__(self, command):
        self.command = command
        self.given, self.written = os.memfd_create("script"), os.memfd_create("output")
        self.files = [(os.POSIX_SPAWN_DUP2, self.given, 0), (os.POSIX_SPAWN_DUP2, self.written, 1)]
        self.files += [(os.POSIX_SPAWN_OPEN, 2, os.devnull, os.O_WRONLY, 0)]

    def answer(self, script):
        """The status and the output."""
        for file, content in ((self.given, script), (self.written, b"")):
            os.ftruncate(file, 0)
            os.pwrite(file, content, 0)
            os.lseek(file, 0, os.SEEK_SET)
        child = os.posix_spawnp(self.command[0], self.command, os.environ, file_actions=self.files)
        signal.signal(signal.SIGALRM, lambda *_: os.kill(child, signal.SIGKILL))
        signal.alarm(SECONDS)
        _, status = os.waitpid(child, 0)
        signal.alarm(0)
        return os.waitstatus_to_exitcode(status), os.pread(self.written, os.fstat(self.written).st_size, 0)
