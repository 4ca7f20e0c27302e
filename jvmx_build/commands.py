"""Runs commands, and ends those that still run where the caller is ended."""
import os
import subprocess
from contextlib import contextmanager

# The commands that run, of all threads.
RUNNING = set()


@contextmanager
def running(words, **options):
    """Starts a command, and ends it where the caller fails or is ended before it."""
    command = subprocess.Popen(words, **options)
    RUNNING.add(command)
    try:
        yield command
    finally:
        RUNNING.discard(command)
        if command.poll() is None:
            command.terminate()
            command.wait()


@contextmanager
def ended_together():
    """Ends the commands of all threads where the caller fails or is ended."""
    try:
        yield
    except BaseException:
        for command in list(RUNNING):
            command.terminate()
        raise


def run_to_its_end(words, folder, log, variables):
    """Runs a command whose outputs go to a log, and returns its exit status."""
    environment = {**os.environ, **variables}
    with open(log, "ab") as outputs:
        streams = {"stdin": subprocess.DEVNULL, "stdout": outputs, "stderr": outputs}
        with running(words, cwd=folder, env=environment, **streams) as command:
            return command.wait()


def said_if_failed(words, folder):
    """Runs a command, and returns what it said if it failed, else None."""
    streams = {"stdin": subprocess.DEVNULL, "stdout": subprocess.PIPE, "stderr": subprocess.STDOUT}
    with running(words, cwd=folder, universal_newlines=True, **streams) as command:
        said = command.communicate()[0]
    return None if command.returncode == 0 else said or f"{words[:2]} ended with {command.returncode}"
