"""Runs a program on some input."""

import subprocess


def run(program, data):
    """Status, output and error output. A program may stop reading when it has too much: a broken pipe is no matter."""
    process = subprocess.Popen([program], stdin=subprocess.PIPE, stdout=subprocess.PIPE, stderr=subprocess.PIPE)
    try:
        out, err = process.communicate(data)
    except BrokenPipeError:
        out, err = process.stdout.read(), process.stderr.read()
        process.wait()
    return process.returncode, out, err
