"""Runs a program under tests/refuse.c, which says what a window is. A window may be opened at a line of the input."""
import subprocess
import tempfile

SOURCE = "tests/refuse.c"
# Its input, its output, and what the shim writes of the windows. (A pipe would be read once for each print.)
ENDS = [tempfile.TemporaryFile(buffering=0) for _ in range(3)]


def build(shim):
    """Builds the shim into a file."""
    subprocess.run(["cc", "-O2", "-Wall", "-shared", "-fPIC", "-o", shim, SOURCE], check=True)


def run(words, shim, refuse, line=None, given=b""):
    """Returns the status, what the shim wrote of the windows, and what the program wrote to its two outputs."""
    for file in ENDS:
        file.seek(0)
        file.truncate()
    stdin, stdout, trace = ENDS
    stdin.write(given)
    stdin.seek(0)
    env = {"LD_PRELOAD": shim, "REFUSE": refuse, "REFUSE_TRACE": str(trace.fileno())}
    env.update({} if line is None else {"REFUSE_LINE": str(line)})
    how = {"stdin": stdin, "stdout": stdout, "stderr": subprocess.PIPE, "pass_fds": [trace.fileno()]}
    ran = subprocess.run(words, env=env, timeout=60, **how)
    stdout.seek(0)
    trace.seek(0)
    return ran.returncode, trace.read().decode(), stdout.read(), ran.stderr
