"""The built program, as the measuring scripts of this folder run it."""
import os
import pathlib
import resource
import subprocess
import sys

TOP = pathlib.Path(__file__).resolve().parent.parent


def built(variable):
    """Returns the file of the program that `make demo` builds, or the one that the environment's variable names."""
    return os.environ.get(variable, TOP / "crates" / "cite_prog" / "out" / "cite_prog")


def message(path, body):
    """Returns a message that posts the body."""
    return f"POST {path} HTTP/1.1\r\nContent-Length: {len(body)}\r\n\r\n{body}".encode()


def run(program, archive, words, text=b""):
    """Runs the program to its end, and returns what it wrote and its processor time in seconds."""
    before = resource.getrusage(resource.RUSAGE_CHILDREN)
    done = subprocess.run([program, archive, *words], input=text, capture_output=True)
    after = resource.getrusage(resource.RUSAGE_CHILDREN)
    if done.returncode != 0:
        sys.exit(f"{words[0]} ended with status {done.returncode}: {done.stdout[-300:]}")
    return done.stdout, after.ru_utime - before.ru_utime + after.ru_stime - before.ru_stime


class Session:
    """A session of the program, over pipes, which answers one message before it is sent the next."""

    def __init__(self, program, archive):
        self.process = subprocess.Popen([program, archive, "session"], stdin=subprocess.PIPE, stdout=subprocess.PIPE)

    def ask(self, text):
        """Returns the body of the response to a message, which has to be answered by 200 or 201."""
        self.process.stdin.write(text)
        self.process.stdin.flush()
        status = self.process.stdout.readline()
        length = 0
        while (line := self.process.stdout.readline()) not in (b"\r\n", b""):
            if line.startswith(b"Content-Length: "):
                length = int(line[16:])
        answer = self.process.stdout.read(length)
        if status[9:12] not in (b"200", b"201"):
            sys.exit(f"{text[:100]} was answered by {status} {answer[:300]}")
        return answer

    def seconds(self):
        """Returns the processor time of the program until now."""
        fields = pathlib.Path(f"/proc/{self.process.pid}/stat").read_text().rpartition(")")[2].split()
        return (int(fields[11]) + int(fields[12])) / os.sysconf("SC_CLK_TCK")

    def end(self):
        self.process.stdin.close()
        if self.process.wait() != 0:
            sys.exit("the session did not end well")
