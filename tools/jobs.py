"""Commands at work side by side."""
import os
import signal
import subprocess
import tempfile
import time

ROOT = os.path.dirname(os.path.dirname(os.path.realpath(__file__)))


class Job:
    """A command, run at the top of the repository, with what it says on both streams."""

    def __init__(self, name, words):
        self.name, self.words = name, words
        self.said, self.run, self.start = "", None, 0.0

    def begin(self):
        self.start = time.monotonic()
        self.log = tempfile.TemporaryFile("w+", encoding="utf-8", errors="replace")
        how = {"stdin": subprocess.DEVNULL, "stdout": self.log, "stderr": subprocess.STDOUT}
        # A group of its own, so that all of it ends where this run is stopped.
        self.run = subprocess.Popen(self.words, cwd=ROOT, start_new_session=True, **how)

    def has_ended(self):
        if self.run.poll() is None:
            return False
        with self.log:
            self.log.seek(0)
            self.said = self.log.read()
        return True

    def seconds(self):
        return time.monotonic() - self.start

    def stop(self):
        if self.run.poll() is None:
            os.killpg(self.run.pid, signal.SIGTERM)
        self.run.wait()


def next_ended(jobs):
    while True:
        for job in jobs:
            if job.has_ended():
                return job
        time.sleep(0.1)


def each_ended(left, most, is_due=lambda job: True):
    """Runs the jobs, at most so many at once and each once it is due, and yields each as it ends. The caller may take
    out of the list what is not begun; what is at work is stopped where the caller goes on no more."""
    at_work = []
    try:
        while left or at_work:
            for job in [it for it in left if is_due(it)][: most - len(at_work)]:
                job.begin()
                at_work.append(job)
                left.remove(job)
            ended = next_ended(at_work)
            at_work.remove(ended)
            yield ended
    finally:
        for job in at_work:
            job.stop()
