"""What nbdcheck says of a capture: its answer, its messages, as lines and in words, and the rules that it breaks."""

import contextlib
import json
import subprocess
import tempfile

from .faults import FAILED, MEMORY, Fault, printable
from .signals import SIGNALS

YES, NO, GAVE_UP, OUT_OF_MEMORY = 0, 1, 5, 4
BUFFER = 1 << 20


class Nbdcheck:
    """Runs of nbdcheck over one capture, with one order, one start and one profile, where one is named."""

    def __init__(self, program, capture, order, start, profile=None):
        self.program, self.capture, self.order, self.start = program, capture, order, start
        self.profile, self.is_wide = [] if profile is None else ["--profile", profile], profile == "wide"

    @contextlib.contextmanager
    def _running(self, words, errors):
        """A run; one that is not wanted any more is ended, also where a signal comes while it begins."""
        SIGNALS.hold()
        try:
            child = subprocess.Popen([self.program, *words], bufsize=BUFFER, stdin=subprocess.DEVNULL, stdout=subprocess.PIPE,
                                     stderr=errors)
        except OSError as error:
            SIGNALS.let_go()
            raise Fault(FAILED, f"cannot run {printable(self.program)}: {error.strerror or error}") from None
        with child:
            try:
                SIGNALS.let_go()
                yield child
            except BaseException:
                child.kill()
                raise

    def _judge(self, status, said, taken):
        """Raises what nbdcheck said, where its status is none of those that are taken."""
        if status in taken:
            return
        # A fault, and with hints the name of a file and the reason, or what is wrong with a line.
        words = ": ".join(said.decode(errors="backslashreplace").strip().split("\n")[:2])
        if status == OUT_OF_MEMORY:
            raise Fault(MEMORY, words or "out of memory")
        if words and status > 0:
            raise Fault(FAILED, words)
        how = f"ended with status {status}" if status >= 0 else f"was ended by signal {-status}"
        raise Fault(FAILED, f"{printable(self.program)} {how}")

    def _run(self, words, taken):
        """The output of a run, and what it said on standard error."""
        with tempfile.TemporaryFile() as errors:
            with self._running(words, errors) as child:
                out = child.stdout.read()
            errors.seek(0)
            said = errors.read()
        self._judge(child.returncode, said, taken)
        return child.returncode, out, said

    def try_out(self):
        """Runs it once: the repository's is built here, where it is not built yet, and says on standard error how far it is."""
        with self._running(["--version"], None) as child:
            child.stdout.read()
        if child.returncode != 0:
            raise Fault(FAILED, f"cannot run {printable(self.program)}: it ended with status {child.returncode}")

    def _objects(self, words, taken):
        """The objects of a run, a line each, and what it said on standard error."""
        _, out, said = self._run([*words, "--json"], taken)
        try:
            return [json.loads(line) for line in out.splitlines()], said.decode(errors="backslashreplace")
        except ValueError:
            raise Fault(FAILED, f"{printable(self.program)} {words[0]}: its lines are no JSON") from None

    def explain(self):
        """The objects of `explain`, and what it said beside them."""
        order = [] if self.order is None else [self.order]
        objects, said = self._objects(["explain", self.capture, *order, "--start", self.start, *self.profile, "--hints"], (YES, NO, GAVE_UP))
        if not objects:
            raise Fault(FAILED, f"{printable(self.program)} explain: it wrote no verdict")
        return objects, said

    def found_order(self):
        """The order that nbdcheck finds."""
        return self._run(["order", self.capture, "--start", self.start, *self.profile], (YES,))[1]

    def breaches(self):
        """The musts and shoulds of proto.md that `lint` tells, as its objects. (It reads further than the others where no profile is
        named.)"""
        objects, _ = self._objects(["lint", self.capture, *(self.profile or ["--profile", "base"])], (YES, NO))
        return [told for told in objects if "rule" in told]

    def lines(self, *options):
        """The lines of `show`, each without its line feed."""
        with tempfile.TemporaryFile() as errors:
            with self._running(["show", *options, self.capture, *self.profile], errors) as child:
                for line in child.stdout:
                    yield line.rstrip(b"\n")
            errors.seek(0)
            self._judge(child.returncode, errors.read(), (YES, NO))
