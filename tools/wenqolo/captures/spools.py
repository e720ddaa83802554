"""Steps that wait in a temporary file, since what answers an operation may come as late as the capture ends. So the
memory that they take does not grow with the capture."""

import pickle
import tempfile
from itertools import islice

from wenqolo.captures.dialogues import Step
from wenqolo.octets.components import REQUESTS

# Of so many steps the decoder reads the arguments at a time.
CHUNK = 10000


class Spool:
    """The steps of a capture, and of each operation of the HLR that is not done what answers it, by its number."""

    def __init__(self, steps):
        self.refusals, self.operations, self.file = {}, 0, tempfile.TemporaryFile()
        for step in steps:
            operation = step.operation if isinstance(step, Step) else None
            if operation and not step.is_answer:
                self.operations += 1
                operation.number = self.operations
            if not operation or not step.is_answer or operation.name in REQUESTS:
                pickle.dump(step, self.file)
            elif not operation.is_done():
                self.refusals[operation.number] = operation.answer

    def steps(self):
        """The steps again, in which each operation of the HLR has what answers it, if that is no result."""
        self.file.seek(0)
        while True:
            try:
                step = pickle.load(self.file)
            except EOFError:
                return
            if isinstance(step, Step) and step.is_change():
                step.operation.answer = self.refusals.get(step.operation.number, "")
            yield step

    def chunks(self):
        steps = self.steps()
        while chunk := [*islice(steps, CHUNK)]:
            yield chunk
