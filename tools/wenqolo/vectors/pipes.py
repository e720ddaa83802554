"""The model as a program between two pipes (docs/PIPES.md): it answers each record of a script that it reads, under the
profile that `--profile N` names."""

import sys

from wenqolo.octets.ber import minimal
from wenqolo.octets.encoding import element_of
from wenqolo.rules import OPERATIONS, Model, Refused, event_of_call
from wenqolo.vectors import records


class Pipes:
    """A program that speaks the two pipes. It decides over all that is accepted, so a script has to publish before each
    call, as those of vectors do."""

    def __init__(self, profile):
        self.model, self.accepted, self.published = Model(profile), 0, 0

    def line(self, record):
        word, *fields = record.split(",")
        try:
            if word == "publish":
                self.published = self.accepted
                return f"published {self.published}"
            if word == "call":
                return f"front {self.published} {self.model.decide(event_of_call(*fields))}"
            self.update(word, fields)
        except Refused as refused:
            return f"refused {refused}"
        self.accepted += 1
        return f"accepted {self.accepted}"

    def update(self, word, fields):
        """What an Insert of a record holds goes through octets, so that the rules of received data are those of the
        decoder."""
        if word in ("register", "clear"):
            getattr(self.model, word)(*fields)
            return
        update = records.update_of(word, fields[0], " ".join(fields[1:]))
        octets = minimal(element_of(update))
        self.model.change(word, self.model.decode(OPERATIONS[word], fields[0], octets))


def main():
    pipes = Pipes(int(sys.argv[2]) if sys.argv[1:2] == ["--profile"] else 1)
    for record in sys.stdin:
        print(pipes.line(record.rstrip("\n")), flush=True)


if __name__ == "__main__":
    main()
