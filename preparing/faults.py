"""What stops a program, with its exit status and its line on the error output."""


class Fault(Exception):
    """One cause, for one line."""

    status = 3

    def line(self):
        """The line that is printed."""
        return str(self)


class Refused(Fault):
    """A text isn't understood at a line; line 0 is the whole file."""

    def __init__(self, path, number, kind, word="", candidates=()):
        super().__init__(path, number, kind, word)
        self.path, self.number, self.kind, self.word = str(path), number, kind, word
        self.candidates = tuple(candidates)

    def line(self):
        """The line that is printed."""
        text = "refused %s line %d %s %s" % (self.path, self.number, self.kind, self.word[:64])
        if self.candidates:
            text += " (one of: %s)" % ", ".join(self.candidates)
        return text.rstrip()


class SameHostname(Fault):
    """Two configurations of one folder have one hostname."""

    def __init__(self, later, earlier):
        super().__init__(later, earlier)
        self.later, self.earlier = str(later), str(earlier)

    def line(self):
        """The line that is printed."""
        return "refused %s hostname taken by %s" % (self.later, self.earlier)


class CannotRead(Fault):
    """A file is there and can't be read, or a program can't be run."""

    status = 4

    def __init__(self, path, reason=""):
        super().__init__(path, reason)
        self.path, self.reason = str(path), reason

    def line(self):
        """The line that is printed."""
        return "cannot read %s%s" % (self.path, ": " + self.reason if self.reason else "")


class NoProgram(Fault):
    """A program can't be built, or isn't there; `told` is the line that says so, or nothing where that is said already."""

    status = 70

    def __init__(self, told):
        super().__init__(told)


class CannotWrite(Fault):
    """The output takes nothing."""

    status = 6

    def __init__(self, path, reason):
        super().__init__(path, reason)
        self.path, self.reason = str(path), reason

    def line(self):
        """The line that is printed."""
        return "cannot write %s: %s" % (self.path, self.reason)


class NotFound(Fault):
    """A file or a folder that is named isn't there."""

    status = 8

    def __init__(self, path):
        super().__init__(path)
        self.path = str(path)

    def line(self):
        """The line that is printed."""
        return "not found %s" % self.path


class ProcessDied(Fault):
    """A process of its own that did a part of the work ended without an answer, as where the system has no memory for it."""

    status = 7

    def line(self):
        """The line that is printed."""
        return "no memory: a process that prepared files died"


class Unreached(Fault):
    """A device gave no whole answer."""

    status = 4

    def __init__(self, device, reason):
        super().__init__(device, reason)
        self.device, self.reason = device, reason

    def line(self):
        """The line that is printed."""
        return "cannot collect %s: %s" % (self.device, self.reason)


class Usage(Fault):
    """The words of the command line are none of the program's."""

    status = 2

    def __init__(self, text):
        super().__init__(text)
        self.text = text

    def line(self):
        """The line that is printed."""
        return self.text


class Faults(Exception):
    """The first cause of each file, all together."""

    def __init__(self, faults):
        super().__init__(faults)
        self.faults = sorted(faults, key=lambda fault: fault.line())


def each(items, work):
    """What the work gives for each item, in order; where it fails for some, one exception with the causes of all these."""
    answers, faults = [], []
    for item in items:
        try:
            answers.append(work(item))
        except Fault as fault:
            faults.append(fault)
    if faults:
        raise Faults(faults)
    return answers
