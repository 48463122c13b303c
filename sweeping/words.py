"""The words of the command line."""
import argparse
import sys

USAGE = """usage:
  compare OLD NEW LINKS [OPTION ...]
  ask NET LINKS QUESTIONS [OPTION ...]
options:
  --pairs            each two failures on one day, too
  --show NAME        make the networks of one failure and print the command that asks them
  --by-ingress N     no failure: one report, from N parts of the ingresses (compare)
  --folder FOLDER    where inputs, job log and results are kept
  --jobs N           at most N jobs at a time on each machine
  --sshlogin LOGIN   run jobs on this machine, as GNU parallel reads it; once for each machine
  --copy             copy what the jobs read to these machines, if they don't see FOLDER
  --slurm            one array job by sbatch, and a second job that gathers
  --jobs-only        one job for each failure, although rollout could answer many at once (ask)
  --as-written       read default routes by next hop alone and subinterfaces as they are written
  --workers N, --ttl T    for each run, as for review
"""


class Parser(argparse.ArgumentParser):
    """Words outside the usage are answered by it, and status 2."""

    def error(self, message):
        sys.stderr.write(USAGE)
        sys.exit(2)


def between(least, greatest):
    """A reader of a number in these bounds, written without a zero in front."""
    def read(word):
        if not (word.isascii() and word.isdigit()) or word != str(int(word)) or not least <= int(word) <= greatest:
            raise argparse.ArgumentTypeError(word)
        return word
    return read


class Once(argparse.Action):
    """An option stands once."""

    def __call__(self, parser, namespace, values, option_string=None):
        if getattr(namespace, self.dest) not in (None, False):
            parser.error("twice")
        setattr(namespace, self.dest, values if self.nargs != 0 else True)


def read_words(words):
    """The command and its options, as they are checked."""
    parser = Parser(add_help=False, allow_abbrev=False)
    parser.add_argument("words", nargs="*")
    for flag in ("--pairs", "--copy", "--slurm", "--jobs-only", "--as-written"):
        parser.add_argument(flag, action=Once, nargs=0, default=False)
    for option in ("--show", "--folder"):
        parser.add_argument(option, action=Once)
    for option, greatest in (("--by-ingress", 10**6), ("--jobs", 10**6), ("--workers", 64), ("--ttl", 255)):
        parser.add_argument(option, action=Once, type=between(1, greatest))
    parser.add_argument("--sshlogin", action="append", default=[])
    read = parser.parse_intermixed_args(words)
    if len(read.words) != 4 or read.words[0] not in ("compare", "ask") or "" in read.words:
        parser.error("words")
    if read.by_ingress and (read.words[0] != "compare" or read.pairs or read.show is not None):
        parser.error("parts of the ingresses are of one comparison")
    if read.slurm and (read.sshlogin or read.jobs) or read.copy and not read.sshlogin:
        parser.error("machines")
    if "" in (read.folder, read.show) or "" in read.sshlogin:
        parser.error("an empty word")
    return read
