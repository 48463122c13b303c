"""Who runs the jobs: GNU parallel, here and on other machines, or Slurm."""
import os
import shlex
import shutil
import signal
import subprocess
import sys
import time

from plan import kit_name, result_path, status_of

# An array job may have so many tasks with Slurm's own settings; of more jobs each task does several.
MOST_TASKS = 1000


class Missing(Exception):
    """A program that runs jobs isn't there."""


def need(program, package):
    if shutil.which(program) is None:
        raise Missing("%s isn't on the PATH (Debian: apt-get install %s)" % (program, package))


def keep_whole_results(folder, plan):
    """Takes what isn't a whole answer out of the results and out of the log, so that parallel runs these jobs, and these alone."""
    log, jobs = os.path.join(folder, "joblog"), plan.jobs()
    lines = []
    if os.path.exists(log):
        with open(log, encoding="latin-1") as stream:
            lines = stream.readlines()
    logged = {line.split("\t", 1)[0]: line for line in lines[1:] if line.endswith("\n")}
    kept = lines[:1]
    for number, identity in enumerate(jobs, 1):
        is_whole = status_of(folder, plan.digest, identity) in (0, 1)
        if is_whole and str(number) in logged:
            kept.append(logged[str(number)])
        else:
            for ending in ("", ".err", ".seq"):
                if os.path.exists(result_path(folder, identity) + ending):
                    os.remove(result_path(folder, identity) + ending)
    with open(log + ".new", "w", encoding="latin-1") as stream:
        stream.writelines(kept)
    os.replace(log + ".new", log)


def log_whole(folder, plan, identities, began, by):
    """Writes to the log that these results are whole, which parallel didn't run the jobs for, and by what: it then leaves them out."""
    numbers, log = {identity: number for number, identity in enumerate(plan.jobs(), 1)}, os.path.join(folder, "joblog")
    with open(log, "a", encoding="latin-1") as stream:
        if not os.path.getsize(log):
            stream.write("Seq\tHost\tStarttime\tJobRuntime\tSend\tReceive\tExitval\tSignal\tCommand\n")
        stream.writelines("%d\t:\t%.3f\t%.3f\t0\t0\t0\t0\t%s %s\n" % (numbers[identity], began, time.time() - began, by, identity)
                          for identity in identities)


def need_parallel():
    need("parallel", "parallel")
    told = subprocess.run(["parallel", "--version"], stdout=subprocess.PIPE, stderr=subprocess.DEVNULL).stdout
    if not told.startswith(b"GNU parallel"):
        raise Missing("the program parallel on the PATH isn't GNU parallel (Debian: apt-get install parallel)")


def by_parallel(folder, plan, read):
    """Runs the jobs by GNU parallel: its results and its job log stand in the folder. How it ends doesn't count, the results do."""
    keep_whole_results(folder, plan)
    words = ["parallel", "--will-cite", "--joblog", "joblog", "--resume", "--results", "results/{}"]
    words += ["--bar"] if sys.stderr.isatty() else []
    words += ["--jobs", read.jobs] if read.jobs else []
    for login in read.sshlogin:
        words += ["--sshlogin", login]
    if read.sshlogin:
        words += ["--workdir", "."]
    if read.copy:
        words += ["--basefile", kit_name(plan.digest)]
    words += ["python3", "-S", kit_name(plan.digest) + "/job.py", "{}", "::::", kit_name(plan.digest) + "/jobs"]
    # The output of jobs is in the results.
    running = subprocess.Popen(words, cwd=folder, stdin=subprocess.DEVNULL, stdout=subprocess.DEVNULL)
    try:
        running.wait()
    except KeyboardInterrupt:
        # It ends its jobs.
        running.send_signal(signal.SIGINT)
        running.wait()
        raise


def submit(folder, name, options, command):
    """Hands a script to sbatch; gives the number of the job and how sbatch ended."""
    path = os.path.join(folder, name)
    with open(path, "w", encoding="utf-8", errors="surrogateescape") as stream:
        stream.write("#!/bin/sh\ncd %s || exit 1\n%s\n" % (shlex.quote(folder), command))
    words = ["sbatch", "--parsable", "--job-name", "diqenyu-" + name, "--chdir", folder] + options + [path]
    done = subprocess.run(words, stdin=subprocess.DEVNULL, stdout=subprocess.PIPE)
    return done.stdout.decode("ascii", "replace").split(";")[0].strip(), done.returncode


def by_slurm(folder, plan):
    """One array job and one that gathers behind it, in whatever way the tasks end; waits for it and tells its answer."""
    need("sbatch", "slurm-client")
    keep_whole_results(folder, plan)
    for name in ("answer", "told", "status"):
        if os.path.exists(os.path.join(folder, name)):
            os.remove(os.path.join(folder, name))
    tasks = max(1, min(MOST_TASKS, len(plan.jobs())))
    share = 'python3 -S %s/job.py --share "$SLURM_ARRAY_TASK_ID" %d .' % (kit_name(plan.digest), tasks)
    array, status = submit(folder, "array", ["--array", "0-%d" % (tasks - 1), "--output", "array.log", "--open-mode", "append"], share)
    if status != 0 or not array:
        raise Missing("sbatch took no array job")
    gathering = "python3 -S %s/gather.py . >answer 2>told; echo $? >status.new; mv status.new status" % kit_name(plan.digest)
    _, status = submit(folder, "gathering", ["--dependency", "afterany:" + array, "--output", "gathering.log", "--wait"], gathering)
    if not os.path.exists(os.path.join(folder, "status")):
        raise Missing("the job that gathers left no answer (sbatch: status %d)" % status)
    for name, stream in (("told", sys.stderr), ("answer", sys.stdout)):
        with open(os.path.join(folder, name), "rb") as text:
            shutil.copyfileobj(text, stream.buffer)
        stream.flush()
    with open(os.path.join(folder, "status"), encoding="ascii") as text:
        return int(text.read())
