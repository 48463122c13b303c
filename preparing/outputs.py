"""The folder that is written: all of it, or nothing."""
import os
import shutil
import tempfile

from .faults import CannotWrite


def check_free(folder):
    """Refuses a folder that is there and not empty, before any work is done for it."""
    try:
        if os.path.lexists(folder) and (not os.path.isdir(folder) or os.listdir(folder)):
            raise CannotWrite(folder, "it is there and not an empty folder")
    except OSError as error:
        raise CannotWrite(folder, error.strerror) from None
    above = os.path.dirname(os.path.abspath(folder))
    if not os.path.isdir(above):
        raise CannotWrite(folder, "there is no folder %s" % above)


def write_folder(folder, files):
    """Writes files, pairs of a path in the folder and its bytes, beside the folder, and then gives them its name."""
    above = os.path.dirname(os.path.abspath(folder))
    scratch = None
    try:
        scratch = tempfile.mkdtemp(prefix=".%s-" % os.path.basename(os.path.abspath(folder)), dir=above)
        for path, content in files:
            whole = os.path.join(scratch, path)
            os.makedirs(os.path.dirname(whole), exist_ok=True)
            with open(whole, "wb") as file:
                file.write(content)
        # The folder for the user's own work has the rights that any new one has.
        umask = os.umask(0)
        os.umask(umask)
        os.chmod(scratch, 0o777 & ~umask)
        if os.path.isdir(folder):
            os.rmdir(folder)
        os.rename(scratch, folder)
    except OSError as error:
        raise CannotWrite(folder, error.strerror or str(error)) from None
    finally:
        if scratch is not None:
            shutil.rmtree(scratch, ignore_errors=True)
