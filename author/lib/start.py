"""Starts a command. Any Python 3 can read this file, so that an old one is told what is wanted."""
import os, signal, sys


def run(path):
    """Runs the command at this path. Until `run_tool` does, Ctrl-C ends it without a word."""
    # A link to a command may have any name.
    name = os.path.basename(os.path.realpath(path))
    if signal.getsignal(signal.SIGINT) == signal.default_int_handler:
        signal.signal(signal.SIGINT, signal.SIG_DFL)
    if sys.version_info < (3, 11):
        sys.stderr.write("failed: %s needs Python 3.11, and this is Python %d.%d\n"
                         % ((name,) + sys.version_info[:2]))
        sys.exit(3)
    try:
        import importlib
        from .endings import run_tool
    except (MemoryError, ImportError, OSError) as error:  # without memory it may be any of them
        sys.stderr.write("failed: %s\n" % (str(error) or "out of memory"))
        sys.exit(3)
    run_tool(lambda: importlib.import_module("." + name[len("cwtune-"):], __package__).main())
