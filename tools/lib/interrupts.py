"""Ctrl-C at a terminal."""
import contextlib
import signal


class Interrupts:
    """Within it, an interrupt is raised only where something allows it, and there once. Any other is forgotten, so that none ends the session."""

    def __init__(self):
        self.is_allowed = False

    def __enter__(self):
        self.before = signal.signal(signal.SIGINT, self.come)

    def __exit__(self, *_):
        signal.signal(signal.SIGINT, self.before)

    def come(self, *_):
        if self.is_allowed:
            self.is_allowed = False
            raise KeyboardInterrupt

    @contextlib.contextmanager
    def allowed(self):
        self.is_allowed = True
        try:
            yield
        except SystemError as fault:
            # input() calls the handler of a second interrupt while the first is raised, which Python reports so.
            if not isinstance(fault.__cause__, KeyboardInterrupt):
                raise
            raise KeyboardInterrupt from None
        finally:
            self.is_allowed = False
