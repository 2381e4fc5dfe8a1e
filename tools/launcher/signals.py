"""Signals that end the launcher, and with it what it runs."""
import os, signal


class Stopped(BaseException):
    """A signal has come that ends the launcher."""

    def __init__(self, number):
        super().__init__(number)
        self.number = number


class Watch:
    """While `is_held`, as where a process is started, a signal is only taken down."""

    is_held, number = False, None

    def take(self, number, _frame):
        if not self.is_held:
            raise Stopped(number)
        self.number = number


WATCH = Watch()


def watch():
    """Has a signal that would end the launcher raise Stopped, where it is not ignored."""
    for number in (signal.SIGHUP, signal.SIGINT, signal.SIGTERM):
        if signal.getsignal(number) != signal.SIG_IGN:
            signal.signal(number, WATCH.take)


def hold():
    WATCH.is_held = True


def release():
    """Raises Stopped where a signal came meanwhile."""
    WATCH.is_held = False
    if WATCH.number is not None:
        raise Stopped(WATCH.number)


def end_by(number):
    """Ends the launcher by a signal, as it would have ended the program."""
    signal.signal(number, signal.SIG_DFL)
    os.kill(os.getpid(), number)
