"""Programs that were started: what would end this call ends them."""
import signal


def hand_on(started):
    """From now on what would end this call goes to the program that was started."""
    for number in (signal.SIGTERM, signal.SIGHUP):
        signal.signal(number, lambda got, _: started.send_signal(got))
