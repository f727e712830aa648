"""Processes as Linux tells them: those that one has started, and whether they still run."""
import os


def told(number):
    """The parent of a process, and when it was started; None where it does not run any more."""
    try:
        with open(f'/proc/{number}/stat') as file:
            fields = file.read().rsplit(')', 1)[1].split()
    except OSError:
        return None
    return None if fields[0] == 'Z' else (int(fields[1]), fields[19])


def below(number):
    """The processes that one has started, and those that they have, each with when it was started."""
    running = {int(it): told(it) for it in os.listdir('/proc') if it.isdigit()}
    found, more = {}, {number}
    while more:
        more = {it for it, how in running.items() if how and how[0] in more} - set(found)
        found.update((it, running[it][1]) for it in more)
    return found


def still(started):
    """Those of some processes that still run; a later process of the same number is another one."""
    return [it for it, when in started.items() if (told(it) or (0, ''))[1] == when]
