"""Starts the driver on cases."""

import subprocess

import frames


def replies(command, some, form=frames):
    """The bytes of each reply, or none where the driver ended early. The form is the module that tells the frames of these cases."""
    asked = b"".join(map(form.asked, some))
    ended = subprocess.run(command, input=asked, stdout=subprocess.PIPE, check=False)
    return None if ended.returncode else parted(ended.stdout, some, form)


def parted(told, some, form):
    """The replies one by one, or none where they are too few or too many bytes."""
    sizes = list(map(form.reply_size, some))
    if len(told) != sum(sizes):
        return None
    found, start = [], 0
    for size in sizes:
        found.append(told[start : start + size])
        start += size
    return found


def first_unanswered(command, some, form=frames):
    """The first case that the driver does not survive, where it does not survive all of them."""
    answered, unanswered = 0, len(some)
    while unanswered - answered > 1:
        middle = (answered + unanswered) // 2
        if replies(command, some[:middle], form) is None:
            unanswered = middle
        else:
            answered = middle
    return some[answered]
