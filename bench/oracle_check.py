"""What `heaprec --check` has to say of a trace, worked out slowly: every order that the scripts allow is recorded, and the trace is
compared with each recording. The scripts are well formed and small."""

from oracle_lines import events_of_script, recorded


def lines_of(data):
    lines = data.split(b"\n")
    return lines if lines[-1] else lines[:-1]


def turns_of_script(script):
    """How many events each turn has: two where the script reallocates."""
    lines = [line for line in script.split(b"\n") if line and not line.startswith(b"#")]
    return [2 if line.startswith(b"r") else 1 for line in lines]


def orders_under(turns):
    """All orders in which threads with these turns may take them, each of a part of the turns or of all."""
    pending = [([], [0] * len(turns))]
    while pending:
        order, taken = pending.pop()
        yield order
        for thread, place in enumerate(taken):
            if place < len(turns[thread]):
                further = list(taken)
                further[thread] += 1
                pending.append((order + [thread] * turns[thread][place], further))


def common(lines, others):
    """How many lines at the front are the same."""
    for count, (line, other) in enumerate(zip(lines, others)):
        if line != other:
            return count
    return min(len(lines), len(others))


def checked(scripts, modules, trace):
    """The number of events and no line, or no number of events and the line at which the trace can't be a recording."""
    turns = [turns_of_script(script) for script in scripts]
    events = sum(map(sum, turns))
    lines, front = lines_of(trace), 0
    for order in orders_under(turns):
        recording = recorded(scripts, modules, order, False)
        if recording == trace and len(order) == events:
            return events, None
        front = max(front, common(lines, lines_of(recording)))
    return None, front + 1
