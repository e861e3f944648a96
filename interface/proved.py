"""The names of the proved functions that those of C call."""

# The proved function of these makes a worker's call, and tells its place in the history, if there is one.
BY_WORKER = ("line", "fork_at", "call_told")


def proved_name(name):
    """The name of the proved function of one of C, both without what they begin with."""
    return f"{name}_by" if name in BY_WORKER else name
