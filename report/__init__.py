"""A report of a run of the gate: what was posted against each limit, and what was refused."""
