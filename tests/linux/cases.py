"""What a case is: a page, what the page says, and a generator of what was seen beside what it says."""

CASES = []


def case(page, fact):
    """Makes a case of a generator that gives (what, seen, said) for each thing that is tried."""

    def keep(function):
        CASES.append((page, fact, function))
        return function

    return keep
