"""What the tests share: a failed requirement, and one line of output whatever happens."""

import sys


class Failure(Exception):
    """The first thing found wrong."""


def require(condition, text, *details):
    """Stop with a failure unless the condition holds."""
    if not condition:
        raise Failure(text % details)


def run(name, checks):
    """Run the checks, which answer what to say of them; 0 when all hold."""
    try:
        said = checks()
    except Failure as failure:
        print("%s: FAILED, %s" % (name, failure), file=sys.stderr)
        return 1
    except Exception as error:   # one line, whatever went wrong
        print("%s: FAILED, %s: %s" % (name, type(error).__name__, error), file=sys.stderr)
        return 1
    print("%s: good, %s" % (name, said))
    return 0
