"""First runs of few steps and bytes, by which tests see further ones."""
from unittest import mock

from jsonpath_jp import _limits


def first_runs(steps=_limits.FIRST_RUN, size=_limits.FIRST_BYTES):
    first = _limits.Run(_limits.Most(steps, None, size))
    return mock.patch.multiple(_limits, FIRST_RUN=steps, FIRST_BYTES=size, FIRST=first)
