"""Work that takes long, such as reading and planning an upload: it is done outside of the event loop, piece by piece.

One thread does all pieces in the order in which they come. So whoever has much work waits after each piece until the
others have had theirs."""
import asyncio
import gc
import sys
from collections.abc import Callable
from concurrent.futures import ThreadPoolExecutor
from typing import ParamSpec, TypeVar

Arguments = ParamSpec("Arguments")
Result = TypeVar("Result")

# For how many seconds a thread computes at most before another has its turn. By Python's own 5 milliseconds, a request
# would take ten times as long while the thread works, because the event loop waits after each call of the system.
SWITCH_SECONDS = 0.0005

WORKER = ThreadPoolExecutor(1, "maproom")

# What cannot be cut into pieces has a thread of its own.
LOOKER = ThreadPoolExecutor(1, "maproom-looks")


def share_fairly() -> None:
    """Makes threads have their turns more often, in all of the program."""
    sys.setswitchinterval(SWITCH_SECONDS)


def keep_what_is_there() -> None:
    """Has the garbage collector pass over what is there now, such as the map. Nobody is served while it looks through
    the objects: 0.2 seconds for a map of 200,000 elements."""
    gc.collect()
    gc.freeze()


async def worked(
    function: Callable[Arguments, Result], *arguments: Arguments.args, **named: Arguments.kwargs
) -> Result:
    """Returns what a function returns for some arguments. The worker calls it after the pieces that came before."""
    call: Callable[[], Result] = lambda: function(*arguments, **named)
    return await asyncio.get_running_loop().run_in_executor(WORKER, call)


async def looked_up(
    function: Callable[Arguments, Result], *arguments: Arguments.args, **named: Arguments.kwargs
) -> Result:
    """Returns what a function returns for some arguments, which may take long."""
    call: Callable[[], Result] = lambda: function(*arguments, **named)
    return await asyncio.get_running_loop().run_in_executor(LOOKER, call)
