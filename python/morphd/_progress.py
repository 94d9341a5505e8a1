"""A progress bar on standard error: tqdm's, or a plain count where that is not installed."""
from __future__ import annotations

import sys
from collections.abc import Callable


def bar(total: int, unit: str) -> Callable[[], None]:
    """What is called for each one that is done."""
    try:
        from tqdm.auto import tqdm
    except ImportError:
        done = iter(range(1, total + 1))
        return lambda: print(f"\r{next(done)} of {total} {unit}s", end="", file=sys.stderr, flush=True)
    shown = tqdm(total=total, unit=unit)

    def one_more() -> None:
        shown.update()
        if shown.n >= total:
            shown.close()

    return one_more
