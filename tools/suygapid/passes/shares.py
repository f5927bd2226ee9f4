"""How work is shared among processes."""
from heapq import heapreplace
from typing import Sequence


def shares_of(sizes: Sequence[int], jobs: int) -> list[list[int]]:
    """The numbers of what has these sizes, in as many shares at most, which are about equally large."""
    shares: list[list[int]] = [[] for _ in range(jobs)]
    heap = [(0, number) for number in range(jobs)]
    for number in sorted(range(len(sizes)), key=lambda number: -sizes[number]):
        size, least = heap[0]
        shares[least].append(number)
        heapreplace(heap, (size + sizes[number], least))
    return list(filter(None, shares))
