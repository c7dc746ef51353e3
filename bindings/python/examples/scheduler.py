"""Tasks come over a queue, at any time. Each needs a room and all that the room shares with its neighbours."""
import queue
import threading
import time

from dine import Table

TASKS = 5000

table = Table()
rooms = [table.worker(f"room{n}") for n in range(8)]
for n in range(8):
    table.edge(rooms[n], rooms[(n + 1) % 8], 0)
tasks: "queue.Queue[tuple[int, float] | None]" = queue.Queue()
waits: "list[float]" = []


def works() -> None:
    while task := tasks.get():
        room, came = task
        with opened.seat(rooms[room]) as meal:
            for neighbour in meal:
                meal[neighbour] += 1
        waits.append(time.perf_counter() - came)


with table.open() as opened:
    threads = [threading.Thread(target=works) for _ in range(4)]
    for thread in threads:
        thread.start()
    for n in range(TASKS):
        if n % 8 == 0:
            time.sleep(0.001)
        tasks.put((n * 5 % 8, time.perf_counter()))
    for thread in threads:
        tasks.put(None)
    for thread in threads:
        thread.join()
used = sum(opened.closed.values) if opened.closed else 0
print(f"{len(waits)} tasks, {used} uses, half of them done within {sorted(waits)[TASKS // 2] * 1e6:.0f} µs")
