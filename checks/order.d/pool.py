"""Three threads of a pool, and a queue with times between two further ones."""

import queue
import threading
from concurrent.futures import ThreadPoolExecutor

waiting: queue.Queue[int] = queue.Queue()
taken: list[int] = []


def take() -> None:
    while len(taken) < 10:
        try:
            taken.append(waiting.get(timeout=0.001))
        except queue.Empty:
            taken.append(-1)


with ThreadPoolExecutor(3) as pool:
    print(sum(pool.map(lambda n: sum(range(n)), [300] * 20)))
thread = threading.Thread(target=take)
thread.start()
for number in range(10):
    waiting.put(number)
thread.join()
print(taken)
