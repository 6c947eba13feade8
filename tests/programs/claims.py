"""Claims a device by several processes, which hold it one after the other, and then once more and again."""

import multiprocessing
import os


def work(mode):
    times = 0
    while times < 20:
        try:
            file = os.open('/dev/nvme0n1', mode | os.O_EXCL)
        except OSError:
            continue
        os.close(os.open('/dev/shm/held', os.O_CREAT | os.O_EXCL | os.O_WRONLY))
        os.unlink('/dev/shm/held')
        os.close(file)
        times += 1
    return times


if __name__ == '__main__':
    print(multiprocessing.Pool(3).map(work, [os.O_RDONLY, os.O_RDONLY, os.O_RDWR], 1))
    for _ in range(500):
        os.close(os.open('/dev/nvme0n1', os.O_RDWR | os.O_EXCL))
