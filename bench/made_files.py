"""Files for measuring."""
import os


def made(maker, size, path):
    """Writes the file in a process of its own, whose memory isn't counted with that of the runs."""
    child = os.fork()
    if child == 0:
        with open(path, "wb") as file:
            file.write(maker(size))
        os._exit(0)
    os.waitpid(child, 0)
