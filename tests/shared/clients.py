"""Many clients at once, in threads of their own."""
import queue
import threading

from shared.server_runs import CHECK_TIME


class Together:
    """So many threads, which all do the same: each `run` of who derives from this."""

    def __init__(self, count):
        self.threads = [threading.Thread(target=self.run, daemon=True) for _ in range(count)]

    def run(self):
        raise NotImplementedError

    def start(self):
        for thread in self.threads:
            thread.start()
        return self

    def finish(self):
        """Waits until all have come to their end."""
        for thread in self.threads:
            thread.join(CHECK_TIME)
        return self


class Pool(Together):
    """Clients of a server, one for each task: each thread takes the next task, until none is left."""

    def __init__(self, server, tasks, most):
        super().__init__(most)
        self.server = server
        self.left = queue.SimpleQueue()
        for task in tasks:
            self.left.put(task)

    def run(self):
        while True:
            try:
                task = self.left.get_nowait()
            except queue.Empty:
                return
            self.serve(task)

    def serve(self, task):
        """What one client does."""
        raise NotImplementedError

    def asked(self, **how):
        """What a client gets that asks once, or its fault."""
        try:
            return self.server.ask(**how)
        except OSError as fault:
            return repr(fault).encode()
