"""What the front waits for: files, each with the one to whom it belongs. Python's selectors do the same, at several times the
cost a line."""
import select

READ, WRITE, NOTHING = select.EPOLLIN, select.EPOLLOUT, 0


class Watch:
    """Files by their descriptors: the events that are waited for, and whose they are."""

    def __init__(self) -> None:
        self.epoll = select.epoll()
        self.events: dict[int, int] = {}
        self.owners: dict[int, object] = {}

    def set(self, number: int, events: int, owner: object) -> None:
        """Waits for these events of a file from now on, which may be none. A file that was closed is forgotten where another
        one gets its number."""
        if self.owners.get(number, owner) is not owner:
            self.forget(number, self.owners[number])
        before = self.events.get(number, NOTHING)
        if before == events:
            return
        self.events[number], self.owners[number] = events, owner
        if before == NOTHING:
            self.epoll.register(number, events)
        elif events == NOTHING:
            self.epoll.unregister(number)
            del self.events[number], self.owners[number]
        else:
            self.epoll.modify(number, events)

    def forget(self, number: int, owner: object) -> None:
        """Waits for nothing any more of a file that may be closed already."""
        if self.owners.get(number) is owner:
            del self.events[number], self.owners[number]
            try:
                self.epoll.unregister(number)
            except OSError:
                pass

    def wait(self, seconds: float) -> list[object]:
        """The owners of files for which something came, after so many seconds at most."""
        return [self.owners[number] for number, _ in self.epoll.poll(seconds)]
