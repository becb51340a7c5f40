"""What the server made of the locks: who has a lease of each, and who is next."""


class Queues:
    """The server's leases and queue of each lock at the end of a journal, and the clients that it lost."""

    def __init__(self, entries):
        # lock -> {client: (level, the entry that granted it)}, and lock -> [(client, level, the entry that took it)]
        self.leases, self.queues = {}, {}
        # client -> the entry that lost it
        self.lost = {}
        for entry in entries:
            if entry.node == 0:
                self.add(entry)

    def add(self, entry):
        if entry.kind == 'lose':
            self.lose(entry)
        elif entry.kind == 'took' and entry.peer not in self.lost:
            self.take(entry, entry.message)
        for client, message in entry.sent:
            if message.kind == 'grant':
                queue = self.queues.get(message.lock, [])
                self.queues[message.lock] = [asked for asked in queue if asked[0] != client]
                self.leases.setdefault(message.lock, {})[client] = (message.level, entry)

    def take(self, entry, message):
        if message.kind == 'request':
            self.queues.setdefault(message.lock, []).append((entry.peer, message.level, entry))
        elif message.kind == 'return':
            self.leases.get(message.lock, {}).pop(entry.peer, None)

    def lose(self, entry):
        self.lost[entry.peer] = entry
        for leases in self.leases.values():
            leases.pop(entry.peer, None)
        for lock, queue in self.queues.items():
            self.queues[lock] = [asked for asked in queue if asked[0] != entry.peer]

    def holders(self, lock):
        """{client: (level, entry)}"""
        return self.leases.get(lock, {})

    def has_asked(self, lock, client):
        """Whether a client is in the queue."""
        return any(asked[0] == client for asked in self.queues.get(lock, []))

    def before(self, lock, client):
        """The clients in the queue before this one."""
        clients = [asked[0] for asked in self.queues.get(lock, [])]
        return clients[:clients.index(client)] if client in clients else []
