"""Draws submits, whose commands are put in one at a time, each with what it needs before it."""

from drawn_commands import Commands
from growing import HOST_SEMAPHORE, NEVER_SIGNALED, SEMAPHORES
from points import ALL_COMMANDS, HOST, TRANSFER


class Batches(Commands):
    """The submits of a trace that grows."""

    def stages(self):
        usual = (ALL_COMMANDS,) * 5 + (TRANSFER, TRANSFER | ALL_COMMANDS)
        return self.random.choice(usual + (0, HOST) * (self.slips > 0))

    def wait(self, semaphore):
        signaled = self.last_values[semaphore]
        return [semaphore, max(0, signaled - self.random.choice((0, 0, 0, 1))), self.stages()]

    def signal(self, semaphore):
        self.last_values[semaphore] += 0 if self.slip() else self.random.randint(1, 3)
        return [semaphore, self.last_values[semaphore], self.stages()]

    def submit(self):
        """A submit whose commands are put in one at a time."""
        queue = 4 if self.slip() else self.random.randrange(4)
        waits = [self.wait(s) for s in (*SEMAPHORES, HOST_SEMAPHORE) if self.chance(0.2)]
        batches = [[waits, [], []]]
        if self.tried(["submit", queue, batches]).fault is not None:
            batches[0][0].clear()
        for command in self.commands(queue):
            if self.chance(0.1):
                batches.append([[], [], []])
            self.put(queue, batches, command)
        semaphores = [SEMAPHORES[queue % 4]] if self.chance(0.8) else []
        if self.chance(0.1):
            semaphores.append(self.random.choice((*SEMAPHORES, HOST_SEMAPHORE)))
        for semaphore in semaphores:
            self.put_signal(queue, batches, semaphore)
        self.offer(["submit", queue, batches])

    def put(self, queue, batches, command):
        """Puts a command into the last batch, with what it needs before it."""
        waits, commands, _ = batches[-1]
        barrier = self.helping(command, queue)
        all_waits = self.all_waits()
        for more_waits, more in (([], []), ([], [barrier]), (all_waits, []), (all_waits, [barrier])):
            batch = [waits + more_waits, [*commands, *more, command], []]
            reading = self.tried(["submit", queue, [*batches[:-1], batch]])
            if reading.fault is None or self.keeps(reading, 0.7 if more else 0.2):
                batches[-1] = batch
                return

    def put_signal(self, queue, batches, semaphore):
        value = self.last_values[semaphore]
        signal = self.signal(semaphore)
        batches[-1][2].append(signal)
        reading = self.tried(["submit", queue, batches])
        if reading.fault is not None and not self.keeps(reading):
            batches[-1][2].pop()
            self.last_values[semaphore] = value

    def submit_all(self, family, commands, with_signal):
        """A submit of these commands on a queue of a family."""
        queue = 2 * family + self.random.randrange(2)
        batches = [[[], [], []]]
        for command in commands:
            self.put(queue, batches, command)
        if with_signal:
            self.put_signal(queue, batches, SEMAPHORES[queue])
        self.offer(["submit", queue, batches])

    def held_back(self):
        """A fill that waits for the host's next signal, in a batch of its own."""
        value = self.last_values[HOST_SEMAPHORE] + 1
        queue = self.random.randrange(4)
        if self.sizes:
            self.offer(["submit", queue, [[[[HOST_SEMAPHORE, value, ALL_COMMANDS]], [self.fill()], []]]])

    def never_started(self):
        """A batch that waits for what is never signaled: it isn't run, and breaks no rule."""
        queue = self.random.randrange(4)
        commands = self.commands(queue)
        self.offer(["submit", queue, [[[[NEVER_SIGNALED, 9, ALL_COMMANDS]], commands, []]]])
