"""Submits, semaphores, fences and waits of a captured program.

Each queue has a timeline semaphore of its own in the trace, which every batch raises by one. A fence, a binary
semaphore or an idle queue is a value of it: what it stands for is a list of such values, its payload.
"""

import bisect

from captured_commands import Context, translated
from captured_masks import ALL_COMMANDS, stages
from captured_host import reads_after_wait, stand_in
from captured_memory import chain
from captured_blocks import Bad

QUEUES_OF = ((0, 1), (2, 3))
GRAPHICS_OR_COMPUTE = 3
ANY = "a wait for any of several fences or semaphores counts as a wait for all of them"
UNKNOWN = (
    "a wait for a semaphore that is signaled outside of what is judged counts as a wait for all that was"
    " submitted before"
)
MERGED = "several queues of the program are one in the trace, which has two of each family"
ONE_FAMILY = "families of queues with graphics or compute are one in the trace"
EXPORTED = "what is waited for by handles outside of Vulkan isn't seen"


class Queue:
    """A queue of the trace: its number, the family in the capture, its semaphore, and its batches so far."""

    def __init__(self, number, family, semaphore):
        self.number, self.family, self.semaphore = number, family, semaphore
        self.count = 0
        self.waited = {}


class Timeline:
    """A timeline semaphore of the program: its id, its values in order, and the batch of each."""

    def __init__(self, number, initial):
        self.id, self.initial = number, initial
        self.values, self.batches = [], {}

    def signal(self, value, batch):
        """A signal is submitted, or the host signals."""
        if value not in self.batches:
            bisect.insort(self.values, value)
            self.batches[value] = batch

    def reaching(self, value):
        """The least value signaled that is enough for one, or nothing."""
        place = bisect.bisect_left(self.values, value)
        return self.values[place] if place < len(self.values) else None


class Queues:
    """All queues, and which batches the host knows to be complete."""

    def __init__(self, world):
        self.world = world
        self.handles, self.queues, self.known = {}, [], {}

    def name(self, call):
        """The program asks for a queue."""
        info = call.args.get("pQueueInfo", call.args)
        self.handles.setdefault(call.args["pQueue"], info["queueFamilyIndex"])

    def of(self, handle):
        """The queue of a handle."""
        found = self.handles.get(handle)
        if found is None:
            raise Bad(f"{self.world.call}: queue {handle!r} wasn't asked for")
        if not isinstance(found, Queue):
            found = self.handles[handle] = self.made(found)
        return found

    def made(self, family):
        """A queue of the trace for one of the program."""
        numbers = QUEUES_OF[self.world.families.get(family, 0)]
        taken = [queue for queue in self.queues if queue.number in numbers]
        if len(taken) == len(numbers):
            self.world.summary.note(MERGED)
            return taken[-1]
        semaphore = self.world.trace.new_id()
        self.world.emit(["semaphore", semaphore, 0])
        queue = Queue(numbers[len(taken)], family, semaphore)
        self.queues.append(queue)
        self.known[queue.number] = 0
        return queue

    def is_free(self, number):
        """Whether the program has no queue of this number."""
        return all(queue.number != number for queue in self.queues)

    def submitted(self):
        """The payload of all that is submitted so far."""
        return [
            (queue.semaphore, queue.count, (queue.number, queue.count))
            for queue in self.queues
            if queue.count
        ]

    def marks(self):
        """How many batches each queue has so far."""
        return {queue.number: queue.count for queue in self.queues}

    def is_before(self, batch, marks):
        """Whether a batch was submitted before marks were taken."""
        return batch[1] <= marks.get(batch[0], 0)

    def is_complete(self, batch):
        """Whether the host knows a batch to be complete."""
        return batch[1] <= self.known[batch[0]]

    def complete(self, batch):
        """The host comes to know that a batch, and what it waited for, is complete."""
        waiting = [batch]
        while waiting:
            number, count = waiting.pop()
            queue = next(queue for queue in self.queues if queue.number == number)
            for earlier in range(self.known[number] + 1, count + 1):
                waiting += queue.waited.pop(earlier, [])
            self.known[number] = max(self.known[number], count)


class Semaphores:
    """The semaphores and fences of the program, by their handles, and the waits of the host."""

    def __init__(self, world):
        self.world = world
        self.timelines, self.payloads = {}, {}
        self.presented, self.waited = {}, {}

    def create(self, call):
        """vkCreateSemaphore."""
        for link in chain(call.args["pCreateInfo"]):
            if link.get("semaphoreType") == "VK_SEMAPHORE_TYPE_TIMELINE":
                number = self.world.trace.new_id()
                self.world.emit(["semaphore", number, link["initialValue"]])
                self.timelines[call.args["pSemaphore"]] = Timeline(number, link["initialValue"])

    def awaited(self, handle, value):
        """The payload of a wait for a semaphore; of a binary one it is taken."""
        timeline = self.timelines.get(handle)
        if timeline is not None:
            reached = timeline.reaching(value)
            batch = timeline.batches[reached] if reached is not None else None
            return [(timeline.id, value, batch)] if value > timeline.initial else []
        if handle not in self.payloads:
            self.world.summary.note(UNKNOWN)
            return self.world.queues.submitted()
        return self.payloads.pop(handle)

    def wait(self, payload):
        """The host waits for a payload, as far as it hasn't."""
        values = {}
        for number, value, batch in payload:
            if value > self.waited.get(number, 0):
                values[number] = max(value, values.get(number, 0))
            if batch is not None:
                self.world.queues.complete(batch)
        if values:
            self.waited.update(values)
            self.world.emit(["wait", [[number, value] for number, value in values.items()]])
            reads_after_wait(self.world)

    def host_waits(self, pairs):
        """The host has waited for timeline semaphores."""
        payload = []
        for handle, value in pairs:
            timeline = self.timelines.get(handle)
            if timeline is None or value > timeline.initial and timeline.reaching(value) is None:
                self.world.summary.note(UNKNOWN)
                payload += self.world.queues.submitted()
            else:
                payload += self.awaited(handle, value)
        self.wait(payload)


def families_of(world, call):
    """Notes which families of a physical device have transfers alone."""
    families = world.physical[call.args["physicalDevice"]].families
    parts = call.args["pQueueFamilyProperties"] or []
    for number, part in enumerate(parts):
        flags = part.get("queueFamilyProperties", part)["queueFlags"]
        families[number] = 0 if flags & GRAPHICS_OR_COMPUTE else 1


def commands_of(world, handles):
    """The calls of command buffers, with those of the secondary ones in their places."""
    for handle in handles:
        for call in world.recordings.get(handle, []):
            if call.name == "vkCmdExecuteCommands":
                world.summary.judged += 1
                yield from commands_of(world, call.args["pCommandBuffers"])
            else:
                yield call


def batch_parts(info):
    """The waits, command buffers and signals of a batch, of both generations."""
    if "pCommandBufferInfos" in info:

        def listed(name):
            return [
                (part["semaphore"], part["value"], part["stageMask"]) for part in info[name] or []
            ]

        handles = [part["commandBuffer"] for part in info["pCommandBufferInfos"] or []]
        return listed("pWaitSemaphoreInfos"), handles, listed("pSignalSemaphoreInfos")
    values = next((link for link in chain(info) if "pSignalSemaphoreValues" in link), {})

    def zipped(semaphores, numbers, masks):
        semaphores = semaphores or []
        numbers = list(numbers or []) + [0] * len(semaphores)
        masks = masks if masks is not None else [ALL_COMMANDS] * len(semaphores)
        return list(zip(semaphores, numbers, masks))

    waits = zipped(
        info["pWaitSemaphores"], values.get("pWaitSemaphoreValues"), info.get("pWaitDstStageMask")
    )
    return (
        waits,
        info.get("pCommandBuffers") or [],
        zipped(info["pSignalSemaphores"], values.get("pSignalSemaphoreValues"), None),
    )


def batch_of(world, queue, info):
    """A batch of the trace, and the calls of its commands."""
    waits, handles, signals = batch_parts(info)
    queue.count += 1
    batch = (queue.number, queue.count)
    made_waits, waited = [], []
    for handle, value, mask in waits:
        for number, least, earlier in world.semaphores.awaited(handle, value):
            made_waits.append([number, least, stages(mask, False)])
            waited += [earlier] if earlier is not None else []
    queue.waited[queue.count] = waited
    commands, origins = [], []
    context = Context(queue.family, batch, waited, world.queues.is_free(queue.number ^ 1))
    for call in commands_of(world, handles):
        made = translated_call(world, call, context)
        commands += made
        origins += [[call.index, call.name]] * len(made)
    world.command = None
    if context.fills:
        made_waits.append(stand_in(world, queue, context.fills))
    made_signals = [[queue.semaphore, queue.count, ALL_COMMANDS]]
    for handle, value, mask in signals:
        made_signals += signal_of(world, queue, batch, (handle, value, stages(mask, True)))
    return [made_waits, commands, made_signals], origins


def translated_call(world, call, context):
    """The commands of the trace for one of the program, with an error that names it."""
    try:
        return translated(world, call, context)
    except (KeyError, TypeError, ValueError, AttributeError, IndexError) as error:
        raise Bad(
            f"{call}: its arguments aren't as expected: {type(error).__name__} {error}"
        ) from error


def signal_of(world, queue, batch, signal):
    """The signals of the trace for one of a batch."""
    handle, value, mask = signal
    timeline = world.semaphores.timelines.get(handle)
    if timeline is not None:
        timeline.signal(value, batch)
        return [[timeline.id, value, mask]]
    if mask == ALL_COMMANDS:
        world.semaphores.payloads[handle] = [(queue.semaphore, queue.count, batch)]
        return []
    number = world.trace.new_id()
    world.emit(["semaphore", number, 0])
    world.semaphores.payloads[handle] = [(number, 1, batch)]
    return [[number, 1, mask]]


def submit(world, call):
    """vkQueueSubmit, of both generations, and vkQueueBindSparse, whose batches have no commands."""
    queue = world.queues.of(call.args["queue"])
    infos = call.args["pBindInfo"] if "pBindInfo" in call.args else call.args["pSubmits"]
    made = [batch_of(world, queue, info) for info in infos or []]
    if made:
        batches = [batch for batch, _ in made]
        points = 1 + sum(len(part) for batch in batches for part in batch)
        world.trace.add(
            ["submit", queue.number, batches], call, None, [part for _, part in made], points
        )
    fence = call.args["fence"]
    if isinstance(fence, int):
        batch = (queue.number, queue.count)
        world.semaphores.payloads[fence] = (
            [(queue.semaphore, queue.count, batch)] if queue.count else []
        )


def wait_fences(world, call):
    """vkWaitForFences."""
    if not call.args["waitAll"] and len(call.args["pFences"]) > 1:
        world.summary.note(ANY)
    world.semaphores.wait(
        [
            part
            for fence in call.args["pFences"]
            for part in world.semaphores.payloads.get(fence, [])
        ]
    )


def fence_status(world, call):
    """vkGetFenceStatus, where it says that the fence is signaled."""
    world.semaphores.wait(world.semaphores.payloads.get(call.args["fence"], []))


def wait_semaphores(world, call):
    """vkWaitSemaphores."""
    info = call.args["pWaitInfo"]
    if info["flags"] and len(info["pSemaphores"]) > 1:
        world.summary.note(ANY)
    world.semaphores.host_waits(zip(info["pSemaphores"], info["pValues"]))


def counter_value(world, call):
    """vkGetSemaphoreCounterValue: the host knows that this value is reached."""
    world.semaphores.host_waits([(call.args["semaphore"], call.args["pValue"])])


def signal(world, call):
    """vkSignalSemaphore."""
    info = call.args["pSignalInfo"]
    timeline = world.semaphores.timelines[info["semaphore"]]
    timeline.signal(info["value"], None)
    world.emit(["signal", timeline.id, info["value"]])


def queue_idle(world, call):
    """vkQueueWaitIdle."""
    queue = world.queues.of(call.args["queue"])
    if queue.count:
        world.semaphores.wait([(queue.semaphore, queue.count, (queue.number, queue.count))])


def device_idle(world, _call):
    """vkDeviceWaitIdle."""
    world.semaphores.wait(world.queues.submitted())


def present(world, call):
    """vkQueuePresentKHR: what it waits for comes before what the presentation engine signals later."""
    for handle in call.args["pPresentInfo"]["pWaitSemaphores"] or []:
        for number, value, batch in world.semaphores.awaited(handle, 0):
            world.semaphores.presented[number] = (number, value, batch)


def acquire(world, call):
    """vkAcquireNextImageKHR: its semaphore and its fence come after all that was presented."""
    info = call.args.get("pAcquireInfo", call.args)
    for handle in (info["semaphore"], info["fence"]):
        if isinstance(handle, int):
            world.semaphores.payloads[handle] = list(world.semaphores.presented.values())


def import_payload(world, call):
    """A semaphore or a fence gets a payload from outside."""
    info = next(value for name, value in call.args.items() if name.startswith("pImport"))
    world.semaphores.payloads.pop(info.get("semaphore", info.get("fence")), None)
    world.summary.note(EXPORTED, 0)


def fence_created(world, call):
    """vkCreateFence."""
    world.semaphores.payloads[call.args["pFence"]] = []
