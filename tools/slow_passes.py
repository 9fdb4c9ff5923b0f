"""What the entries of defragmentations do, slowly; from docs/FORMAT.md. Places are in slow_room.py."""


def defragment(reading, entry):
    """A pass begins or ends, or a defragmentation ends. The bytes of what moves stay as they are."""
    name, thing = entry[:2]
    _, _, pool, *limits = reading.made[thing][1]
    if name == "end_defrag":
        reading.ended[thing] = reading.count
        return
    reading.in_pass = thing if name == "pass" else None
    if reading.stop is None and name == "pass":
        reading.room.begin_pass(pool, *limits)
    elif reading.stop is None:
        reading.room.end_pass(pool, entry[2])
    for resource in entry[3] if name == "end_pass" else []:
        reading.ended[resource] = reading.count
        reading.room.end(resource)
