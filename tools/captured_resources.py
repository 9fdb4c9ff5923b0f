"""Makes the buffers and images of a captured program in the trace, as far as it can have them."""

from captured_masks import format_of
from captured_memory import HOST_ACCESS, bind_buffer, place
from captured_state import MOST_LAYERS, MOST_MEMORY, MOST_SIDE, Buffer, Image

SPARSE = 7
NO_TRANSFERS = "buffers and images without a usage of transfers aren't in the trace"


def created_buffer(world, call):
    """vkCreateBuffer."""
    info = call.args["pCreateInfo"]
    made = Buffer(call.args["pBuffer"], call, info)
    world.add(made)
    if info["flags"] & SPARSE:
        world.make_opaque(made, "it is sparse")
    elif not info["usage"] & 3:
        world.pass_over(made, NO_TRANSFERS)


def image_fault(info, form):
    """Why an image can't be in a trace, or nothing."""
    extent = info["extent"]
    if info["flags"] & SPARSE:
        return "it is sparse"
    if info["imageType"] == "VK_IMAGE_TYPE_3D" or extent["depth"] != 1:
        return "it has three dimensions"
    if info["samples"] != "VK_SAMPLE_COUNT_1_BIT":
        return "it is multisampled"
    if form is None:
        return f"its format {info['format']}"
    if info["tiling"] not in ("VK_IMAGE_TILING_OPTIMAL", "VK_IMAGE_TILING_LINEAR"):
        return f"its tiling {info['tiling']}"
    if info["tiling"] == "VK_IMAGE_TILING_LINEAR" and (info["mipLevels"], info["arrayLayers"]) != (
        1,
        1,
    ):
        return "it is linear, with several levels or layers"
    if max(extent["width"], extent["height"]) > MOST_SIDE or info["arrayLayers"] > MOST_LAYERS:
        return f"its sides or layers are over {MOST_SIDE} or {MOST_LAYERS}"
    if image_bytes(info, form) > MOST_MEMORY:
        return f"its {image_bytes(info, form)} bytes are more than {MOST_MEMORY}"
    return None


def image_bytes(info, form):
    """The bytes of an image as the profile places it."""
    extent, total = info["extent"], 0
    if info["tiling"] == "VK_IMAGE_TILING_LINEAR":
        return (extent["width"] * form.texel + 63) // 64 * 64 * extent["height"]
    for level in range(info["mipLevels"]):
        tiles = [(max(1, extent[side] >> level) + 7) // 8 for side in ("width", "height")]
        total += (tiles[0] * tiles[1] * 64 * form.texel + 255) // 256 * 256
    return total * info["arrayLayers"]


def created_image(world, call):
    """vkCreateImage."""
    info = call.args["pCreateInfo"]
    made = Image(call.args["pImage"], call)
    made.form, made.usage = format_of(info["format"]), info["usage"]
    made.levels, made.layers = info["mipLevels"], info["arrayLayers"]
    made.sides = (info["extent"]["width"], info["extent"]["height"])
    made.is_linear = info["tiling"] == "VK_IMAGE_TILING_LINEAR"
    made.is_concurrent = info["sharingMode"] == "VK_SHARING_MODE_CONCURRENT"
    world.add(made)
    fault = image_fault(info, made.form)
    if not info["usage"] & 3:
        world.pass_over(made, NO_TRANSFERS)
    elif fault:
        world.make_opaque(made, fault)
    else:
        made.size = made.extent = image_bytes(info, made.form)


def bind_image(world, handle, memory_handle, offset):
    """Binds an image, which is made in the trace."""
    image, memory = world.resources[handle], world.memories[memory_handle]
    place(world, image, memory, offset)
    memory.has_linear |= image.is_linear
    if memory.is_imported:
        world.make_opaque(image, "its memory is imported from the host")
    elif image.is_linear and memory.mapping:
        world.make_opaque(image, HOST_ACCESS)
    if image.why is not None:
        return
    image.id = world.trace.new_id()
    image.is_concurrent = image.is_concurrent or handle in world.shared
    world.emit(
        [
            "image",
            image.id,
            image.form.name,
            *image.sides,
            image.levels,
            image.layers,
            "linear" if image.is_linear else "optimal",
            image.usage & 3,
            "concurrent" if image.is_concurrent else "exclusive",
            ["dedicated", 0],
        ]
    )
    world.grow_heap(0, image.size)


def bind_buffers(world, call):
    """vkBindBufferMemory, of both generations."""
    for part in call.args.get("pBindInfos", [call.args]):
        bind_buffer(world, part["buffer"], part["memory"], part["memoryOffset"])


def bind_images(world, call):
    """vkBindImageMemory, of both generations."""
    for part in call.args.get("pBindInfos", [call.args]):
        if part["image"] in world.resources and part["memory"] in world.memories:
            bind_image(world, part["image"], part["memory"], part["memoryOffset"])


def requirements(world, call):
    """vkGetBufferMemoryRequirements and vkGetImageMemoryRequirements: how many bytes are bound."""
    info = call.args.get("pInfo", call.args)
    needed = call.args["pMemoryRequirements"]
    part = world.resources.get(info.get("image"))
    if part is not None:
        part.extent = needed.get("memoryRequirements", needed)["size"]
