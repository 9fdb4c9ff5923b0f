"""Writes the JSON Lines of a capture as gfxrecon-convert does, of programs that aren't run.

So there are captures of what few drivers have: several families of queues, memory that isn't coherent. Only the
arguments that a converter needs are written.
"""

import json

PHYSICAL, DEVICE = 1, 2
IGNORED, WHOLE = 0xFFFFFFFF, 0xFFFFFFFFFFFFFFFF
TRANSFER, HOST, FRAGMENT, COMPUTE, TOP, BOTTOM, ALL = (
    0x1000,
    0x4000,
    0x80,
    0x800,
    0x1,
    0x2000,
    0x10000,
)
READ, WRITE, HOST_READ, SHADER_READ, SHADER_WRITE = 0x800, 0x1000, 0x2000, 0x20, 0x40
LOCAL, COHERENT, CACHED = 0, 1, 2
GRAPHICS_FAMILY, TRANSFER_FAMILY = 7, 4
UNDEFINED, SOURCE, TARGET, SHADER = (
    f"VK_IMAGE_LAYOUT_{name}"
    for name in (
        "UNDEFINED",
        "TRANSFER_SRC_OPTIMAL",
        "TRANSFER_DST_OPTIMAL",
        "SHADER_READ_ONLY_OPTIMAL",
    )
)
NULL = "VK_NULL_HANDLE"
AREA = {"aspectMask": 1, "baseMipLevel": 0, "levelCount": 1, "baseArrayLayer": 0, "layerCount": 1}
LAYERS = {"aspectMask": 1, "mipLevel": 0, "baseArrayLayer": 0, "layerCount": 1}


class Program:
    """The calls of a program so far."""

    def __init__(self, families=(GRAPHICS_FAMILY,)):
        self.lines = ['{"header":{"source-path":"made.gfxr"}}']
        self.handles = DEVICE
        types = [{"propertyFlags": flags, "heapIndex": 0} for flags in (1, 6, 10)]
        self.call(
            "vkGetPhysicalDeviceMemoryProperties",
            physicalDevice=PHYSICAL,
            pMemoryProperties={"memoryTypeCount": 3, "memoryTypes": types},
        )
        self.call(
            "vkGetPhysicalDeviceQueueFamilyProperties",
            physicalDevice=PHYSICAL,
            pQueueFamilyProperties=[{"queueFlags": flags, "queueCount": 4} for flags in families],
        )
        self.call("vkCreateDevice", physicalDevice=PHYSICAL, pDevice=DEVICE)

    def call(self, name, result="VK_SUCCESS", **args):
        """Adds a call, and answers its index."""
        index = len(self.lines)
        self.lines.append(
            json.dumps({"index": index, "vkFunc": {"name": name, "return": result, "args": args}})
        )
        return index

    def text(self):
        """The JSON Lines."""
        return "".join(f"{line}\n" for line in self.lines).encode()

    def handle(self):
        """A new handle."""
        self.handles += 1
        return self.handles

    def queue(self, family=0, number=0):
        """A queue."""
        made = self.handle()
        self.call(
            "vkGetDeviceQueue",
            None,
            device=DEVICE,
            queueFamilyIndex=family,
            queueIndex=number,
            pQueue=made,
        )
        return made

    def memory(self, kind, size, link=None):
        """A memory object."""
        made = self.handle()
        self.call(
            "vkAllocateMemory",
            device=DEVICE,
            pMemory=made,
            pAllocateInfo={"pNext": link, "allocationSize": size, "memoryTypeIndex": kind},
        )
        return made

    def bound(self, buffer, memory, offset=0):
        """Binds a buffer."""
        self.call(
            "vkBindBufferMemory", device=DEVICE, buffer=buffer, memory=memory, memoryOffset=offset
        )

    def loose_buffer(self, size=16, usage=3):
        """A buffer without memory."""
        made = self.handle()
        self.call(
            "vkCreateBuffer",
            device=DEVICE,
            pBuffer=made,
            pCreateInfo={
                "flags": 0,
                "size": size,
                "usage": usage,
                "sharingMode": "VK_SHARING_MODE_EXCLUSIVE",
            },
        )
        return made

    def buffer(self, kind=LOCAL, size=16, usage=3):
        """A buffer with memory of a type, and the memory."""
        made, memory = self.loose_buffer(size, usage), self.memory(kind, size)
        self.bound(made, memory)
        return made, memory

    def image(self, usage=7, form="VK_FORMAT_R8G8B8A8_UNORM", side=4, levels=1, **others):
        """An image with memory of its own."""
        made, memory = self.handle(), self.memory(LOCAL, 4096)
        info = {
            "flags": 0,
            "imageType": "VK_IMAGE_TYPE_2D",
            "format": form,
            "mipLevels": levels,
            "arrayLayers": 1,
            "extent": {"width": side, "height": side, "depth": 1},
            "samples": "VK_SAMPLE_COUNT_1_BIT",
            "tiling": "VK_IMAGE_TILING_OPTIMAL",
            "usage": usage,
            "sharingMode": "VK_SHARING_MODE_EXCLUSIVE",
        }
        self.call("vkCreateImage", device=DEVICE, pImage=made, pCreateInfo={**info, **others})
        self.call("vkBindImageMemory", device=DEVICE, image=made, memory=memory, memoryOffset=0)
        return made

    def fence(self):
        """A fence."""
        made = self.handle()
        self.call("vkCreateFence", device=DEVICE, pFence=made)
        return made

    def semaphore(self, initial=None):
        """A binary semaphore, or a timeline semaphore with its value."""
        made = self.handle()
        link = (
            None
            if initial is None
            else {
                "pNext": None,
                "semaphoreType": "VK_SEMAPHORE_TYPE_TIMELINE",
                "initialValue": initial,
            }
        )
        self.call("vkCreateSemaphore", device=DEVICE, pSemaphore=made, pCreateInfo={"pNext": link})
        return made

    def commands(self, *calls):
        """A command buffer with these calls: its handle. Their indices follow that of its begin."""
        made = self.handle()
        self.call("vkBeginCommandBuffer", commandBuffer=made)
        for name, args in calls:
            self.call(name, None, commandBuffer=made, **args)
        return made

    def submit(self, queue, buffers=(), waits=(), signals=(), fence=NULL):
        """vkQueueSubmit of a batch: a wait has a semaphore, stages and a value, a signal no stages."""
        link = {
            "pNext": None,
            "pWaitSemaphoreValues": [value for _, _, value in waits],
            "pSignalSemaphoreValues": [value for _, value in signals],
        }
        return self.call(
            "vkQueueSubmit",
            queue=queue,
            fence=fence,
            pSubmits=[
                {
                    "pNext": link,
                    "pWaitSemaphores": [part for part, _, _ in waits],
                    "pWaitDstStageMask": [stages for _, stages, _ in waits],
                    "pCommandBuffers": list(buffers),
                    "pSignalSemaphores": [part for part, _ in signals],
                }
            ],
        )

    def idle(self):
        """vkDeviceWaitIdle."""
        return self.call("vkDeviceWaitIdle", device=DEVICE)

    def mapped(self, memory):
        """vkMapMemory of all of it."""
        return self.call("vkMapMemory", device=DEVICE, memory=memory, offset=0, size=WHOLE)

    def read_back(self, memory):
        """Maps and unmaps memory, in which the host reads."""
        index = self.mapped(memory)
        self.call("vkUnmapMemory", None, device=DEVICE, memory=memory)
        return index


def fill(buffer, word=1, offset=0, size=WHOLE):
    """vkCmdFillBuffer."""
    return "vkCmdFillBuffer", {"dstBuffer": buffer, "dstOffset": offset, "size": size, "data": word}


def copy(source, target, size=16):
    """vkCmdCopyBuffer."""
    return "vkCmdCopyBuffer", {
        "srcBuffer": source,
        "dstBuffer": target,
        "pRegions": [{"srcOffset": 0, "dstOffset": 0, "size": size}],
    }


def texels(side=4):
    """The region of a whole image."""
    return [
        {
            "bufferOffset": 0,
            "bufferRowLength": 0,
            "bufferImageHeight": 0,
            "imageSubresource": LAYERS,
            "imageOffset": {"x": 0, "y": 0, "z": 0},
            "imageExtent": {"width": side, "height": side, "depth": 1},
        }
    ]


def copy_in(buffer, image, side=4):
    """vkCmdCopyBufferToImage."""
    return "vkCmdCopyBufferToImage", {
        "srcBuffer": buffer,
        "dstImage": image,
        "dstImageLayout": TARGET,
        "pRegions": texels(side),
    }


def copy_out(image, buffer, side=4):
    """vkCmdCopyImageToBuffer."""
    return "vkCmdCopyImageToBuffer", {
        "srcImage": image,
        "srcImageLayout": SOURCE,
        "dstBuffer": buffer,
        "pRegions": texels(side),
    }


def barrier(first, second, memory=(), buffers=(), images=()):
    """vkCmdPipelineBarrier, with stages and accesses of each side."""
    return "vkCmdPipelineBarrier", {
        "srcStageMask": first,
        "dstStageMask": second,
        "pMemoryBarriers": list(memory),
        "pBufferMemoryBarriers": list(buffers),
        "pImageMemoryBarriers": list(images),
    }


def on_memory(first, second):
    """An element on all memory, of these accesses."""
    return {"srcAccessMask": first, "dstAccessMask": second}


def on_buffer(buffer, first, second, families=(IGNORED, IGNORED), offset=0, size=WHOLE):
    """An element on a buffer."""
    return {
        **on_memory(first, second),
        "srcQueueFamilyIndex": families[0],
        "dstQueueFamilyIndex": families[1],
        "buffer": buffer,
        "offset": offset,
        "size": size,
    }


def on_image(image, accesses, layouts, families=(IGNORED, IGNORED), area=None):
    """An element on an image."""
    return {
        **on_memory(*accesses),
        "srcQueueFamilyIndex": families[0],
        "dstQueueFamilyIndex": families[1],
        "image": image,
        "oldLayout": layouts[0],
        "newLayout": layouts[1],
        "subresourceRange": area or AREA,
    }


TO_HOST = barrier(TRANSFER, HOST, [on_memory(WRITE, HOST_READ)])
TO_COPY = barrier(TRANSFER, TRANSFER, [on_memory(WRITE, READ | WRITE)])
