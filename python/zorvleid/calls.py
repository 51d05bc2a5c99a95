"""A method for each command of the table, as `create_image(image=1, width=2, height=1)`."""

from collections.abc import Mapping, Sequence
from typing import TypeAlias

from .commands import FORMATS
from .errors import ScriptError

FORMAT_NAMED = {name: number for number, name in FORMATS.items()}


def format_number(form: int | str) -> int:
    """A format by its number or by its name."""
    if isinstance(form, int):
        return form
    if not isinstance(form, str) or form not in FORMAT_NAMED:
        raise ScriptError("format", "format", names=", ".join(FORMAT_NAMED), given=form)
    return FORMAT_NAMED[form]


Bytes: TypeAlias = bytes | bytearray | memoryview


def entries_of_bytes(data: bytes) -> list[int]:
    """Bytes as entries, the low byte first; the last entry is filled with zeros."""
    return [int.from_bytes(data[at : at + 4], "little") for at in range(0, len(data), 4)]


def formed(image: int, x: int, y: int, w: int, h: int, form: int | str) -> dict[str, int]:
    """The arguments of a rectangle of an image, and of the format of its new texels."""
    place = {"image": image, "x": x, "y": y, "w": w, "h": h}
    return {**place, "format": format_number(form)}


class Calls:
    """The commands of a stream."""

    def command(
        self,
        command: str,
        arguments: Mapping[str, int],
        data: Sequence[int] = (),
        size: int | None = None,
    ) -> None:
        """Puts a command, given by its name."""
        raise NotImplementedError

    def noop(self, *, size: int = 1, data: Sequence[int] = ()) -> None:
        """Does nothing, and fills entries. Those after the header and the data keep their words."""
        self.command("Noop", {}, data, size)

    def set_token(self, *, token: int) -> None:
        """Sets the token of the stream."""
        self.command("SetToken", {"token": token})

    def set_bucket_size(self, *, bucket: int, size: int) -> None:
        """Makes a bucket of `size` zero bytes, unless it has this size."""
        self.command("SetBucketSize", {"bucket": bucket, "size": size})

    def set_bucket_data(
        self, *, bucket: int, offset: int, size: int, memory: int, memory_offset: int
    ) -> None:
        """Writes bytes of a memory into a bucket."""
        span = {"bucket": bucket, "offset": offset, "size": size}
        self.command("SetBucketData", {**span, "memory": memory, "memory_offset": memory_offset})

    def set_bucket_data_immediate(
        self, *, bucket: int, offset: int, data: Bytes | Sequence[int], size: int | None = None
    ) -> None:
        """Writes bytes of the command itself into a bucket, given as bytes or as entries."""
        if isinstance(data, (bytes, bytearray, memoryview)):
            told = bytes(data)
            entries, count = entries_of_bytes(told), len(told)
        elif isinstance(data, Sequence):
            entries, count = list(data), 4 * len(data)
        else:
            raise ScriptError("numbers", "data", what="data", given=repr(data))
        size = count if size is None else size
        self.command(
            "SetBucketDataImmediate", {"bucket": bucket, "offset": offset, "size": size}, entries
        )

    def get_bucket_start(
        self,
        *,
        bucket: int,
        result_memory: int,
        result_offset: int,
        data_size: int,
        data_memory: int,
        data_offset: int
    ) -> None:
        """Writes the size of a bucket and its first bytes into result memories."""
        self.command(
            "GetBucketStart",
            {
                "bucket": bucket,
                "result_memory": result_memory,
                "result_offset": result_offset,
                "data_size": data_size,
                "data_memory": data_memory,
                "data_offset": data_offset,
            },
        )

    def get_bucket_data(
        self, *, bucket: int, offset: int, size: int, memory: int, memory_offset: int
    ) -> None:
        """Writes bytes of a bucket into a result memory."""
        span = {"bucket": bucket, "offset": offset, "size": size}
        self.command("GetBucketData", {**span, "memory": memory, "memory_offset": memory_offset})

    def insert_fence(self, *, release: int) -> None:
        """Raises the release count of the stream."""
        self.command("InsertFence", {"release": release})

    def wait_token(self, *, stream: int, release: int) -> None:
        """Waits until another stream has come to a release."""
        self.command("WaitToken", {"stream": stream, "release": release})

    def create_image(self, *, image: int, width: int, height: int) -> None:
        """Makes an image of zero texels."""
        self.command("CreateImage", {"image": image, "width": width, "height": height})

    def delete_image(self, *, image: int) -> None:
        """Takes an image away."""
        self.command("DeleteImage", {"image": image})

    def clear_rect(self, *, image: int, x: int, y: int, w: int, h: int, texel: int) -> None:
        """Sets all texels of a rectangle to one."""
        self.command("ClearRect", {"image": image, "x": x, "y": y, "w": w, "h": h, "texel": texel})

    def copy_rect(
        self, *, source: int, x: int, y: int, target: int, x2: int, y2: int, w: int, h: int
    ) -> None:
        """Copies a rectangle at (x, y) of an image to (x2, y2) of another or of the same."""
        places = {"source": source, "x": x, "y": y, "target": target, "x2": x2, "y2": y2}
        self.command("CopyRect", {**places, "w": w, "h": h})

    def upload_rect(
        self,
        *,
        image: int,
        x: int,
        y: int,
        w: int,
        h: int,
        format: int | str,
        memory: int,
        memory_offset: int
    ) -> None:
        """Sets the texels of a rectangle from bytes of a memory."""
        rectangle = formed(image, x, y, w, h, format)
        self.command("UploadRect", {**rectangle, "memory": memory, "memory_offset": memory_offset})

    def upload_bucket(
        self, *, image: int, x: int, y: int, w: int, h: int, format: int | str, bucket: int
    ) -> None:
        """Sets the texels of a rectangle from the first bytes of a bucket."""
        rectangle = formed(image, x, y, w, h, format)
        self.command("UploadBucket", {**rectangle, "bucket": bucket})

    def create_buffer(self, *, buffer: int, size: int) -> None:
        """Makes a buffer of zero bytes."""
        self.command("CreateBuffer", {"buffer": buffer, "size": size})

    def delete_buffer(self, *, buffer: int) -> None:
        """Takes a buffer away."""
        self.command("DeleteBuffer", {"buffer": buffer})

    def buffer_data(
        self, *, buffer: int, offset: int, size: int, memory: int, memory_offset: int
    ) -> None:
        """Writes bytes of a memory into a buffer."""
        span = {"buffer": buffer, "offset": offset, "size": size}
        self.command("BufferData", {**span, "memory": memory, "memory_offset": memory_offset})

    def upload_buffer(
        self,
        *,
        image: int,
        x: int,
        y: int,
        w: int,
        h: int,
        format: int | str,
        buffer: int,
        offset: int
    ) -> None:
        """Sets the texels of a rectangle from bytes of a buffer."""
        rectangle = formed(image, x, y, w, h, format)
        self.command("UploadBuffer", {**rectangle, "buffer": buffer, "offset": offset})

    def wait_sync_token(self, *, namespace: int, id: int, release: int) -> None:
        """Waits until the stream of a name has come to a release."""
        self.command("WaitSyncToken", {"namespace": namespace, "id": id, "release": release})
