"""An index that is kept by the build-id of its program (gABI, ch. 5, "Note Section"; GNU ld, `--build-id`)."""
import struct

from . import faults, numbers
from .faults import Fault
from .gdb_index_read import GdbIndex
from .numbers import Missing

MAGIC = b"GDBIXC1\0"
NOTE_TYPE = 3


def build_id_of(sections):
    """The build-id of the first note, or None."""
    note = sections.get(b".note.gnu.build-id")
    if len(note) < 16 or note[12:16] != b"GNU\0":
        return None
    name_size, size, kind = struct.unpack_from("<III", note)
    if (name_size, kind) != (4, NOTE_TYPE) or not 1 <= size <= 64 or 16 + size > len(note):
        return None
    return note[16:16 + size]


def cache_name(store, build_id):
    return store + build_id.hex() + ".gdb-index"


def kept_bytes(build_id, index):
    return MAGIC + struct.pack("<I", len(build_id)) + build_id + index


def open_kept(data, build_id):
    """The index in the bytes, or their first fault."""
    try:
        if data[:8] != MAGIC:
            raise Missing
        size, at = numbers.fixed(data, 8, len(data), 4)
        behind = numbers.skip(at, len(data), size)
    except Missing:
        raise Fault(faults.KEPT_HEADER, 0) from None
    if data[at:behind] != build_id:
        raise Fault(faults.KEPT_BUILD_ID, 0)
    return GdbIndex(data[behind:])
