"""The numbers under which the editors' API and replication show authors."""
import zlib


def user_id(author: str) -> int:
    """Returns a number for an author, which other programs take for the mapper's identity."""
    return (zlib.crc32(author.encode()) & 0x3FFFFFFF) + 1
