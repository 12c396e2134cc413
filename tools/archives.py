"""Archives whose bytes follow from their files alone: sorted, owned by root, and with one time."""

import gzip
import io
import tarfile
import time
import zipfile
from dataclasses import dataclass


@dataclass
class File:
    """A file of an archive, or a link."""

    data: bytes = b""
    is_program: bool = False
    link: str = ""

    @property
    def mode(self):
        return 0o777 if self.link else 0o755 if self.is_program else 0o644


def member_of(path, file, moment):
    """A member of a tar archive: a file, a link, or a folder, of which there is no file."""
    member = tarfile.TarInfo(path)
    member.mtime, member.uname, member.gname = moment, "root", "root"
    if file is None:
        member.type, member.mode = tarfile.DIRTYPE, 0o755
        return member
    member.mode, member.size = file.mode, len(file.data)
    if file.link:
        member.type, member.linkname = tarfile.SYMTYPE, file.link
    return member


def pack(files, top, moment):
    """The bytes of a .tar.gz archive of files by their paths below a folder, in seconds since 1970."""
    members = {f"{top}/{path}": file for path, file in files.items()}
    for path in list(members):
        parts = path.split("/")
        members.update(("/".join(parts[:n]), None) for n in range(1, len(parts)))
    raw = io.BytesIO()
    with tarfile.open(fileobj=raw, mode="w", format=tarfile.USTAR_FORMAT) as archive:
        for path, file in sorted(members.items()):
            archive.addfile(member_of(path, file, moment), io.BytesIO(file.data if file else b""))
    packed = io.BytesIO()
    with gzip.GzipFile(filename="", mode="wb", fileobj=packed, compresslevel=9, mtime=0) as file:
        file.write(raw.getvalue())
    return packed.getvalue()


def zipped(files, top, moment):
    """The bytes of a .zip archive of the same, whose folder may be empty; it takes no links."""
    packed = io.BytesIO()
    with zipfile.ZipFile(packed, "w") as archive:
        for path, file in sorted(files.items()):
            member = zipfile.ZipInfo(f"{top}/{path}".lstrip("/"), time.gmtime(moment)[:6])
            member.compress_type, member.create_system = zipfile.ZIP_DEFLATED, 3
            member.external_attr = (0o100000 | file.mode) << 16
            archive.writestr(member, file.data)
    return packed.getvalue()
