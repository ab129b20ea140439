"""Archives whose bytes depend on nothing but what is in them: entries in order, of one date, owner and mode."""
import gzip
import io
import tarfile
import time
import zipfile

FILE_MODE = 0o644


def write_tar(path, files, date):
    """Writes a packed archive of files, which are bytes by their names, with a date in seconds since 1970."""
    # The name of the archive, and when it was written, stand in no header.
    with open(path, "wb") as file, gzip.GzipFile("", "wb", 9, file, date) as packed:
        with tarfile.open(fileobj=packed, mode="w", format=tarfile.USTAR_FORMAT) as archive:
            for name in sorted(files):
                entry = tarfile.TarInfo(name)
                entry.size, entry.mtime, entry.mode = len(files[name]), date, FILE_MODE
                archive.addfile(entry, io.BytesIO(files[name]))


def write_zip(path, files, date):
    """Writes the same as a zip archive, whose date may be in 1980 or later."""
    with zipfile.ZipFile(path, "w") as archive:
        for name in sorted(files):
            entry = zipfile.ZipInfo(name, time.gmtime(date)[:6])
            entry.compress_type = zipfile.ZIP_DEFLATED
            entry.external_attr = (0o100000 | FILE_MODE) << 16
            archive.writestr(entry, files[name])
