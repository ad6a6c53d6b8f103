"""Where files are read from and stored: real ones, and forms in memory."""
import os

from . import limits


class ReadFailed(Exception):
    """A file can't be read."""


class TooBig(Exception):
    """A file has more bytes than its limit."""


class StoreFailed(Exception):
    """A file can't be stored."""


class FileShelf:
    """The files of the current folder."""

    def read(self, name):
        try:
            with open(name, "rb") as file:
                data = file.read(limits.FILE + 1)
        except OSError:
            raise ReadFailed from None
        if len(data) > limits.FILE:
            raise TooBig
        return data

    def store(self, name, data):
        try:
            with open(name, "wb") as file:
                file.write(data)
        except OSError:
            raise StoreFailed from None


class MemoryShelf:
    """Files by their names, and the folders that are there."""

    def __init__(self, files, folders=()):
        self.files, self.folders = dict(files), set(folders)

    def read(self, name):
        if name not in self.files:
            raise ReadFailed
        return self.files[name]

    def store(self, name, data):
        folder = os.path.dirname(name)
        if folder and folder not in self.folders or name in self.folders or not os.path.basename(name):
            raise StoreFailed
        self.files[name] = data
