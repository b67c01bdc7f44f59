"""Lines that come by named pipes, and by what else has a descriptor (tools/party-gate, tools/site)."""
import os
import stat

# The most bytes of a line that a party looks at.
LONGEST = 8_388_700
# The rights of a pipe to which others write, of one that its user alone may write to, and of one that others read.
WRITABLE, OWN, READABLE = 0o620, 0o600, 0o640


class NoPipe(Exception):
    """A file stands where a named pipe should."""


def write(descriptor, data):
    """Writes all of it."""
    while data:
        data = data[os.write(descriptor, data):]


def named_pipe(path, mode):
    """A named pipe, which is made where it is not there. It is open for both, so that it does not end where others close it."""
    if not path.exists():
        os.mkfifo(path)
        path.chmod(mode)
    if not stat.S_ISFIFO(path.stat().st_mode):
        raise NoPipe(f"{path} is no named pipe")
    return os.open(path, os.O_RDWR)


class Lines:
    """The whole lines that come from a descriptor; a line that is too long is passed over."""

    def __init__(self, descriptor):
        self.descriptor, self.rest, self.passing = descriptor, b"", False
        os.set_blocking(descriptor, False)

    def read(self):
        """The lines that came; None where no more come."""
        try:
            more = os.read(self.descriptor, 1 << 16)
        except BlockingIOError:
            return []
        except ConnectionError:
            return None
        if not more:
            return None
        *lines, self.rest = (self.rest + more).split(b"\n")
        if self.passing and lines:
            lines, self.passing = lines[1:], False
        if len(self.rest) > LONGEST:
            self.rest, self.passing = b"", True
        return lines
