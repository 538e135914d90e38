"""Sockets that play bytes to a program which dials them, and keep what it sends."""
import socket
import threading

# No program of a row takes longer.
SECONDS = 60


class Door:
    """A socket for one program: it is given all the bytes and their end, and what it sends is kept until its end."""

    def __init__(self, path, given):
        self.path, self.sent, self.given = path, b"", given
        self.listener = socket.socket(socket.AF_UNIX)
        self.listener.settimeout(SECONDS)
        self.listener.bind(path)
        self.listener.listen(2)
        self.thread = threading.Thread(target=self.play)
        self.thread.start()

    def play(self):
        """Answers the first program that dials."""
        try:
            link = self.listener.accept()[0]
        except OSError:
            return
        with link:
            link.settimeout(SECONDS)
            self.give(link)
            self.keep(link)

    def give(self, link):
        """Gives all the bytes. A program may hang up before it has read them."""
        try:
            link.sendall(self.given)
            link.shutdown(socket.SHUT_WR)
        except OSError:
            pass

    def keep(self, link):
        """Keeps what is sent. A program that hangs up with bytes unread resets the link, after what it sent."""
        try:
            while piece := link.recv(65536):
                self.sent += piece
        except OSError:
            pass

    def end(self):
        """All that was sent. Where no program dialled this does, so that nothing waits for one."""
        with socket.socket(socket.AF_UNIX) as link:
            link.settimeout(SECONDS)
            link.connect(self.path)
        self.thread.join()
        self.listener.close()
        return self.sent
