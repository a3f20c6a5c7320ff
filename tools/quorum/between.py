"""Who stands between two programs that speak over a socket: for torture."""
import socket
import threading


def shut(one):
    """Ends both ways of a socket, which may be ended already."""
    try:
        one.shutdown(socket.SHUT_RDWR)
    except OSError:
        pass


class Between:
    """Is connected to at its own address, and connects to the other one's for each that comes."""

    def __init__(self):
        server = socket.create_server(("127.0.0.1", 0))
        self.address = f"127.0.0.1:{server.getsockname()[1]}"
        threading.Thread(target=self._accept, args=(server,), daemon=True).start()

    def other(self):
        """The address, HOST:PORT, of who is connected to; an OSError where nobody is to be."""
        raise NotImplementedError

    def join(self, near, far):
        """Begins to pass on between the one that came and the other."""
        raise NotImplementedError

    def _accept(self, server):
        while True:
            near, _ = server.accept()
            try:
                host, _, port = self.other().rpartition(":")
                far = socket.create_connection((host, int(port)))
            except OSError:
                near.close()
                continue
            for one in (near, far):
                one.setsockopt(socket.IPPROTO_TCP, socket.TCP_NODELAY, 1)
            self.join(near, far)
