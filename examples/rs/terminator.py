"""Passes so many connections on, each to the server that its `Host` names, as a TLS terminator would, and adds the fields that one adds. The requests go to
one file as they were passed on, with an empty line and a line of `=` behind each; the bodies of the replies go to another, a line for each.
Arguments: the port of as.example, the port of rs.example, the two files, the number of connections. Prints its own port."""
import socket
import sys

PORTS = {b"as.example": int(sys.argv[1]), b"rs.example": int(sys.argv[2])}
ADDED = b"User-Agent: example\r\nAccept: */*\r\nX-Forwarded-For: 192.0.2.1\r\n"


def fields(head, name):
    """The values of the fields of that name."""
    lines = head.split(b"\r\n")[1:]
    return [line.split(b":", 1)[1].strip() for line in lines if line.lower().startswith(name + b":")]


def whole(text):
    """The head is there, and as many bytes of a body as it says."""
    head, blank, body = text.partition(b"\r\n\r\n")
    return bool(blank) and len(body) >= sum(map(int, fields(head, b"content-length")))


def to_end(peer):
    """All bytes up to the end of the connection."""
    text = b""
    while more := peer.recv(65536):
        text += more
    return text


with socket.create_server(("127.0.0.1", 0)) as listener:
    print(listener.getsockname()[1], flush=True)
    for _ in range(int(sys.argv[5])):
        client, _ = listener.accept()
        with client:
            request = b""
            while not whole(request) and (more := client.recv(65536)):
                request += more
            line, rest = request.split(b"\r\n", 1)
            request = line + b"\r\n" + ADDED + rest
            with socket.create_connection(("127.0.0.1", PORTS[fields(request, b"host")[0]])) as peer:
                peer.sendall(request)
                reply = to_end(peer)
            with open(sys.argv[3], "ab") as file:
                file.write(request + b"\n=\n")
            with open(sys.argv[4], "ab") as file:
                file.write(reply.partition(b"\r\n\r\n")[2] + b"\n")
            client.sendall(reply)
