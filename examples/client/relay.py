"""Passes so many connections on to a server, as a TLS terminator would, and writes the bodies of the replies to a file, a line for each."""
import socket
import sys

server, bodies, count = int(sys.argv[1]), sys.argv[2], int(sys.argv[3])


def whole(text):
    """The head is there, and as many bytes of a body as it says."""
    head, blank, body = text.partition(b"\r\n\r\n")
    lengths = [line.split(b":")[1] for line in head.split(b"\r\n") if line.lower().startswith(b"content-length:")]
    return bool(blank) and len(body) >= sum(map(int, lengths))


def to_end(peer):
    """All bytes up to the end of the connection."""
    text = b""
    while more := peer.recv(65536):
        text += more
    return text


with socket.create_server(("127.0.0.1", 0)) as listener:
    print(listener.getsockname()[1], flush=True)
    for _ in range(count):
        client, _ = listener.accept()
        with client, socket.create_connection(("127.0.0.1", server)) as peer:
            request = b""
            while not whole(request) and (more := client.recv(65536)):
                request += more
            peer.sendall(request)
            reply = to_end(peer)
            with open(bodies, "ab") as file:
                file.write(reply.partition(b"\r\n\r\n")[2] + b"\n")
            client.sendall(reply)
