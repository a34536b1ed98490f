"""A small stand-in for a server or program with all of the language that the client speaks: `see`, `hold` and `use` besides.

One line of entries is shared by all sessions, as on a server. Questions about a version go to the real program, which is
given the entries up to that version's cut. `python3 fake.py script` answers lines of standard input.
"""

import socket
import socketserver
import subprocess
import sys
import threading


class Line:
    """The shared entries, and one program for each version that was asked about."""

    def __init__(self, program):
        self.program, self.requests, self.cuts, self.entries = program, [], [], 0
        self.lock, self.children = threading.Lock(), []
        self.newest = self.start([])
        self.at = {0: self.start([])}

    def start(self, requests):
        child = subprocess.Popen([*self.program, "script"], stdin=subprocess.PIPE, stdout=subprocess.PIPE,
                                 universal_newlines=True, bufsize=1)
        self.children.append(child)
        for request in requests:
            self.ask(child, request)
        return child

    def ask(self, child, request):
        child.stdin.write(request + "\n")
        child.stdin.flush()
        return child.stdout.readline().rstrip("\n")

    def change(self, request):
        """A facet or a cut."""
        reply = self.ask(self.newest, request)
        if reply.startswith("ok "):
            self.requests.append(request)
            self.entries = int(reply.split()[-1])
            if request == "cut":
                self.cuts.append(len(self.requests))
        return reply

    def question(self, version, request):
        if version not in self.at:
            self.at[version] = self.start(self.requests[:self.cuts[version - 1]])
        return self.ask(self.at[version], request)

    def close(self):
        for child in self.children:
            child.stdin.close()
            child.wait()
            child.stdout.close()


class Caller:
    """One session: its version in use and its names."""

    def __init__(self, line):
        self.line, self.version, self.names = line, 0, {}

    def answer(self, request):
        words = request.split()
        with self.line.lock:
            if words[0].isdigit() or words[0] in ("facet", "cut"):
                reply = self.line.change(request)
                if reply.startswith("ok cut"):
                    self.version = len(self.line.cuts)
                return reply
            if words[0] == "see":
                self.version = len(self.line.cuts)
                return f"ok see {self.version} {self.line.entries}"
            if words[0] == "hold":
                if words[1] in self.names:
                    return f"no held {words[1]}"
                if len(self.names) == 3:
                    return "no holdsfull 3"
                self.names[words[1]] = self.version
                return f"ok hold {words[1]} {self.version}"
            if words[0] == "use":
                if words[1] not in self.names:
                    return f"no noname {words[1]}"
                self.version = self.names[words[1]]
                return f"ok use {words[1]} {self.version}"
            return self.line.question(self.version, request)


class Server:
    """A server on 127.0.0.1 at a free port: `address`."""

    def __init__(self, program):
        line = self.line = Line(program)

        class Handler(socketserver.StreamRequestHandler):
            def handle(self):
                self.request.setsockopt(socket.IPPROTO_TCP, socket.TCP_NODELAY, 1)
                caller = Caller(line)
                for request in self.rfile:
                    text = request.decode().strip()
                    if text == "die":
                        return
                    self.wfile.write((caller.answer(text) + "\n").encode())

        self._server = socketserver.ThreadingTCPServer(("127.0.0.1", 0), Handler)
        self._server.daemon_threads = True
        self.address = "127.0.0.1:%d" % self._server.server_address[1]
        threading.Thread(target=self._server.serve_forever, kwargs={"poll_interval": 0.02}, daemon=True).start()

    def close(self):
        self._server.shutdown()
        self._server.server_close()
        self.line.close()


if __name__ == "__main__":
    caller = Caller(Line(sys.argv[2:] or ["cohom"]))
    for text in iter(sys.stdin.readline, ""):
        print(caller.answer(text.strip()), flush=True)
    caller.line.close()
