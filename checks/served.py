"""The module as a program that other scripts run: a small command hands its words and its standard input to a browser, which runs the module.

`program` leaves such a command in a folder, as long as its `with` lasts. Searches end when they end: a run in the browser can't be stopped."""
import base64
import contextlib
import json
import pathlib
import socketserver
import sys
import threading

COMMAND = '''#!{python} -SE
import base64, json, os, socket, sys
files = {{}}
for word in sys.argv[1:]:
    for name in {{word, word.partition("=")[2]}}:
        if os.path.isfile(name):
            files[name] = base64.b64encode(open(name, "rb").read()).decode()
        elif os.path.isdir(name):
            files[name] = None
asked = {{"words": [base64.b64encode(os.fsencode(it)).decode() for it in sys.argv[1:]], "stdin": base64.b64encode(sys.stdin.buffer.read()).decode(), "files": files}}
with socket.socket(socket.AF_UNIX) as to:
    to.connect({socket!r})
    to.sendall(json.dumps(asked).encode() + b"\\n")
    told = json.loads(to.makefile("rb").readline())
sys.stdout.buffer.write(base64.b64decode(told["out"]))
sys.stdout.flush()
sys.stderr.buffer.write(base64.b64decode(told["err"]))
sys.exit(told["status"])
'''


@contextlib.contextmanager
def program(folder, ask):
    """A command in a folder that runs what `ask` runs: it is given a question, and returns what came of it."""
    folder, turn = pathlib.Path(folder), threading.Lock()

    class Handler(socketserver.StreamRequestHandler):
        """Answers one run."""

        def handle(self):
            with turn:
                ended = ask(json.loads(self.rfile.readline()))
            trap = base64.b64encode(ended["trap"].encode()).decode() if ended.get("trap") else ""
            self.wfile.write(json.dumps({"status": ended.get("status", 70), "out": ended.get("out", ""), "err": trap or ended.get("err", "")}).encode() + b"\n")

    with socketserver.ThreadingUnixStreamServer(str(folder / "socket"), Handler) as server:
        server.daemon_threads = True
        threading.Thread(target=server.serve_forever, daemon=True).start()
        command = folder / "wfcheck"
        command.write_text(COMMAND.format(python=sys.executable, socket=str(folder / "socket")))
        command.chmod(0o755)
        try:
            yield command
        finally:
            server.shutdown()
