"""Node's engine for `witcall.Instance`: an instance runs in a process of its own, which node_adapter.mjs is.

The whole memory goes to Node and comes back with each message. This is for tests, and to show what an engine has to do.
"""

import base64
import json
import pathlib
import subprocess

import witcall

_SCRIPT = pathlib.Path(__file__).with_name("node_adapter.mjs")


class Node:
    """An instance of a core module in Node."""

    def __init__(self, module, imports):
        command = ["node", "--experimental-wasm-type-reflection", str(_SCRIPT)]
        self._process = subprocess.Popen(command, stdin=subprocess.PIPE, stdout=subprocess.PIPE)
        self._imports = imports
        self._data = bytearray()
        self._raised = None
        self._send(module=base64.b64encode(module).decode())
        self._names = frozenset(self._answer())

    def close(self):
        """Ends the process."""
        for pipe in (self._process.stdin, self._process.stdout):
            pipe.close()
        self._process.wait()

    def exports(self, name):
        return name in self._names

    def memory(self):
        return self._data

    def call(self, name, values):
        self._send(call=name, values=[str(it) for it in values])
        return [int(it) for it in self._answer()]

    def _send(self, **message):
        line = json.dumps({**message, "memory": base64.b64encode(self._data).decode()})
        self._process.stdin.write(f"{line}\n".encode())
        self._process.stdin.flush()

    def _receive(self):
        line = self._process.stdout.readline()
        if not line:
            raise OSError("Node ended")
        message = json.loads(line)
        self._data = bytearray(base64.b64decode(message["memory"]))
        return message

    def _answer(self):
        """What the guest's code answers. Its calls of imports are served meanwhile."""
        while True:
            message = self._receive()
            if "import" in message:
                self._serve(*message["import"], [int(it) for it in message["values"]])
            elif "trap" in message:
                raise witcall.Stopped(message["trap"])
            elif "failed" in message:
                raise self._raised
            else:
                return message["answer"]

    def _serve(self, module, name, values):
        try:
            answer = self._imports[module][name](*values)
        except BaseException as error:  # it comes out of `call` again, after Node has left the guest's code
            self._raised = error
            self._send(failed=True)
        else:
            self._send(answer=None if answer is None else str(answer))
