"""The messages of a client, each as a frame."""
import json
import os
import sys

sys.path.append(os.path.join(os.path.dirname(os.path.dirname(os.path.abspath(__file__))), "tools"))

import runs  # noqa: E402 (found behind the line above)


def frame(message):
    return runs.frame(message if isinstance(message, bytes) else json.dumps(message).encode())


def request(number, method, **params):
    return frame({"jsonrpc": "2.0", "id": number, "method": method, "params": params})


def notice(method, **params):
    return frame({"jsonrpc": "2.0", "method": method, "params": params})


def opened(text, uri="file:///g"):
    return notice("textDocument/didOpen",
                  textDocument={"uri": uri, "languageId": "abnf", "version": 1, "text": text})
