"""Sends 4,000 requests to a Groonga server with four threads from four clients at once:
groonga_server.py LINES DATABASE

The table of the lines is indexed by TokenMecab. Requests are tokens of lines and searches for their
words. It prints the responses in the order of the requests.
"""
import json
import socket
import subprocess
import sys
import threading
import time
import urllib.error
import urllib.parse
import urllib.request
from pathlib import Path
from typing import Optional, Union

CLIENTS = 4
REQUESTS = 4_000
LINES = 1_000
SECONDS = 30


def free_port() -> int:
    """Returns the number of a port that nobody uses."""
    with socket.socket() as one:
        one.bind(("127.0.0.1", 0))
        port: int = one.getsockname()[1]
        return port


def address(port: int, command: str, **arguments: Union[str, int]) -> str:
    """Returns the address of a command."""
    return f"http://127.0.0.1:{port}/d/{command}?{urllib.parse.urlencode(arguments)}"


def fetch(url: str, body: Optional[bytes] = None) -> str:
    """Returns the response to a request, without its times."""
    request = urllib.request.Request(url, body, {"Content-Type": "application/json"})
    with urllib.request.urlopen(request, timeout=SECONDS) as response:
        items = json.load(response)
    if items[0][0] != 0:
        raise OSError(f"{url}: {items[0]}")
    return json.dumps(items[1:], ensure_ascii=False)


def wait_for(port: int) -> None:
    """Waits until the server responds."""
    for _ in range(SECONDS * 10):
        try:
            fetch(address(port, "status"))
            return
        except OSError:
            time.sleep(0.1)
    sys.exit("groonga_server: no response")


def fill(port: int, texts: list[str]) -> None:
    """Makes a table of the lines and an index of their words."""
    text = {"flags": "COLUMN_SCALAR", "type": "ShortText"}
    terms = {"default_tokenizer": "TokenMecab", "normalizer": "NormalizerAuto"}
    index = {"flags": "COLUMN_INDEX|WITH_POSITION", "type": "Lines", "source": "text"}
    for command, arguments in (
        ("table_create", {"name": "Lines", "flags": "TABLE_NO_KEY"}),
        ("column_create", {"table": "Lines", "name": "text", **text}),
        (
            "table_create",
            {"name": "Terms", "flags": "TABLE_PAT_KEY", "key_type": "ShortText", **terms},
        ),
        ("column_create", {"table": "Terms", "name": "lines_text", **index}),
    ):
        fetch(address(port, command, **arguments))
    rows = json.dumps([{"text": text} for text in texts])
    fetch(address(port, "load", table="Lines"), rows.encode())


def request(port: int, number: int, texts: list[str]) -> str:
    """Returns the address of a request: the tokens of a line, or a search for its first word."""
    text = texts[number % len(texts)]
    if number % 2 == 0:
        words = {"tokenizer": "TokenMecab", "string": text, "normalizer": "NormalizerAuto"}
        return address(port, "tokenize", **words)
    searched: dict[str, Union[str, int]] = {
        "table": "Lines",
        "match_columns": "text",
        "query_flags": "NONE",
        "query": text.split()[0],
        "limit": 1000,
        "output_columns": "_id",
    }
    return address(port, "select", **searched)


def fetch_or_error(url: str) -> str:
    """Returns the response to a request, or why there is none."""
    try:
        return fetch(url)
    except urllib.error.HTTPError as error:
        return f"rejected: {error.code}"
    except (OSError, ValueError) as error:
        return f"no response: {error}"


def fetch_all(port: int, texts: list[str]) -> list[str]:
    """Sends all requests and returns the responses."""
    responses = [""] * REQUESTS

    def send(client: int) -> None:
        for number in range(client, REQUESTS, CLIENTS):
            responses[number] = fetch_or_error(request(port, number, texts))

    threads = [threading.Thread(target=send, args=(client,)) for client in range(CLIENTS)]
    for thread in threads:
        thread.start()
    for thread in threads:
        thread.join()
    return responses


def start(port: int, database: str) -> "subprocess.Popen[bytes]":
    """Makes a database and starts a server over it."""
    subprocess.run(["groonga", "-n", database, "status"], stdout=subprocess.DEVNULL, check=True)
    command = ["groonga", "--protocol", "http", "-p", str(port), "--bind-address", "127.0.0.1"]
    command += ["-t", str(CLIENTS), "-s", database]
    return subprocess.Popen(command, stdout=subprocess.DEVNULL)


def main() -> None:
    texts = [text for text in Path(sys.argv[1]).read_text().splitlines() if text.split()][:LINES]
    port = free_port()
    server = start(port, sys.argv[2])
    try:
        wait_for(port)
        fill(port, texts)
        print("\n".join(fetch_all(port, texts)))
        status = server.poll()
        is_alive = "the server lives"
        print(is_alive if status is None else f"the server ended with status {status}")
    finally:
        server.terminate()
        server.wait()


main()
