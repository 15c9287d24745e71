"""Servers of the tests' own, on loopback, which are ended by who started them."""
import contextlib
import os
import re
import resource
import shutil
import signal
import socket
import subprocess
import tempfile
import time
from pathlib import Path
from typing import Any

import redis

# What is put into servers before their own libraries: that of a sanitizer with which the module is compiled, say.
PRELOAD = os.environ.get("ORDERED_MAP_PRELOAD", "")
SANITIZER = {"ASAN_OPTIONS": "detect_leaks=0:allocator_may_return_null=1"}
SERVER = os.environ.get("ORDERED_MAP_SERVER", "redis-server")
MODULE = Path(os.environ.get("ORDERED_MAP", Path(__file__).parent.parent / "ordered_map.so")).resolve()


def free_port() -> int:
    """A port that is free now, and below those that a cluster's servers add 10,000 to."""
    while True:
        with socket.socket() as one, socket.socket() as other:
            one.bind(("127.0.0.1", 0))
            port = int(one.getsockname()[1]) % 20_000 + 20_000
            try:
                other.bind(("127.0.0.1", port))
                return port
            except OSError:
                continue


class Server:
    """A server with the module, and a client of it."""

    def __init__(self, *options: str, **environment: str):
        self.folder = Path(tempfile.mkdtemp(prefix="ordered_map_"))
        self.port = free_port()
        self.options = options
        self.environment = environment
        self.process: "subprocess.Popen[bytes] | None" = None
        self.client = redis.Redis(port=self.port, socket_timeout=120)
        try:
            self.start()
        except RuntimeError:
            self.end()
            raise

    def start(self, *more: str) -> None:
        words = [SERVER, "--port", str(self.port), "--bind", "127.0.0.1", "--dir", str(self.folder), "--save", ""]
        words += ["--repl-diskless-sync-delay", "0", "--enable-debug-command", "local", "--logfile", str(self.folder / "log"), "--loadmodule", str(MODULE)]
        environment = os.environ | SANITIZER | {"LD_PRELOAD": PRELOAD} | self.environment
        with open(self.folder / "said", "ab") as said:
            # A signal for a file that is too long stays ignored, as it is here.
            self.process = subprocess.Popen([*words, *self.options, *more], stdout=said, stderr=said, env=environment, restore_signals=False)
        self.await_ready()

    def await_ready(self) -> None:
        end = time.monotonic() + 60
        while time.monotonic() < end:
            if self.process is not None and self.process.poll() is not None:
                break
            with contextlib.suppress(redis.ConnectionError, redis.BusyLoadingError, redis.TimeoutError):
                if self.client.ping():
                    return
            time.sleep(0.02)
        raise RuntimeError(f"no server: {self.log()}")

    def log(self) -> str:
        said = [self.folder / name for name in ("log", "said")]
        return "\n".join(path.read_text(errors="replace")[-3000:] for path in said if path.exists())

    def unwritten(self) -> str:
        """Says so if the server could not write its append-only file, on a full disk say. It has replied to those changes all the same, and DEBUG
        LOADAOF loses them, whatever the type of their key."""
        said = re.search(r".*(Error|Short write) (while )?writing to the (AOF|append.only) file.*", self.log(), re.IGNORECASE)
        return said[0] if said else ""

    def run(self, *words: object) -> Any:
        return self.client.execute_command(*words)

    def figure(self, name: str) -> int:
        return int(self.client.info("everything")[name])

    def resident(self) -> int:
        """How many bytes of memory the server has."""
        assert self.process is not None
        text = Path(f"/proc/{self.process.pid}/smaps_rollup").read_text()
        return 1024 * sum(int(said) for said in re.findall(r"^Rss: +(\d+)", text, re.MULTILINE))

    def until(self, section: str, name: str, value: object) -> None:
        """Waits until a field of INFO has a value."""
        end = time.monotonic() + 60
        while self.client.info(section)[name] != value:
            if time.monotonic() > end:
                raise RuntimeError(f"{name} is not {value}: {self.log()}")
            time.sleep(0.02)

    def limit_files(self, size: int = resource.RLIM_INFINITY) -> None:
        """No file gets longer than so many bytes: a write beyond that is short, as on a full disk."""
        assert self.process is not None
        resource.prlimit(self.process.pid, resource.RLIMIT_FSIZE, (size, resource.RLIM_INFINITY))

    def rewrite(self, form: str) -> None:
        """Has an append-only file made or rewritten, which has a preamble or not, and waits until it is there."""
        self.client.config_set("aof-use-rdb-preamble", form)
        if self.client.config_get("appendonly")["appendonly"] == "yes":
            self.client.bgrewriteaof()
        self.client.config_set("appendonly", "yes")
        self.until("persistence", "aof_rewrite_scheduled", 0)
        self.until("persistence", "aof_rewrite_in_progress", 0)
        if self.client.info("persistence")["aof_last_bgrewrite_status"] != "ok":
            raise RuntimeError(f"the file was not written: {self.log()}")

    def stop(self) -> None:
        if self.process is not None:
            self.client.connection_pool.disconnect()
            self.process.terminate()
            self.process.wait()
            self.process = None

    def kill(self) -> None:
        assert self.process is not None
        self.process.send_signal(signal.SIGKILL)
        self.process.wait()
        self.process = None

    def end(self) -> None:
        self.stop()
        shutil.rmtree(self.folder, ignore_errors=True)

    def __enter__(self) -> "Server":
        return self

    def __exit__(self, *_: object) -> None:
        self.end()


def fill(server: Server, name: str, pairs: "dict[bytes, bytes]", at_once: int = 500) -> None:
    words = [word for pair in pairs.items() for word in pair]
    with server.client.pipeline(transaction=False) as pipe:
        for at in range(0, len(words), 2 * at_once):
            pipe.execute_command("OM.SET", name, *words[at : at + 2 * at_once])
        pipe.execute()


def flat(pairs: "list[tuple[bytes, bytes]]") -> "list[bytes]":
    return [word for pair in pairs for word in pair]
