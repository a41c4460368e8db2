"""Runs Watchman's own integration tests, as its source package has them, against Watchman or against wqd behind its
bridge.

    /usr/bin/python3 clients/tried/integration.py SOURCE watchman|bridge RESULTS [PART]

SOURCE is the unpacked package. Nothing of the tests is changed: their `Instance` is given another way to start. RESULTS
gets a JSON object with the outcome of each test. PART runs the modules alone that have it in their names.
`clients/suite` runs this.
"""

import importlib
import json
import os
import shutil
import signal
import subprocess
import sys
import tempfile
import time
import traceback
import unittest
from pathlib import Path
from typing import Dict, List

sys.path.append("/usr/lib/python3/dist-packages")

CLIENTS = Path(__file__).resolve().parent.parent
# A test that takes longer has failed, in seconds.
PATIENCE = 60
# These are of no encoding, and left out without PHP.
IN_PHP = "test_php"
# These need other programs, another file system or a user's terminal.
LEFT_OUT = ("test_eden", "test_nodejs", "test_cppclient", "test_scm", "test_site_spawn", "test_age")
INTERVAL = "50"
Found = Dict[str, List[str]]


def main(source: str, kind: str, results: str, part: str = "") -> None:
    results = os.path.abspath(results)
    os.chdir(source)
    sys.path.insert(0, os.path.join(os.getcwd(), "tests", "integration"))
    os.environ["WATCHMAN_EMPTY_ENV_VAR"] = ""
    import TempDir
    import WatchmanInstance

    room = TempDir.get_temp_dir(False).get_dir()
    if kind == "bridge":
        put_command_on_path(room)
        WatchmanInstance._Instance.start = start
        WatchmanInstance._Instance.stop = stop
    shared = WatchmanInstance.Instance({"watcher": "auto"})
    shared.start()
    WatchmanInstance.setSharedInstance(shared)
    os.environ["WATCHMAN_SOCK"] = shared.getSockPath()
    found: Found = {}
    for name in sorted(path.stem for path in Path("tests/integration").glob("test_*.py")):
        if not name.startswith(LEFT_OUT) and part in name:
            run_module(name, found)
    Path(results).write_text(json.dumps(found, indent=1))
    shared.stop()
    shutil.rmtree(room, ignore_errors=True)
    os._exit(0)  # threads of the tests may go on


def put_command_on_path(room: str) -> None:
    """The command of the tests over the command line is that of the repository."""
    front = tempfile.mkdtemp(dir=room)
    os.symlink(CLIENTS / "watchman", os.path.join(front, "watchman"))
    os.environ["PATH"] = front + os.pathsep + os.environ["PATH"]


def start(self) -> None:
    """Starts a server and a bridge at the socket of an instance."""
    server = f"{self.sock_file}.wqd"
    environment = {**os.environ, "PYTHONDONTWRITEBYTECODE": "1", "WATCHMAN_CONFIG_FILE": self.cfg_file}
    Path(self.log_file_name).touch()
    words = [
        "serve",
        "--sockname",
        server,
        "--start",
        str(int(time.time())),
        "--pid",
        str(os.getpid()),
        "--interval",
        INTERVAL,
    ]
    log = self.cli_log_file
    self.server = subprocess.Popen([str(CLIENTS.parent / "wqd"), *words], env=environment, stdout=log, stderr=log)
    wait_for(server)
    words = [str(CLIENTS / "bridge"), "--server", server, "--sockname", self.sock_file]
    self.proc = subprocess.Popen([sys.executable, *words], env=environment, stdout=log, stderr=log)
    self.pid = self.proc.pid
    wait_for(self.sock_file)


def wait_for(path: str) -> None:
    end = time.monotonic() + PATIENCE
    while not os.path.exists(path) and time.monotonic() < end:
        time.sleep(0.02)


def stop(self) -> None:
    for name in ("proc", "server"):
        process = getattr(self, name, None)
        if process:
            process.send_signal(signal.SIGCONT)
            process.kill()
            process.wait()
            setattr(self, name, None)
    self.cli_log_file.close()


def run_module(name: str, found: Found) -> None:
    try:
        module = importlib.import_module(name)
    except Exception as error:
        found[name] = ["fail", repr(error)]
        return
    for case in unittest.defaultTestLoader.loadTestsFromModule(module):
        for test in case:
            if hasattr(test, "setConfiguration") or name == IN_PHP:
                method = type(test).__name__ if name == IN_PHP else test._testMethodName
                key = f"{name}.{type(test).__name__}.{method}"
                found[key] = outcome_of(test)
                print(found[key][0], key, flush=True)


def outcome_of(test: unittest.TestCase) -> List[str]:
    """`ok`, `skip` or `fail`, and the reason."""
    result = unittest.TestResult()
    before = signal.signal(signal.SIGALRM, too_long)
    signal.alarm(PATIENCE)
    try:
        test.run(result)
    except BaseException as error:
        result.errors.append((test, "".join(traceback.format_exception(type(error), error, error.__traceback__))))
    finally:
        signal.alarm(0)
        signal.signal(signal.SIGALRM, before)
    bad = result.errors + result.failures
    if bad:
        return ["fail", bad[0][1]]
    return ["skip", result.skipped[0][1]] if result.skipped else ["ok", ""]


def too_long(*_: object) -> None:
    raise TimeoutError("the test took too long")


main(*sys.argv[1:])
