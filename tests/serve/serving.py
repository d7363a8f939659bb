"""What the tests of share/serve share: the front as a module, uploads, settings, and a front's process."""
import hashlib, importlib.machinery, importlib.util, os, socket, struct, subprocess, sys, time
import urllib.request

sys.dont_write_bytecode = True
ROOT = os.path.dirname(os.path.dirname(os.path.dirname(os.path.realpath(__file__))))
SERVE, TABLE = f"{ROOT}/share/serve", f"{ROOT}/examples/table.toml"
PROGRAMS = os.path.realpath(os.environ.get("PROGRAMS", f"{ROOT}/out/trial"))
CLI = f"{PROGRAMS}/omny_cli"
DAY_MS = 1_772_409_600_000          # 2026-03-02, a Monday
WORDS = {"east": "e", "west": "w", "desk": "clerk"}     # the token of each depot and clerk

loader = importlib.machinery.SourceFileLoader("front", f"{SERVE}/front")
front = importlib.util.module_from_spec(importlib.util.spec_from_loader("front", loader))
loader.exec_module(front)


def digest(word):
    return hashlib.sha256(word.encode()).hexdigest()


def upload(*taps):
    """An upload of taps (token, validator, milliseconds after DAY_MS)."""
    return b"TAP1" + struct.pack(">HH", len(taps), 0) + b"".join(
        bytes.fromhex(token) + struct.pack(">IQ", validator, DAY_MS + at) for token, validator, at in taps)


def settings(archive, /, **others):
    return {"archive": archive, "cli": CLI, "tables": [TABLE], "at_once": 2, "port": 8080,
            "depots": {it: digest(WORDS[it]) for it in ("east", "west")},
            "clerks": {"desk": digest(WORDS["desk"])}, "riders_key": "00" * 32, **others}


def write_settings(path, values):
    """The settings as TOML: texts, numbers, lists of texts, and tables of texts behind them."""
    plain = [f"{key} = {value!r}" for key, value in values.items() if not isinstance(value, dict)]
    for key, value in values.items():
        if isinstance(value, dict):
            plain += [f"[{key}]", *(f"{name} = {it!r}" for name, it in value.items())]
    with open(path, "w", encoding="utf-8") as file:
        file.write("\n".join(plain) + "\n")


def start(folder, **others):
    """A front's process over FOLDER/archive, once it answers, and its address."""
    with socket.create_server(("127.0.0.1", 0)) as free:
        port = free.getsockname()[1]
    write_settings(f"{folder}/front.toml", settings(f"{folder}/archive", port=port, **others))
    process = subprocess.Popen(["/usr/bin/python3", f"{SERVE}/front", f"{folder}/front.toml"],
                               stderr=subprocess.DEVNULL)
    url = f"http://127.0.0.1:{port}"
    for _ in range(600):
        try:
            with urllib.request.urlopen(f"{url}/health", timeout=5):
                return process, url
        except OSError:
            if process.poll() is not None:
                sys.exit(f"serve: the front ended with status {process.returncode}")
            time.sleep(.05)
    process.kill()
    sys.exit("serve: the front does not answer")


def statement(token, files, *words, table=TABLE):
    """What omny_cli says of a token over these files."""
    return subprocess.run([CLI, "--table", table, "--settle", "--explain", "--token", token, *words,
                           *(files or ["/dev/null"])], capture_output=True, check=True).stdout


def percentiles(seconds):
    ordered = sorted(seconds)
    return [round(1000 * ordered[min(len(ordered) - 1, int(len(ordered) * part))], 1)
            for part in (.5, .95, .99)] if ordered else None
