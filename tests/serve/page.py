"""The rider's page in headless Chromium: page.py CHROMIUM

The page has each line of the statement with its cents, its sum is that of the totals, no script is
in it and no other address is asked.
"""
import json, os, re, subprocess, sys, tempfile, urllib.request
from pathlib import Path
import serving

TOKEN = "000000000000000000000000000000a1"


def ask(url, word="clerk", data=None):
    method = "PUT" if data else "GET"
    request = urllib.request.Request(url, data, {"Authorization": f"Bearer {word}"}, method=method)
    with urllib.request.urlopen(request, timeout=20) as answer:
        return answer.read().decode()


def main():
    with tempfile.TemporaryDirectory() as folder:
        table = Path(folder, "table.toml")
        table.write_text('zone = "EST5EDT,M3.2.0,M11.1.0"\n' + Path(serving.TABLE).read_text())
        process, url = serving.start(folder, tables=[str(table)])
        try:
            for name in ("a", "b", "first"):
                ask(f"{url}/uploads/east-{name}.tap", "e", Path(f"{serving.ROOT}/examples/{name}.tap").read_bytes())
            link, found = ask(f"{url}/link/{TOKEN}").strip(), json.loads(ask(f"{url}/statement/{TOKEN}?as=json"))
            words = [sys.argv[1], "--headless", "--disable-gpu", f"--user-data-dir={folder}/chromium",
                     *["--no-sandbox"] * (os.getuid() == 0), "--virtual-time-budget=3000", "--dump-dom", url + link]
            dom = subprocess.run(words, capture_output=True, text=True, timeout=120).stdout
        finally:
            process.terminate()
            process.wait()
    cents = [int(units) * 100 + int(rest) for units, rest in re.findall(r'class="cents">(\d+)\.(\d\d)<', dom)]
    wanted = [it["cents"] for it in reversed(found["entries"])]
    total = re.search(r'id="sum">([0-9.]+)<', dom)
    if not wanted or cents != wanted or not total or total[1] != f"{sum(wanted) / 100:.2f}":
        sys.exit(f"page: wanted {wanted}, seen {cents} in {dom!r}")
    if dom.count("<i>provisional</i>") != len(wanted) or "your 1st ride since" not in dom:
        sys.exit(f"page: its lines are not in a rider's words: {dom!r}")
    if "<script" in dom or "http" in dom.replace(url, ""):
        sys.exit("page: it has a script or an address")
    print(f"serve: the page in Chromium: {len(wanted)} lines and their sum as in the statement")


main()
