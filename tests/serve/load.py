"""Uploads and questions at once: load.py [SECONDS [UPLOADS_A_SECOND [QUESTIONS_A_SECOND]]]

200 validators send uploads of 64 taps, and riders ask. Each answer has to have all taps that were
acknowledged before its question. Beside it a loop does what accepting does to the disk: write,
fsync, rename, fsync of the folder. Afterwards the answers for some tokens have to be the text of
omny_cli over all files. Prints p50, p95 and p99 in milliseconds, and fails if a p99 is above 50: on
a disk whose own p99 is above 50, if it is above that by more than 50.
"""
import asyncio, os, random, sys, tempfile, time
from pathlib import Path
import aiohttp
import serving

SECONDS, UPLOADS, QUESTIONS = [float(it) for it in (*sys.argv[1:], *"20 20 50".split()[len(sys.argv) - 1:])]
VALIDATORS = 200
TOKENS = [f"{it:032x}" for it in range(0, 640_000, 64)]
WANTED_MS = 50


class Load:
    def __init__(self, url, folder, end):
        self.url, self.folder, self.end = url, folder, end
        self.puts, self.gets, self.syncs, self.faults, self.seen = [], [], [], [], {}

    async def each(self, a_second, call):
        """Calls so often, at random moments, whether earlier calls are done or not."""
        calls, number = set(), 0
        while time.monotonic() < self.end:
            calls.add(asyncio.create_task(call(number)))
            number += 1
            await asyncio.sleep(random.expovariate(a_second))
        await asyncio.gather(*calls)

    async def put(self, number):
        validator = (1000, 2000)[number % 2] + number // 2 % (VALIDATORS // 2)
        at = number // VALIDATORS * 3_600_000
        taps = [(random.choice(TOKENS), validator, at + random.randrange(3_600_000)) for _ in range(64)]
        begun = time.monotonic()
        async with self.session.put(f"{self.url}/uploads/east-{number}.tap", data=serving.upload(*taps),
                                    headers={"Authorization": "Bearer e"}) as answer:
            await answer.read()
        self.puts.append(time.monotonic() - begun)
        if answer.status != 201:
            self.faults.append(f"upload: {answer.status}")
        for token, _, _ in taps:
            self.seen[token] = self.seen.get(token, 0) + 1

    async def get(self, _):
        token = random.choice(list(self.seen) or TOKENS)
        wanted, begun = self.seen.get(token, 0), time.monotonic()
        async with self.session.get(f"{self.url}/statement/{token}?as=json",
                                    headers={"Authorization": "Bearer clerk"}) as answer:
            found = await answer.json() if answer.status == 200 else None
        self.gets.append(time.monotonic() - begun)
        if found is None:
            self.faults.append(f"question: {answer.status}")
        elif found["totals"]["taps"] < wanted:
            self.faults.append("an answer lacks taps that were acknowledged before it")

    def sync(self, number):
        begun, part = time.monotonic(), self.folder / f"{number}.part"
        with open(part, "wb") as file:
            file.write(bytes(1800))
            file.flush()
            os.fsync(file.fileno())
        os.rename(part, self.folder / str(number))
        serving.front.sync_folder(self.folder)
        self.syncs.append(time.monotonic() - begun)

    async def run(self):
        async with aiohttp.ClientSession(connector=aiohttp.TCPConnector(limit=0)) as self.session:
            await asyncio.gather(
                self.each(UPLOADS, self.put), self.each(QUESTIONS, self.get),
                self.each(UPLOADS, lambda it: asyncio.to_thread(self.sync, it)))
            for token in random.sample(TOKENS, 20):
                async with self.session.get(f"{self.url}/statement/{token}",
                                            headers={"Authorization": "Bearer clerk"}) as answer:
                    text = await answer.read()
                if text != serving.statement(token, sorted(Path(self.folder, "archive").glob("*.tap"))):
                    self.faults.append(f"{token} has another text than over all files")


def main():
    with tempfile.TemporaryDirectory() as folder:
        process, url = serving.start(folder, at_once=os.cpu_count())
        try:
            load = Load(url, Path(folder), time.monotonic() + SECONDS)
            asyncio.run(load.run())
        finally:
            process.terminate()
            process.wait()
    puts, gets, syncs = map(serving.percentiles, (load.puts, load.gets, load.syncs))
    print(f"serve: {len(load.puts) / SECONDS:.0f} uploads and {len(load.gets) / SECONDS:.0f} questions a second: "
          f"p50, p95, p99 in ms: accept {puts}, answer {gets}, the disk alone {syncs}")
    limit = WANTED_MS + (syncs[2] if syncs[2] > WANTED_MS else 0)
    if max(puts[2], gets[2]) > limit:
        load.faults.append(f"a p99 is above {limit} ms: the machine is busy, or the front too slow")
    for fault in sorted(set(load.faults)):
        print(f"load: {load.faults.count(fault)} times: {fault}", file=sys.stderr)
    sys.exit(bool(load.faults))


main()
