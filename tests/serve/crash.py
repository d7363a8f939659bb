"""Kills the front again and again while depots send: crash.py [TIMES [SENDERS]]

After each kill -9 the front starts over its archive. Each upload that was acknowledged has to be
there, with its bytes, in the folder and in the answers.
"""
import asyncio, os, random, sys, tempfile
from pathlib import Path
import aiohttp
import serving

TIMES, SENDERS = int(sys.argv[1]) if len(sys.argv) > 1 else 10, int(sys.argv[2]) if len(sys.argv) > 2 else 30


async def depot(session, url, sender, turn, acknowledged):
    """Sends until the front is gone. A status but 201 ends the run."""
    for number in range(1_000_000):
        token = random.randbytes(16).hex()
        data = serving.upload(*((token, 1000 + sender, random.randrange(10 ** 8)) for _ in range(64)))
        name = f"east-{turn}-{sender}-{number}.tap"
        try:
            async with session.put(f"{url}/uploads/{name}", data=data,
                                   headers={"Authorization": "Bearer e"}) as answer:
                await answer.read()
                if answer.status != 201:
                    sys.exit(f"crash: status {answer.status}")
                acknowledged[name] = data, token
        except (aiohttp.ClientError, ConnectionError):
            return


async def turn_of(folder, turn, acknowledged):
    process, url = serving.start(folder)
    try:
        async with aiohttp.ClientSession(connector=aiohttp.TCPConnector(limit=0)) as session:
            for name, (_, token) in random.sample(sorted(acknowledged.items()), min(5, len(acknowledged))):
                async with session.get(f"{url}/statement/{token}?as=json",
                                       headers={"Authorization": "Bearer clerk"}) as answer:
                    found = await answer.json()
                    if answer.status != 200 or found["totals"]["taps"] != 64:
                        sys.exit(f"crash: {name} is acknowledged, and its taps are not in the answer")
            senders = [asyncio.create_task(depot(session, url, it, turn, acknowledged)) for it in range(SENDERS)]
            await asyncio.sleep(.5 + random.random())
            process.kill()
            process.wait()
            await asyncio.gather(*senders)
    finally:
        process.kill()


def main():
    acknowledged, parts = {}, 0
    with tempfile.TemporaryDirectory() as folder:
        archive = Path(folder, "archive")
        for turn in range(TIMES):
            asyncio.run(turn_of(folder, turn, acknowledged))
            parts += len(os.listdir(archive / ".incoming"))
            lost = [it for it, (data, _) in acknowledged.items()
                    if not (archive / it).exists() or (archive / it).read_bytes() != data]
            if lost:
                sys.exit(f"crash: acknowledged, and lost or changed: {lost[:3]}, {len(lost)} in all")
        there = {it.name for it in archive.glob("*.tap")}
        halves = [it for it in there if serving.front.tokens_of((archive / it).read_bytes())[1]]
        if halves:
            sys.exit(f"crash: not whole: {halves[:3]}")
    print(f"serve: kill -9 {TIMES} times under {SENDERS} senders: {len(acknowledged)} uploads acknowledged, none "
          f"lost or changed, {len(there) - len(acknowledged)} there and not acknowledged, {parts} parts removed")


main()
