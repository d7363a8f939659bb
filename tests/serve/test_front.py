"""Tests of share/serve/front and night: each status, and what they leave behind."""
import asyncio, errno, gzip, json, os, random, re, shutil, signal, socket, subprocess, tempfile, time
import unittest
from pathlib import Path
from unittest import mock
from aiohttp.test_utils import TestClient, TestServer
import serving
from serving import CLI, PROGRAMS, SERVE, TABLE, front, settings, statement, upload

A, B = "000000000000000000000000000000a1", "000000000000000000000000000000b2"
ZONE = 'zone = "EST5EDT,M3.2.0,M11.1.0"\n'


class Tests(unittest.IsolatedAsyncioTestCase):
    async def asyncSetUp(self):
        self.folder = tempfile.TemporaryDirectory()
        self.archive = Path(self.folder.name, "archive")
        await self.start()

    async def start(self, **others):
        self.settings = settings(str(self.archive), **others)
        self.front = front.Front(self.settings)
        server = TestServer(self.front.app())
        await server.start_server(access_log=None, auto_decompress=False)
        self.client = TestClient(server)
        await self.client.start_server()

    async def stop(self):
        await self.client.close()
        self.front.archive.lock.close()

    async def asyncTearDown(self):
        await self.stop()
        self.folder.cleanup()

    async def put(self, name, data, word="e", **headers):
        async with self.client.put("/uploads/" + name, data=data, headers={
                "Authorization": f"Bearer {word}", **headers}) as answer:
            self.said = await answer.text()
            return answer.status

    async def get(self, path, word="clerk"):
        async with self.client.get(path, headers={"Authorization": f"Bearer {word}"} if word else {}) as answer:
            self.said, self.headers = await answer.text(), answer.headers
            return answer.status

    def there(self):
        """What is in the archive: nothing but uploads if nothing was left behind."""
        names = [it.relative_to(self.archive) for it in self.archive.rglob("*")]
        return sorted(map(str, (it for it in names if it.parts[0] != "nights" and it.name
                                not in (".incoming", ".lock", ".night.lock"))))

    def night_words(self, parts, **others):
        path = f"{self.folder.name}/night.toml"
        serving.write_settings(path, {**self.settings, **others})
        return {"args": [f"{SERVE}/night", path, str(parts)],
                "env": {**os.environ, "PATH": f"{PROGRAMS}:{os.environ['PATH']}"}}

    def night(self, status=0, **others):
        ran = subprocess.run(**self.night_words(8, **others), capture_output=True, text=True)
        self.assertEqual(ran.returncode, status, ran.stderr + ran.stdout)
        return ran.stdout + ran.stderr

    async def billed(self, token):
        self.assertEqual(await self.get(f"/statement/{token}?as=json"), 200)
        return {it["billed"] for it in json.loads(self.said)["entries"]}

    # uploads

    async def test_accepts_and_answers(self):
        self.assertEqual(await self.put("east-1.tap", upload((A, 2000, 1_200_000))), 201)
        self.assertEqual(await self.put("west-2.tap", upload((A, 1000, 0), (B, 1, 0)), "w"), 201)
        self.assertEqual(await self.get(f"/statement/{A}?as=json"), 200)
        found = json.loads(self.said)
        self.assertEqual([(it["answer"], it["cents"]) for it in found["entries"]],
                         [("paid", 300), ("transfer", 0)])     # settled: the later upload is earlier
        self.assertEqual(found["totals"]["cents"], 300)
        self.assertEqual(found["windows"][0]["paid"], 1)
        self.assertEqual(found["terms"], [{"fare": 300, "rides": 12, "free_from": 13, "ceiling": 3500}])
        self.assertEqual([it["billed"] for it in found["entries"]], [False, False])
        for token in (A, B, "f" * 32):
            self.assertEqual(await self.get(f"/statement/{token.upper()}"), 200)
            self.assertEqual(self.said.encode(), statement(token, sorted(self.archive.glob("*.tap"))))
        self.assertEqual(self.headers["Cache-Control"], "no-store")

    async def test_sent_again_and_other_bytes(self):
        one, two = upload((A, 1000, 0)), upload((A, 1000, 1))
        self.assertEqual(await self.put("east-1.tap", one), 201)
        for _ in range(2):
            self.assertEqual([await self.put("east-1.tap", one), await self.put("east-1.tap", two)], [200, 409])
            self.front.archive.load()
        self.assertEqual(self.front.archive.names(A), ["east-1.tap"])
        self.assertEqual((self.archive / "east-1.tap").read_bytes(), one)

    async def test_refused_words_and_names(self):
        one = upload((A, 1000, 0))
        for word in ("x", "clerk", "", "é", "e e", "E"):
            self.assertEqual(await self.put("east-1.tap", one, word), 401, word)
        self.assertEqual(await self.put("east-1.tap", one, Authorization="Basic e"), 401)
        for name in ("west-1.tap", "east.tap", "east-.tap", "east-1", "east-1.tap%0a", "east-%00.tap",
                     "east-a%2f..%2fb.tap", "..%2feast-1.tap", "east-%ff.tap", "east-.hidden.tap",
                     "east-%e2%80%ae.tap", "eastern-1.tap", "EAST-1.tap", "east-a b.tap", "east-" + "a" * 101 + ".tap"):
            self.assertEqual(await self.put(name, one), 403, name)
        self.assertEqual(self.there(), [])

    async def test_refused_bytes(self):
        one = upload((A, 1000, 0))
        for data, fault in (
                (b"", "since it is empty"), (one[:-1], "at 0 L5"), (one + b"TAP", "at 36 L1"),
                (one + b"TAP2\0\0\0\0", "at 36 L1"), (b"<!doctype html>", "at 0 L2"), (gzip.compress(one), "at 0 L2"),
                (one[:6] + b"\0\1" + one[8:], "at 0 L3"), (b"TAP1\x10\x01\0\0", "at 0 L4"),
                (one + upload((A, 1, front.MOMENT_LIMIT - serving.DAY_MS)), "at 36 L6")):
            self.assertEqual(await self.put("east-1.tap", data), 422, fault)
            self.assertIn(f"refused {fault}: nothing was accepted", self.said)
        self.assertEqual(await self.put("east-1.tap", gzip.compress(one), **{"Content-Encoding": "gzip"}), 422)
        batch = upload(*((A, 1000, at) for at in range(4096)))
        limit = batch * (front.UPLOAD_LIMIT_BYTES // len(batch))
        limit += b"TAP1\0\0\0\0" * ((front.UPLOAD_LIMIT_BYTES - len(limit)) // 8)
        self.assertEqual(await self.put("east-1.tap", limit + b"TAP1\0\0\0\0"), 413)

        async def pieces():
            yield limit
            yield limit
        self.assertEqual(await self.put("east-1.tap", pieces()), 413)
        self.assertEqual(self.there(), [])
        self.assertEqual(await self.put("east-1.tap", limit), 201)
        last = upload((A, 1, front.MOMENT_LIMIT - serving.DAY_MS - 1))
        self.assertEqual(await self.put("east-2.tap", last), 201)

    def test_layout_faults_are_those_of_the_program(self):
        made, files = random.Random(7), []
        batches = [upload(*((A, 1, k) for k in range(n))) for n in (0, 1, 3)]
        batches.append(b"TAP2\0\2\0\0\0\0\3\xe8" + (bytes.fromhex(A) + serving.struct.pack(">Q", 5)) * 2)
        for number in range(400):
            data = bytearray(b"".join(made.choices(batches, k=made.randrange(1, 5))))
            for _ in range(made.randrange(3)):
                data[made.randrange(len(data))] = made.choice((0, 1, 255, made.randrange(256)))
            data = data[:made.randrange(len(data) + 1)] if made.random() < .3 else data
            files.append(Path(self.folder.name, str(number)))
            files[-1].write_bytes(data)
        told = subprocess.run([CLI, *files], capture_output=True, text=True).stdout
        faults = dict(re.findall(r"^(\d+) refused (\d+ L\d)$", told, re.M))
        tokens = {}
        for number, token in re.findall(r"^(\d+) \d+ ([0-9a-f]{32}) ", told, re.M):
            tokens.setdefault(int(number), set()).add(bytes.fromhex(token))
        self.assertGreater(len(faults), 100)
        for number, file in enumerate(files):
            found, fault = front.tokens_of(file.read_bytes())
            self.assertEqual(fault, f"at {faults[str(number)]}" if str(number) in faults else None, file)
            self.assertEqual(found, tokens.get(number, set()))

    async def test_slow_and_cut_bodies(self):
        host, port = self.client.server.host, self.client.server.port
        head = "PUT /uploads/east-1.tap HTTP/1.1\r\nHost: x\r\nAuthorization: Bearer e\r\n"
        one = upload((A, 1000, 0))
        with mock.patch.object(front, "BODY_SECONDS", .2):
            reader, writer = await asyncio.open_connection(host, port)
            writer.write(head.encode() + b"Content-Length: 36\r\n\r\n" + one[:20])
            self.assertIn(b" 408 ", await reader.readline())
            writer.close()
        for more in (b"Content-Length: 36\r\n\r\n" + one[:20],
                     b"Transfer-Encoding: chunked\r\n\r\n24\r\n" + one[:20]):
            for is_hard in (False, True):
                sock = socket.create_connection((host, port))
                sock.sendall(head.encode() + more)
                if is_hard:
                    sock.setsockopt(socket.SOL_SOCKET, socket.SO_LINGER, serving.struct.pack("ii", 1, 0))
                await asyncio.sleep(.1)
                sock.close()
        await asyncio.sleep(.1)
        self.assertEqual((self.there(), self.front.uploading), ([], 0))
        self.assertEqual(await self.put("east-1.tap", one), 201)

    async def test_bytes_that_are_no_http(self):
        made = random.Random(3)
        words = [b"GET / HTTP/9.9\r\n\r\n", b"\0" * 100, b"PUT /uploads/\xff HTTP/1.1\r\n\r\n",
                 b"PUT /uploads/east-1.tap HTTP/1.1\r\nContent-Length: -1\r\n\r\n",
                 b"PUT /uploads/../../x HTTP/1.1\r\nAuthorization: Bearer e\r\nContent-Length: 0\r\n\r\n",
                 b"GET /statement/\xe4\xed\xff HTTP/1.1\r\nAuthorization: Bearer \xff\xfe\r\n\r\n",
                 b"GET /r/" + A.encode() + b"?k=%ff\xff%ED%A0%80 HTTP/1.1\r\nHost: x\r\n\r\n",
                 b"PUT /uploads/east-1.tap HTTP/1.1\r\nTransfer-Encoding: chunked\r\nAuthorization: Bearer e\r\n\r\nzz\r\n",
                 b"GET /" + b"a" * 100_000 + b" HTTP/1.1\r\n\r\n", b"GET / HTTP/1.1\r\n" + b"a: b\r\n" * 10_000 + b"\r\n"]
        words += [made.randbytes(made.randrange(1, 300)) + b"\r\n\r\n" for _ in range(60)]
        for word in words:
            reader, writer = await asyncio.open_connection(self.client.server.host, self.client.server.port)
            writer.write(word)
            try:
                line = await asyncio.wait_for(reader.readline(), .3)
            except asyncio.TimeoutError:        # it waits for more
                writer.write_eof()
                line = await asyncio.wait_for(reader.readline(), 5)
            self.assertRegex(line, rb"^(HTTP/\d\.\d 4\d\d .*\r\n)?$", word)
            writer.close()
        self.assertEqual(self.there(), [])
        self.assertEqual(await self.get("/health"), 200)

    async def test_two_senders_of_one_name(self):
        one, two = upload((A, 1000, 0)), upload((A, 1000, 1))
        got = await asyncio.gather(*(self.put("east-1.tap", it) for it in (one, two, one, two, one)))
        is_one = (self.archive / "east-1.tap").read_bytes() == one
        self.assertEqual(sorted(got), [200, 200, 201, 409, 409] if is_one else [200, 201, 409, 409, 409])
        self.assertEqual(self.there(), ["east-1.tap"])

    async def test_a_sender_that_is_gone_leaves_an_upload_or_nothing(self):
        one, held, write = upload((A, 1000, 0)), asyncio.Event(), self.front.archive.write
        loop = asyncio.get_running_loop()

        def slow(*words):
            asyncio.run_coroutine_threadsafe(held.wait(), loop).result()
            return write(*words)
        with mock.patch.object(self.front.archive, "write", slow):
            sent = asyncio.create_task(self.put("east-1.tap", one))
            await asyncio.sleep(.1)
            sent.cancel()
            again = asyncio.create_task(self.put("east-1.tap", one))
            ended = asyncio.create_task(self.front.archive.accept("east-2.tap", one, {bytes.fromhex(A)}))
            await asyncio.sleep(.1)
            ended.cancel()
            held.set()
            self.assertEqual(await again, 200)
        self.assertEqual(await self.put("east-2.tap", one), 200)
        self.assertEqual(sorted(self.front.archive.names(A)), ["east-1.tap", "east-2.tap"])

    async def test_a_load_while_an_upload_is_written(self):
        write, loop = self.front.archive.write, asyncio.get_running_loop()

        def then_load(*words):
            status = write(*words)
            loop.call_soon_threadsafe(self.front.archive.load)
            return status
        with mock.patch.object(self.front.archive, "write", then_load):
            self.assertEqual(await self.put("east-1.tap", upload((A, 1000, 0))), 201)
        self.assertEqual(self.front.archive.names(A), ["east-1.tap"])

    async def test_a_disk_that_refuses(self):
        """Each system call of an upload fails once: 507, no part is left, and sending again helps."""
        one, real = upload((A, 1000, 0)), {"fsync": os.fsync, "rename": os.rename}
        for number, (name, fails_at) in enumerate((("fsync", 1), ("rename", 1), ("fsync", 2))):
            calls = 0

            def refuse(*words, name=name, fails_at=fails_at):
                nonlocal calls
                calls += 1
                if calls == fails_at:
                    raise OSError(errno.ENOSPC, "No space left on device")
                return real[name](*words)
            with mock.patch.object(front.os, name, refuse):
                self.assertEqual(await self.put(f"east-{number}.tap", one), 507)
            self.assertIn("No space left", self.said)
            self.assertEqual(list((self.archive / ".incoming").iterdir()), [])
            self.assertNotIn(f"east-{number}.tap", self.front.archive.files)
        # the name is there, though not acknowledged: other bytes cannot have it, the same can
        self.assertEqual(await self.put("east-2.tap", upload((A, 1000, 1))), 409)
        for number in range(3):
            self.assertEqual(await self.put(f"east-{number}.tap", one), 201)
        self.assertEqual(self.there(), ["east-0.tap", "east-1.tap", "east-2.tap"])

    async def test_a_full_disk(self):
        await self.stop()
        self.archive.joinpath(".lock").unlink()
        if subprocess.run(["mount", "-t", "tmpfs", "-o", "size=256k", "tmpfs", str(self.archive)],
                          capture_output=True).returncode:
            await self.start()
            self.skipTest("it needs to mount a small disk")
        try:
            await self.start()
            big, number = upload(*((A, 1000, at) for at in range(1000))), 0
            while (status := await self.put(f"east-{number}.tap", big)) == 201:
                number += 1
            self.assertEqual(status, 507)
            self.assertEqual(len(self.there()), number)
            self.assertEqual(await self.get(f"/statement/{A}"), 200)
            await self.stop()
        finally:
            subprocess.run(["umount", str(self.archive)], check=True)
            await self.start()

    async def test_too_many_uploads(self):
        self.front.uploading = front.UPLOADS_AT_ONCE
        self.assertEqual(await self.put("east-1.tap", upload((A, 1000, 0))), 503)
        self.front.uploading = 0

    # restarts and nights

    async def test_restart(self):
        await self.put("east-1.tap", upload((A, 1000, 0)))
        (self.archive / ".incoming" / "east-9.tap").write_bytes(b"TAP1")
        (self.archive / "east-8.tap").write_bytes(b"TAP1")
        (self.archive / "a b.tap").write_bytes(upload((A, 1000, 7)))
        await self.stop()
        await self.start()
        self.assertEqual(list((self.archive / ".incoming").iterdir()), [])
        self.assertEqual(self.front.archive.left_out, ["a b.tap", "east-8.tap"])
        self.assertEqual(await self.get(f"/statement/{A}?as=json"), 200)
        self.assertEqual(len(json.loads(self.said)["entries"]), 1)
        self.assertEqual(await self.get("/health"), 200)
        self.assertEqual({it: json.loads(self.said)[it] for it in ("uploads", "left_out")},
                         {"uploads": 1, "left_out": 2})

    async def test_one_front_an_archive(self):
        with self.assertRaisesRegex(SystemExit, "another front"):
            front.Front(self.settings)

    async def test_a_night_changes_no_text(self):
        for i in range(30):
            taps = ((f"{(i * 7 + k) % 9:030x}a{k % 4}", 1000 + i % 2 * 1000, i * 900_000 + k) for k in range(12))
            await self.put(f"east-{i}.tap", upload(*taps))
        tokens = [it.hex() for it in self.front.archive.index]

        async def texts():
            found = []
            for token in tokens:
                self.assertEqual(await self.get(f"/statement/{token}"), 200)
                found.append(self.said)
            return found
        before = await texts()
        self.assertIn("of 30 uploads", self.night())
        self.front.archive.load()
        self.assertEqual(self.front.archive.index, {})
        self.assertEqual(await texts(), before)
        self.assertEqual(await self.billed(tokens[0]), {True})
        self.assertEqual(await self.billed("f" * 32), set())
        self.assertEqual(await self.put("east-0.tap", upload((A, 1000, 5))), 409)
        self.assertEqual(await self.put("west-9.tap", upload((tokens[0], 1000, 90_000_000)), "w"), 201)
        self.assertEqual(await self.billed(tokens[0]), {True, False})
        after = await texts()
        self.assertNotEqual(after[0], before[0])
        self.assertEqual(after[1:], before[1:])
        time.sleep(1.1)
        self.assertIn("of 31 uploads", self.night())
        nights = sorted((self.archive / "nights").iterdir())
        self.assertEqual(sorted(it.name for it in nights[1].iterdir()),
                         ["bill.csv", "bill.txt", "corrections.csv", "manifest", "parts"])
        corrections = (nights[1] / "corrections.csv").read_text().splitlines()[1:]
        self.assertEqual([it.split(",")[0:4:3] for it in corrections], [[tokens[0], "added"]])
        await self.stop()
        await self.start()
        self.assertEqual((await texts(), len(self.front.archive.files)), (after, 31))

    async def test_a_night_that_fails_changes_nothing(self):
        self.assertIn("there are no uploads", self.night())
        await self.put("east-1.tap", upload((A, 1000, 0)))
        self.assertIn("fault: table", self.night(status=1, tables=["/dev/null"]))
        bad = self.archive / "east-2.tap"
        bad.write_bytes(upload((A, 1000, 0))[:-1])
        self.assertIn("L5", self.night(status=1))
        bad.rename(self.archive / "east 2.tap")
        self.assertIn("no name of an upload: east 2.tap", self.night(status=1))
        (self.archive / "east 2.tap").unlink()
        self.assertEqual(self.there(), ["east-1.tap"])
        later = self.archive / "nights" / "29991231T000000Z"
        later.mkdir()
        self.assertIn("the clock is not after", self.night(status=1))
        later.rmdir()
        self.night()
        time.sleep(1.1)
        (self.archive / "east-1.tap").write_bytes(upload((A, 1000, 1)))
        self.assertIn("gone or changed", self.night(status=1))
        self.assertEqual(len(list((self.archive / "nights").iterdir())), 1)
        self.assertEqual(self.there(), ["east-1.tap"])

    async def test_a_night_that_is_killed_leaves_no_snapshot(self):
        for i in range(20):
            await self.put(f"east-{i}.tap", upload(*((f"{k:032x}", 1000, k) for k in range(500))))
        for delay in (.05, .1, .2):
            ran = subprocess.Popen(**self.night_words(512), start_new_session=True, stdout=subprocess.DEVNULL,
                                   stderr=subprocess.DEVNULL)
            time.sleep(delay)
            os.killpg(ran.pid, signal.SIGKILL)
            ran.wait()
            for it in (self.archive / "nights").glob("*"):
                self.assertTrue((it / "manifest").exists())
            time.sleep(1.1)
        self.night()
        self.assertEqual(list(self.archive.glob(".night.*.new")), [])

    # statements

    async def test_who_may_ask(self):
        await self.put("east-1.tap", upload((A, 1000, 0)))
        for word in (None, "e", "x", "ÿ"):
            for path in (f"/statement/{A}", f"/r/{A}", f"/link/{A}", f"/r/{A}?k=é", f"/statement/{A}?k=%ff"):
                self.assertEqual(await self.get(path, word), 401, path)
        for token in ("a1", A + "0", "g" * 32, "%00" * 32, "..%2f" + A):
            self.assertEqual(await self.get(f"/statement/{token}"), 404, token)
        self.assertEqual(await self.get(f"/statement/{A}?as=xml"), 400)
        self.assertEqual(await self.get(f"/link/{A}"), 200)
        link = self.said.strip()
        self.assertEqual(await self.get(link, None), 200)
        self.assertEqual(self.said.count("<li>"), 1)
        self.assertIn('<b id="sum">3.00</b>', self.said)
        self.assertIn("Times are UTC.", self.said)
        self.assertIn('<div class="why">your 1st ride since Mon 2 Mar 2026</div>', self.said)
        self.assertNotIn("unsafe", self.headers["Content-Security-Policy"])
        self.assertEqual(await self.get(link.replace(A, B), None), 401)
        self.assertEqual(await self.get(link.replace("/r/", "/link/"), None), 401)
        await self.stop()
        await self.start(riders_key="11" * 32)
        self.assertEqual(await self.get(link, None), 401)

    async def test_tables_with_a_zone_and_from_a_date(self):
        await self.put("east-1.tap", upload((A, 1000, 3_600_000), (A, 1000, 8 * 86_400_000), (B, 9, 10)))
        old, new = Path(self.folder.name, "old.toml"), Path(self.folder.name, "new.toml")
        old.write_text(ZONE + Path(TABLE).read_text())
        new.write_text(old.read_text().replace("fare = 300", "fare = 310"))
        await self.stop()
        await self.start(tables=[str(old), f"{new}@2026-03-05"])
        self.assertEqual(await self.get(f"/r/{A}?k={self.front.rider_word(A)}", None), 200)
        self.assertRegex(self.said, r"(?s)3\.10</span>20:00 on Mon 9 Mar 2026, .*"
                                    r"3\.00</span>20:00 on Sun 1 Mar 2026, subway, ride <i>provisional</i>")
        self.assertIn("Times are local.", self.said)
        self.assertEqual(await self.get(f"/statement/{A}?as=json"), 200)
        found = json.loads(self.said)
        self.assertEqual((len(found["terms"]), len(found["windows"])), (2, 2))
        self.assertEqual(await self.get(f"/statement/{B}?as=json"), 200)
        self.assertEqual(json.loads(self.said)["entries"][0]["mode"], "-")
        self.assertIn("of 1 uploads", self.night())

    def program(self, text):
        path = Path(self.folder.name, "program")
        path.write_text(f"#!/bin/sh\n{text}\n")
        path.chmod(0o755)
        self.front.program.words[0] = str(path)

    async def test_what_the_program_does_wrong(self):
        right = statement(A, []).decode()
        for text in ("exit 0", "echo x", "kill -9 $$", "echo fault: out of memory >&2; exit 1", "exec yes",
                     f"printf '%s' '{right[:-1]}'", f"printf '%s' '{right}'; exit 1", f"printf '%s' '{right}extra'"):
            self.program(text)
            self.assertEqual(await self.get(f"/statement/{A}"), 502, text)
        self.front.program.words[0] = "/nowhere"
        self.assertEqual(await self.get(f"/statement/{A}"), 502)
        self.program(f"echo $$ > {self.folder.name}/pid; exec sleep 60")
        with mock.patch.object(front, "ANSWER_SECONDS", .5):
            self.assertEqual(await self.get(f"/statement/{A}"), 504)
        with self.assertRaises(ProcessLookupError):
            os.kill(int(Path(self.folder.name, "pid").read_text()), 0)
        with mock.patch.object(front, "QUESTIONS_AT_ONCE", 0):
            self.assertEqual(await self.get(f"/statement/{A}"), 503)
        with mock.patch.object(front, "FILES_OF_A_QUESTION", -1):
            self.assertEqual(await self.get(f"/statement/{A}"), 503)
        self.assertEqual(self.front.program.waiting, 0)

    def test_statements_that_do_not_add_up(self):
        head = f"statement {A}\nterms fare 300 rides 12 ceiling 3500\n"
        line = "2024-03-08T17:00:00.000Z subway 1000 paid 300 because it is ride 1 of the window from " \
            "2024-03-08T17:00:00.000Z until 2024-03-15T17:00:00.000Z at full fare, no transfer since it is the " \
            "first known tap\n"
        totals = "totals taps 1 paid 1 transfers 0 capped 0 stale 0 unknown 0 cents 300\n"
        window = "window 2024-03-08T17:00:00.000Z 2024-03-15T17:00:00.000Z paid 1 cents 300\n"
        right = head + line + totals + window
        self.assertEqual(front.check_text(right, A), None)
        wrong = [right.replace(*it) for it in (
            ("paid 300", "paid 290"), ("taps 1", "taps 2"), ("paid 1 t", "paid 0 t"), ("stale 0", "stale 1"),
            ("unknown 0 cents 300", "unknown 0 cents 301"), ("paid 1 cents 300", "paid 1 cents 299"),
            ("paid 1 cents 300", "paid 2 cents 300"), ("a1", "a2"), (line, ""), (line, line * 2), (totals, ""),
            (totals, totals * 2), (window, ""), (window, window * 2), (window, "earlier " + window),
            ("\n", "\r\n"))]
        for text in [*wrong, right + "x\n", right[:-1], "", "\n", right + "\n", "x" + right]:
            with self.assertRaises(front.WRONG, msg=text):
                front.check_text(text, A)

    def test_json_that_does_not_add_up(self):
        right = statement(A, [f"{serving.ROOT}/examples/first.tap"], "--json").decode()
        self.assertEqual(front.check_json(right, A)["totals"]["cents"], 300)
        for words in (('"cents":300', '"cents":301'), ('"taps":2', '"taps":1'), ('"answer":"paid"', '"answer":"free"'),
                      ("a1", "a2"), ("}]}", "}]"), ('"entries"', '"rides"')):
            with self.assertRaises(front.WRONG, msg=words):
                front.check_json(right.replace(*words, 1), A)

    def test_lines_of_a_ledger(self):
        head = "token,line,moment,validator,mode,answer,cents,window_start,window_end,ride,reason,points_at\n"
        path = Path(self.folder.name, "bill.csv")
        for count in range(9):
            tokens = [f"{2 * it:032x}" for it in range(count) for _ in range(1 + it % 3)]
            path.write_text(head + "".join(f"{it},1,1970-01-01T00:00:01.{at:03}Z,7,subway,paid,300,,,,,\n"
                                           for at, it in enumerate(tokens)))
            for number in range(2 * count + 2):
                token = f"{number:032x}"
                self.assertEqual(front.charged_by(path, token), {
                    (1000 + at, 7, "paid", 300) for at, it in enumerate(tokens) if it == token})

    # the start

    def test_settings(self):
        path = f"{self.folder.name}/front.toml"
        for others in ({"depots": {"east-side": "0" * 64}}, {"depots": {"east": "short"}}, {"tables": []},
                       {"archive": "here"}, {"riders_key": "00"}, {"port": "80"}, {"colour": "red"},
                       {"clerks": {"desk": serving.digest("e")}}, {"tables": ["table.toml"]}, {"clerks": "x"}):
            serving.write_settings(path, settings("/a", **others))
            with self.assertRaises(SystemExit, msg=str(others)):
                front.settings_of(path)
        serving.write_settings(path, settings("/a"))
        self.assertEqual(front.settings_of(path), settings("/a"))
        with self.assertRaisesRegex(SystemExit, "fault: table"):
            front.Program(CLI, ["/dev/null"], 1)

    @unittest.skipUnless(shutil.which("systemd-analyze"), "it needs systemd-analyze")
    def test_units(self):
        places = []
        for name in ("fare-front.service", "fare-night.service", "fare-night.timer"):
            text = Path(SERVE, name).read_text().replace("/usr/local/share/junerptaz/share/serve", SERVE)
            places.append(Path(self.folder.name, name))
            places[-1].write_text(text)
        ran = subprocess.run(["systemd-analyze", "verify", "--man=no", *places], capture_output=True, text=True)
        said = [it for it in ran.stderr.splitlines() if "fare-" in it]
        self.assertEqual(said, [])


if __name__ == "__main__":
    unittest.main()
