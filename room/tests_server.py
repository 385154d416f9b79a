"""Tests of the server: what it refuses, how much one address may take, who may do what, what it keeps."""
import re
import socket
import subprocess
import time

import browser
from library import wire
from world_log import Writer, read_log
from served import AT_BUTTON, HERE, PANEL, TRAINER, Client, Served, scene, scene_file

POINT = {"down": True, "aim": AT_BUTTON}


def refused_socket(served, *lines):
    """How the server refuses a WebSocket with these lines in its head."""
    try:
        browser.Socket(f"ws://127.0.0.1:{served.port}/door/socket", lines).close()
        return "taken"
    except ConnectionError as refused:
        return str(refused)


def test_what_isnt_its_own_is_refused():
    with Served() as served:
        get = served.get
        assert get("/") == 302 and get("/door") == 302
        assert get("/door/") == get("/static/main.js") == get("/static/three.js") == get("/static/page.css") == 200
        assert get("/../server.py") == get("/server.py/") == get("/%2e%2e/etc/passwd") == get("/static/rooms.html") == 404
        assert get("/static/..%2fserver.py") == get("/panel/") == get("/door/sockets") == 404
        assert served.ask("POST", "/door/", "{}")[0] == served.ask("DELETE", "/")[0] == 405
        assert get("/door/socket") == 426 and get("/door/job") == get("/door/x3dlog") == 403
        # Without python3-segno the page shows the link alone.
        status, code = served.ask("GET", "/door/link.svg")
        assert status == 404 or status == 200 and b"<svg" in code, (status, code[:100])
        assert get("/", Host="evil.example") == get("/", Host="") == get("/", Host="a b") == 403
        for host in ("localhost", f"127.0.0.1:{served.port}", "[::1]:80", "192.168.1.7", socket.gethostname()):
            assert get("/door/", Host=host) == 200, host
        # It listens at no other address, though this is the machine's own too.
        with socket.socket() as link:
            assert link.connect_ex(("127.0.0.2", served.port))


def test_help_describes_each_option():
    told = subprocess.run([HERE / "server.py", "--help"], capture_output=True, text=True, check=True).stdout
    options = re.findall(r"^  (--[a-z]+|-h, --help|FILE)((?:.*\n(?=   ))*.*)", told, re.M)
    named = "FILE -h --replay --address --port --name --password --trainer --keep --each --proxy --wasm --three".split()
    assert [word.partition(",")[0] for word, _ in options] == named, told
    for word, text in options:
        described = re.sub(r"^ (?:[A-Z]+)?", "", text).strip()
        assert len(described) >= 8, (word, described)


def test_the_trainers_link_stays_where_rooms_are_kept():
    with scene_file(scene(), "door.x3dv") as file:
        links = []
        for _ in range(2):
            words = [HERE / "server.py", "--port", "0", "--keep", file.parent / "kept", file]
            with subprocess.Popen(words, stdout=subprocess.PIPE, text=True) as server:
                told = [server.stdout.readline().strip() for _ in range(3)]
                server.terminate()
            assert told[0].endswith("/door/") and "Open the trainer's link yourself" in told[2], told
            links.append(told[1].partition("#trainer=")[2])
        assert links[0] and links[0] == links[1] and (file.parent / "kept/.trainer").stat().st_mode & 0o77 == 0, links


def test_a_port_that_is_taken_is_said():
    with Served() as served:
        words = [HERE / "server.py", "--port", str(served.port), PANEL]
        told = subprocess.run(words, capture_output=True, text=True, timeout=60, check=False)
        assert told.returncode == 1 and told.stderr == f"room: port {served.port} is taken: --port takes another one\n", told


def test_a_page_of_another_origin_has_no_window():
    with Served() as served:
        host = f"127.0.0.1:{served.port}"
        assert refused_socket(served, f"Origin: http://{host}") == "taken"
        for origin in ("http://evil.example", "null", f"http://127.0.0.1:{served.port + 1}", f"http://{host}.evil.example"):
            assert "403" in refused_socket(served, f"Origin: {origin}"), origin


def test_commands_that_have_no_sense_are_refused():
    with Served() as served:
        client, trainer = served.client(name="Ana"), served.client(name="Tina", trainer=TRAINER)
        assert client.status("point", **POINT) == 200
        for aim in ([], [0] * 6, [1.5] * 6, [10**16] * 6, [True] * 6, "aim", [0, 0, 0, 0, 0, None]):
            assert client.status("point", **{**POINT, "aim": aim}) == 400, aim
        assert client.status("point", **{**POINT, "down": 1}) == 400
        for command in ("enter", "points", "", None, 7, ["point"], "__class__"):
            assert client.status(command) == 404, command
        assert client.status("hand", up=1) == 400 and client.status("hand", up=True) == 200
        # Names are shown to all: what isn't printed goes, and so does what is too long.
        time.sleep(1)
        assert client.ask("name", name="A\u202e\n" + "b" * 40)["name"] == "A" + "b" * 23
        assert client.ask("name", name="\0")["name"] == "A" + "b" * 23
        # No two have one name; and what is no color changes none.
        again = served.client(name="Tina", color=trainer.seat["color"])
        assert again.seat["name"] == "Tina 2" and again.seat["color"] != trainer.seat["color"], again.seat
        assert again.ask("name", name="A" + "b" * 30, color=[])["name"] == "A" + "b" * 20 + " 2"
        assert again.ask("name", name="Tina 2", color=7)["color"] == again.seat["color"]
        for shares in ({}, {"loss": 2}, {"loss": "1"}, {"loss": True}, {"loss": 0.1, "repeat": -1}, {"delay": 0.1}):
            assert trainer.status("channel", **shares) == 400, shares
        assert trainer.ask("channel", reorder=0.3)["channel"] == {"loss": 0, "repeat": 0, "reorder": 0.3}
        assert trainer.status("kill", who=63) == trainer.status("kill", who="0") == trainer.status("start", who=9) == 400
        assert trainer.status("replay", n=-1) == trainer.status("replay", n=0, speed=3) == 400


def test_what_is_the_trainers_is_refused_to_others():
    with Served() as served:
        client = served.client(name="Ana", trainer="a guess")
        assert not client.seat["trainer"]
        for command, body in (("channel", {"loss": 0.1}), ("kill", {"who": 0}), ("reset", {}), ("replay", {"n": 0}), ("start", {"who": 1})):
            assert client.status(command, **body) == 403, command
        trainer = served.client(trainer=TRAINER)
        assert trainer.seat["trainer"] and trainer.status("kill", who=0) == 200
        assert client.status("point", **POINT) == 409 and client.status("start") == 200
        assert client.status("start") == 409 and client.status("point", **POINT) == 200


def test_seats_have_limits_and_more_windows_watch():
    with Served(more=("--each", "3")) as served:
        clients = [served.client() for _ in range(6)]
        assert [each.seat["who"] for each in clients] == [0, 1, 2, None, None, None]
        assert clients[3].until("scene")["roots"] and clients[3].status("point", **POINT) == 409
        assert served.client().seat["kind"] == "refused"
        # Whoever leaves frees the seat, and a token gives it back to its own window alone.
        clients[0].close()
        while any(person["id"] == clients[0].seat["id"] for person in clients[1].until("people")["people"]):
            pass
        assert served.client(token=clients[1].seat["token"]).seat["who"] == 1
        assert served.client(token=clients[0].seat["token"]).seat["who"] == 0


def test_a_room_has_64_seats():
    with Served(more=("--each", "80")) as served:
        clients = [served.client() for _ in range(66)]
        assert [each.seat["who"] for each in clients] == [*range(64), None, None]


def test_a_seat_is_kept_for_a_window_whose_connection_broke():
    with Served() as served:
        client = served.client(name="Ana")
        client.socket.close()
        time.sleep(0.5)
        again = served.client(token=client.seat["token"])
        assert (again.seat["who"], again.seat["name"]) == (0, "Ana") and again.until("scene")["n"] > 5
        assert again.status("point", **POINT) == 200


def test_a_password_is_asked_for():
    with Served(more=("--password", "open sesame")) as served:
        told = lambda **given: (lambda seat: (seat["kind"], seat.get("status")))(served.client(**given).seat)
        assert told() == ("refused", 401) and told(password="open sesame") == ("you", None)
        assert {told(password=f"guess {k}") for k in range(10)} == {("refused", 401)}
        assert told(password="open sesame") == ("refused", 429)


def test_offers_and_commands_have_a_pace():
    with Served() as served:
        client = served.client()
        answers = [client.status("point", **POINT) for _ in range(300)]
        assert set(answers) == {200, 429} and answers.count(200) < 150, answers.count(200)
        assert {client.status("hand", up=False) for _ in range(60)} == {200, 429}


def test_rooms_have_names_and_worlds_of_their_own():
    with Served(more=("--each", "64", str(PANEL))) as served:
        status, index = served.ask("GET", "/")
        # Rooms stand in the order of the words.
        assert status == 200 and index.index(b'href="panel/"') < index.index(b'href="door/"')
        served.room = "door"
        door, panel = served.client(), None
        served.room = "panel"
        panel = served.client()
        assert (door.seat["who"], panel.seat["who"]) == (0, 0)
        labels = [{node["label"] for node in each.until("scene")["nodes"]} for each in (door, panel)]
        assert "Door" in labels[0] and "Door" not in labels[1], labels


def test_it_is_reached_by_the_machines_name_and_by_ipv6():
    with Served(more=("--address", "0.0.0.0", "--name", "room.example")) as served:
        assert served.address.startswith(f"http://room.example:{served.port}/")
        assert served.get("/door/", Host="room.example") == served.get("/door/", Host=socket.gethostname()) == 200
        assert served.get("/door/", Host="other.example") == 403
        # Who is at an address of this machine alone is told the one for others, as a link and as a QR code.
        assert served.client().seat["place"] == served.address
        codes = {served.ask("GET", "/door/link.svg", Host=f"{host}:{served.port}") for host in ("room.example", "127.0.0.1", "[::1]")}
        assert len(codes) == 1, codes
    with Served(more=("--address", "::1")) as served:
        assert served.address == f"http://[::1]:{served.port}/door/", served.address
        with socket.create_connection(("::1", served.port), timeout=20) as link:
            link.sendall(b"GET /door/ HTTP/1.1\r\nHost: [::1]\r\n\r\n")
            assert link.recv(100).startswith(b"HTTP/1.1 200 ")


def test_a_proxy_says_where_a_client_is():
    with Served(more=("--proxy", "--each", "1")) as served:
        ones = [Client(served, [f"X-Forwarded-For: 10.0.0.{k}"]).seat["who"] for k in (1, 2, 2)]
        assert ones == [0, 1, None], ones


def test_a_changed_file_is_a_new_run_and_a_faulty_one_is_said():
    with scene_file(scene()) as file, Served(file) as served:
        client = served.client(name="Ana")
        assert client.until("scene")["n"] >= 0
        file.write_text(scene().replace("DEF Lamp PointLight", "DEF Lamp Teapot"))
        while not (fault := client.until("fault")["fault"]):
            pass
        line = 1 + scene()[: scene().index("DEF Lamp PointLight")].count("\n")
        assert (fault["file"], fault["line"]) == ("scene.x3dv", line), fault
        assert fault["what"] == 'node type "Teapot" isn\'t read' and fault["text"].startswith("DEF Lamp Teapot"), fault
        file.write_text(scene().replace("0.2 0.45 0.7", "0.9 0.1 0.1"))
        assert client.until("run")["run"] == 2 and client.until("fault")["fault"] is None
        nodes = client.until("scene")["nodes"]
        assert any(node["fields"].get("diffuseColor") == "0.9 0.1 0.1" for node in nodes)
        assert client.status("point", **POINT) == 200


def has_started(told):
    """Whether a scene has a motor that was started."""
    nodes = told.get("nodes", [])
    return any(node["label"] == "Motor" and node["fields"]["startTime"] != "0" for node in nodes)


def test_a_restarted_server_goes_on():
    with scene_file(scene(), "door.x3dv") as file:
        more = ("--each", "8", "--keep", str(file.parent / "kept"))
        with Served(file, more=more) as served:
            client = served.client(name="Ana")
            for down in (False, True, False):
                assert client.status("point", down=down, aim=AT_BUTTON) == 200
            said = "pressed the door's button"
            # It may be logged before the last point is answered.
            while not any(each["text"] == said for event in client.events for each in event.get("log", ())):
                client.until("log")
            while client.until("status")["numbered"] < 60:
                pass
            mine = {"X-Room-Token": client.seat["token"]}
            stored, job = served.ask("GET", "/door/x3dlog", **mine), served.ask("GET", "/door/job", **mine)
            assert stored[0] == 200 and Writer(read_log(stored[1])[1]).whole(wire.mark_of(scene().encode())) == stored[1], stored[0]
            assert job[0] == 200 and b"\nscene\n#X3D" in job[1] and b"point 0 1 -1 1.2 5 0 0 -1\n" in job[1], job[0]
        with Served(file, more=more) as served:
            client = served.client()
            log = client.until("log")["log"]
            assert [(each["name"], each["text"]) for each in log] == [("Ana", said)], log
            # A new viewer has the press too: in the scene that it is sent first, or in what comes then.
            while not any("Motor.startTime" in told.get("trace", "") or has_started(told) for told in client.events):
                client.until("scene", "news")
        with Served(None, more=("--replay", str(file.parent / "kept/door"))) as served:
            client = served.client()
            assert client.seat["who"] is None and client.until("log")["log"][0]["text"] == said
            whole = client.until("replay")["of"]
            assert whole > 30 and client.ask("replay", n=whole)["n"] == whole
            assert client.status("point", **POINT) == 409
        # The list is a log, which has its scene beside it; so has the one that was downloaded.
        file.with_name("run.x3dlog").write_bytes(stored[1])
        file.with_name("run.job").write_bytes(job[1])
        runs = (file.parent / "kept/door/inputs.x3dlog", whole), (file.with_name("run.x3dlog"), 30), (file.with_name("run.job"), 30)
        for run, least in runs:
            with Served(None, more=("--replay", str(run))) as served:
                client = served.client()
                assert client.until("log")["log"][0]["text"] == said and client.until("replay")["of"] >= least
