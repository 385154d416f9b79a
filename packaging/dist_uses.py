"""What scripts/test_dist compiles and runs over the installed packages."""

DEVELOPMENT = "gcc libc6-dev make pkg-config cmake man-db bash-completion zsh python3-venv"
DOOR = "/usr/share/doc/libx3d-dev/examples/door.c"
C_BY_PKG_CONFIG = f"mkdir /c && cc -Wall -Werror {DOOR} $(pkg-config --cflags --libs x3d) -o /c/door && /c/door"
C_BY_CMAKE = f"""cp {DOOR} /c && cat > /c/CMakeLists.txt
cmake -S /c -B /c/out > /dev/null && cmake --build /c/out > /dev/null && /c/out/shared && /c/out/static"""
C_BY_ARCHIVE = f"""mkdir /t && tar xzf /dist/libx3d-*.tar.gz -C /t --strip-components=1 || exit 1
export PKG_CONFIG_PATH=/t/lib/pkgconfig
cc {DOOR} $(pkg-config --cflags --libs x3d) -Wl,-rpath,/t/lib -o /t/door && /t/door && ldd /t/door"""
CARGO = "cd /r && rm -rf target && export PATH=/rust/bin:$PATH && cargo run -q --offline"
CMAKE = b"""cmake_minimum_required(VERSION 3.16)
project(door C)
find_package(x3d 0.2 REQUIRED)
add_executable(shared door.c)
target_link_libraries(shared x3d::x3d)
add_executable(static door.c)
target_link_libraries(static x3d::x3d_static)
"""
SCENE = "#X3D V3.0 utf8\\nDEF Knob TouchSensor {}\\nShape { geometry Box {} }\\n"
PYTHON = f"""import x3d
with x3d.World("{SCENE}") as world:
    world.point(1, 1, 0, True, x3d.Aim((0, 0, 10_000_000), (0, 0, -1_000_000)))
    print(x3d.version(), world.trace())
fault = x3d.Fault(200)
assert (fault.name, fault.text) == ("Status200", "unknown status")
assert x3d.Fault(10).text == "the handle holds nothing"
print(*{{line.split()[-1] for line in open("/proc/self/maps") if "libx3d" in line}})
""".encode()
MAIN_RS = f"""fn main() -> Result<(), Box<dyn std::error::Error>> {{
    assert!(x3d::is_compatible());
    let mut world = x3d::World::open(b"{SCENE}")?;
    world.point(1, 1, 0, true, &x3d::Aim::new([0, 0, 10_000_000], [0, 0, -1_000_000]))?;
    println!("{{}} {{}}", x3d::version(), world.trace(0)?);
    Ok(())
}}
""".encode()
MANIFEST = b"""[package]
name = "r"
edition = "2024"
[dependencies]
x3d = { path = "x3d" }
"""
# Types words and the key Tab in a zsh, and then a key that writes what stands there to a file.
ZSH = b"""export TERM=vt100
zmodload zsh/zpty
zpty try zsh -f -i
zpty -w try 'autoload -U compinit; compinit -u; show() { print -r -- "$BUFFER" > /typed; }; zle -N show; bindkey ^X show'
zpty -w try 'print read"y"'
zpty -r try line '*ready*'
zpty -n -w try $'x3d_share view --exa\t\x18'
repeat 600; do [[ -s /typed ]] && break; sleep 0.1; done
cat /typed
"""
ROOM = b"""import asyncio, sys
import aiohttp

base = f"http://127.0.0.1:{sys.argv[1]}"

async def look():
    async with aiohttp.ClientSession(connector=aiohttp.TCPConnector(force_close=True)) as session:
        async with session.get(base) as page:
            room = str(page.url)
            assert "main.js" in await page.text()
        for name, least in ("main.js", 500), ("three.js", 100000):
            async with session.get(f"{base}/static/{name}") as file:
                assert len(await file.read()) > least, name
        async with session.ws_connect(room + "socket") as window:
            await window.send_json({"do": "enter", "name": "Ana"})
            kinds = [(await window.receive_json(timeout=20))["kind"] for _ in range(20)]
    assert "scene" in kinds and "news" in kinds, kinds

asyncio.run(look())
print("page main.js three.js scene goes on")
"""
