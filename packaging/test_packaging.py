"""What an operator installs: man page, help, completion and documents name the same options, the version names the toolchain,
dashboard and alert rules name metrics that are served, and the snippets of docs/CLIENTS.md run. The Debian package is made alike
twice, can be installed, serves, and is removed with all that it did; the OCI archive serves once it is unpacked.

What needs dpkg-deb, root or a machine on which no mcd is installed is skipped if that is missing.
"""
import contextlib
import hashlib
import json
import os
import pathlib
import re
import select
import shutil
import subprocess
import tempfile
import urllib.request

import pytest

from tools import served
from tools.served import LISTENING, Line, Server, mcd, running

# A copy of the repository with an edit takes its place where the tests are seen to fail.
TOP = served.TOP

fails_with = pytest.mark.fails_with

# The documents for operators, which the package installs.
PAGES = ("OPERATING", "PROTOCOL", "SECURITY", "SCALING", "CLIENTS")

# Options of memcached and of other programs that the documents name too.
MEMCACHEDS = {"daemon", "user", "pidfile", "udp-port", "items"}

# What the package installs, among others.
INSTALLED = ["/usr/bin/mcd", "/etc/default/mcd", "/usr/lib/systemd/system/mcd.service"]


def output_of(words):
    return subprocess.run(words, stdin=subprocess.DEVNULL, capture_output=True, text=True, check=True, timeout=120).stdout


def needs(program):
    if not shutil.which(program):
        pytest.skip(f"no {program} here")


def options_of(text, pattern):
    return sorted(set(re.findall(pattern, text, re.M)))


def options_of_the_help():
    return options_of(output_of(mcd("--help")), r"^\s+(?:-\w, )?--([a-z-]+)")


@fails_with(("packaging/mcd.1", r"\.It Fl -drain\b", ".It Fl -drains"), ("packaging/mcd.1", r"\.It Fl -plan\n", ""))
def test_the_man_page_has_the_options():
    assert options_of((TOP / "packaging/mcd.1").read_text(), r"^\.It Fl -([a-z-]+)") == options_of_the_help()


def letters_of_the_help():
    return dict(re.findall(r"^\s+-(\w), --([a-z-]+)", output_of(mcd("--help")), re.M))


@fails_with(("packaging/mcd.1", r", Fl p Ar number", ", Fl q Ar number"), ("packaging/mcd.1", r" , Fl m Ar \w+", ""))
def test_the_man_page_has_the_letters():
    letters = letters_of_the_help()
    assert letters.pop("h") == "help"
    assert {letter: name for name, letter in re.findall(r"^\.It Fl -([a-z-]+)(?: Ar \w+)? , Fl (\w)", (TOP / "packaging/mcd.1").read_text(), re.M)} == letters


@fails_with(("packaging/mcd.1", r"\.Sh SIGNALS\n", ".Sh OTHERS\n"), ("packaging/mcd.1", r"\.El\n", ""))
def test_mandoc_finds_nothing():
    needs("mandoc")
    ran = subprocess.run(["mandoc", "-T", "lint", TOP / "packaging/mcd.1"], capture_output=True, text=True, timeout=60)
    # Whether the machine has the page of memcached is no matter of this one.
    assert [line for line in ran.stdout.splitlines() if "mcd.1" in line] == []
    text = (TOP / "packaging/mcd.1").read_text()
    assert [name for name in ("EXAMPLES", "SIGNALS", "ENVIRONMENT", "EXIT STATUS", "FILES") if f".Sh {name}\n" not in text] == []


@fails_with(
    ("docs/OPERATING.md", r"`--metrics", "`--metric"),
    ("docs/SECURITY.md", r"\Z", "\n`--none`\n"),
    ("docs/OPERATING.md", r"`--window", "`window"),
    ("docs/OPERATING.md", r"`-c`", "`-d`"))
def test_the_documents_name_options_that_are_there():
    """And docs/OPERATING.md each that is there, letters among them."""
    options, text = options_of_the_help(), (TOP / "docs/OPERATING.md").read_text()
    for page in PAGES:
        named = set(re.findall(r"`--([a-z]+(?:-[a-z]+)*)", (TOP / f"docs/{page}.md").read_text()))
        assert sorted(named - set(options) - MEMCACHEDS) == [], page
    assert [name for name in options if f"`--{name}" not in text and name not in ("help", "version")] == []
    assert [letter for letter in letters_of_the_help() if f"`-{letter}" not in text and letter != "h"] == []


def served_names():
    """The names of the metrics that a server serves, and the labels of each."""
    with Server("--metrics", "0") as server:
        port = re.search(r"metrics 127\.0\.0\.1:(\d+)", " ".join(server.before))[1]
        text = urllib.request.urlopen(f"http://127.0.0.1:{port}/metrics", timeout=30).read().decode()
    return set(re.findall(r"^([a-z_]+)[ {]", text, re.M))


def named_in(text):
    """The names of metrics in the expressions of a dashboard or of rules."""
    return set(re.findall(r"\b(?:memcached|mcd|process)_[a-z_]+\b", text))


# The metrics that the dashboard leaves out, since they don't change or others show the same.
NOT_SHOWN = ["mcd_shard_bytes", "mcd_shard_out_of_memory_total", "mcd_shards", "memcached_version", "process_start_time_seconds"]


@fails_with(
    ("packaging/mcd-dashboard.json", r"memcached_current_items\b", "memcached_items_current"),
    ("packaging/mcd-dashboard.json", r"rate\(memcached_connections_total", "rate((memcached_connections_total"))
def test_the_dashboard_shows_what_is_served():
    board = json.loads((TOP / "packaging/mcd-dashboard.json").read_text())
    expressions = [target["expr"] for panel in board["panels"] for target in panel["targets"]]
    assert len(expressions) >= 15
    shown, served = set().union(*map(named_in, expressions)), served_names()
    assert (sorted(shown - served), sorted(served - shown)) == ([], NOT_SHOWN)
    needs("promtool")
    # Each is an expression of Prometheus, once Grafana has put in what it knows.
    rules = [{"record": f"panel:{place}", "expr": it.replace("$__rate_interval", "5m").replace("$", "")} for place, it in enumerate(expressions)]
    with tempfile.NamedTemporaryFile("w", suffix=".yml") as file:
        json.dump({"groups": [{"name": "panels", "rules": rules}]}, file)
        file.flush()
        ran = subprocess.run(["promtool", "check", "rules", file.name], capture_output=True, text=True, timeout=60)
        assert (ran.returncode, ran.stderr) == (0, "")
    print(f"{len(expressions)} expressions")


@fails_with(
    ("packaging/mcd-alerts.yml", r"mcd_accepts_failed_total", "mcd_accept_failed_total"),
    ("packaging/mcd-alerts.yml", r"for: 2m", "for: 20m"),
    ("packaging/mcd-alerts.yml", r"rate\(mcd_accepts_failed_total\[5m\]\)", "rate(mcd_accepts_failed_total)"))
def test_the_alerts_ask_for_what_is_served():
    file = TOP / "packaging/mcd-alerts.yml"
    expressions = "\n".join(line for line in file.read_text().splitlines() if not re.match(r"\s*(summary|description|#)", line))
    assert sorted(named_in(expressions) - served_names()) == []
    needs("promtool")
    ran = subprocess.run(["promtool", "check", "rules", file], capture_output=True, text=True, timeout=60)
    assert (ran.returncode, ran.stderr, "rules found" in ran.stdout) == (0, "", True)
    ran = subprocess.run(["promtool", "test", "rules", TOP / "packaging/mcd-alerts-test.yml"], capture_output=True, text=True, timeout=60)
    assert (ran.returncode, ran.stderr) == (0, "")
    tests = (TOP / "packaging/mcd-alerts-test.yml").read_text()
    rules = re.findall(r"^ +- alert: (\w+)$", file.read_text(), re.M)
    assert [name for name in rules if len(re.findall(rf"alertname: {name}\b", tests)) < 2] == []


# How the snippets of docs/CLIENTS.md are run, and what succeeds if their client is there.
SNIPPETS = {
    "python": (["/usr/bin/python3", "-"], ["/usr/bin/python3", "-c", "import pymemcache"]),
    "php": (["php"], ["php", "-r", "new Memcached();"]),
}


@fails_with(("docs/CLIENTS.md", r"```ruby", "```rb"))
def test_there_are_snippets_in_six_languages():
    text = (TOP / "docs/CLIENTS.md").read_text()
    assert sorted(set(re.findall(r"^```(\w+)\n", text, re.M)) & {"python", "php", "ruby", "js", "go", "java"}) == ["go", "java", "js", "php", "python", "ruby"]


def snippet_runs(language):
    run, probe = SNIPPETS[language]
    needs(run[0])
    if subprocess.run(probe, capture_output=True, timeout=60).returncode:
        pytest.skip(f"no client for {language} here")
    (snippet,) = re.findall(rf"^```{language}\n(.*?)^```", (TOP / "docs/CLIENTS.md").read_text(), re.M | re.S)
    with Server("--drop-in") as server:
        ran = subprocess.run(run, input=snippet.replace("11211", str(server.port)), capture_output=True, text=True, timeout=60)
        assert (ran.returncode, ran.stdout) == (0, "hi\n")


@fails_with(("docs/CLIENTS.md", r"(```python\n(?:.*\n)*?.*)\bget\(", r"\g<1>gets("))
def test_the_snippet_of_python_runs():
    snippet_runs("python")


@fails_with(("docs/CLIENTS.md", r"(```php\n(?:.*\n)*?.*)->get\(", r"\g<1>->gets("))
def test_the_snippet_of_php_runs():
    snippet_runs("php")


@fails_with(
    ("packaging/mcd.service", r"ProtectHome=", "ProtectHomes="),
    ("packaging/mcd.service", r"(?m)^(Protect|Private|Restrict|System).*\n", ""),
    ("packaging/mcd.service", r"LimitNOFILE=8192", "LimitNOFILE=many"))
def test_the_unit_is_tight():
    """Nothing in it is unknown to systemd, and its exposure is at most 2.0."""
    needs("systemd-analyze")
    with tempfile.TemporaryDirectory() as folder:
        unit = pathlib.Path(folder) / "mcd.service"
        # The program and its documents aren't installed here.
        text = (TOP / "packaging/mcd.service").read_text()
        unit.write_text(re.sub(r"^Documentation=.*\n", "", text, flags=re.M).replace("/usr/bin/mcd", served.MCD))
        ran = subprocess.run(["systemd-analyze", "verify", unit], capture_output=True, text=True, timeout=60)
        assert (ran.returncode, [line for line in ran.stderr.splitlines() if "mcd.service" in line]) == (0, [])
        ran = subprocess.run(["systemd-analyze", "security", "--offline=true", "--threshold=20", unit], capture_output=True, text=True, timeout=60)
        assert (ran.returncode, "Overall exposure level" in ran.stdout) == (0, True)


@fails_with(
    ("packaging/mcd.service", r"After=network-online\.target\n", ""), ("packaging/mcd.service", r"RestartSec=2\n", ""),
    ("packaging/mcd.service", r"TERM,INT,HUP", "TERM"))
def test_the_unit_waits_for_the_network_and_starts_again():
    """After a failure, a while later, but not after a fault of the command line; and a signal ends it in order."""
    lines = (TOP / "packaging/mcd.service").read_text().splitlines()
    wanted = ["Wants=network-online.target", "After=network-online.target", "Restart=on-failure", "RestartSec=2", "RestartPreventExitStatus=2",
              "ExecStart=/usr/bin/env --block-signal=TERM,INT,HUP /usr/bin/mcd $MCD_OPTIONS"]
    assert [line for line in wanted if line not in lines] == []


@fails_with(("packaging/mcd.bash", r" --drain --help", " --help"), ("packaging/mcd.bash", r" --drop-in", " --dropin"))
def test_the_completion_has_the_options():
    asked = 'source packaging/mcd.bash; _mcd mcd "" mcd; printf "%s\\n" "${COMPREPLY[@]}"'
    offered = subprocess.run(["bash", "-c", asked], cwd=TOP, capture_output=True, text=True, check=True).stdout
    assert options_of(offered, r"^--([a-z-]+)$") == options_of_the_help()


def service_options(default):
    """The words by which the service starts the program, of the text of its defaults or of its unit."""
    return re.search(r'^(?:MCD_OPTIONS="|Environment="MCD_OPTIONS=)(.*)"$', default, re.M)[1].split()


@fails_with(("packaging/mcd.default", r"--seats", "--seat"), ("packaging/mcd.service", r" --drop-in\"", '"'))
def test_the_service_calls_the_program_rightly():
    for name in ("mcd.default", "mcd.service"):
        words = service_options((TOP / "packaging" / name).read_text())
        unknown = [it for it in words if it.startswith("--") and it[2:] not in options_of_the_help()]
        assert (unknown, "--drop-in" in words) == ([], True), name


@fails_with(("README.md", r"(`rattle-kit-\w+ logic )\w+`", r"\g<1>0123456789abcdef`"))
def test_the_version_names_the_toolchain():
    """The logic of its proof, which several kits share: the README's kit and the one that is here need not be the same."""
    version = output_of(mcd("--version"))
    kept = re.search(r"^mcd \d+\.\d+\.\d+ \(Rattle, (logic [0-9a-f]+)\)$", version)
    assert kept is not None
    logic = kept[1]
    assert re.search(rf"`rattle-kit-\w+ {logic}`", (TOP / "README.md").read_text()) is not None
    if shutil.which("rt"):
        assert output_of(["rt", "version"]).strip().endswith(logic)


@fails_with(("README.md", r"start\.py -- --drop-in", "start.py --"), ("README.md", r"\*\*Use `--drop-in`\*\*", "Use it"))
def test_the_first_command_follows_memcacheds_rules():
    """What one reads first serves applications that were written for memcached, and it is said when to leave the option out."""
    text = (TOP / "README.md").read_text()
    first = re.search(r"^```sh\n(.*?)$", text, re.M)[1]
    assert (" --drop-in " in first, re.search(r"^\*\*Use `--drop-in`\*\* .*Without it ", text, re.M) is not None) == (True, True)


@fails_with(("docs/OPERATING.md", r"--stdio --memory 64m\n", "--stdio --memory 64q\n"), ("docs/OPERATING.md", r"mcd --help\n", "mcd --helps\n"))
def test_each_command_of_the_page_runs():
    """The commands in blocks of `sh` of docs/OPERATING.md, one a line; each must end with status 0."""
    blocks = re.findall(r"^```sh\n(.*?)^```", (TOP / "docs/OPERATING.md").read_text(), re.M | re.S)
    commands = [line for block in blocks for line in block.splitlines() if line]
    assert len(commands) > 0
    for command in commands:
        if command.startswith("packaging/") and not shutil.which("dpkg-deb"):
            continue
        ran = subprocess.run(["bash", "-c", command], cwd=TOP, stdin=subprocess.DEVNULL, capture_output=True, timeout=120)
        assert (ran.returncode, ran.stderr) == (0, b""), command


def made(folder):
    """A package, made in this folder."""
    folder.mkdir()
    return pathlib.Path(output_of([TOP / "packaging/deb", folder]).split()[-1])


@pytest.fixture
def packages(tmp_path):
    """Makes a package in a folder of its own."""
    needs("dpkg-deb")
    return lambda name: made(tmp_path / name)


@pytest.fixture
def package(packages):
    return packages("one")


@fails_with(("packaging/deb", r'date -u -R -d "@\$SOURCE_DATE_EPOCH"', "date +%N"))
def test_the_package_is_made_alike_twice(packages):
    first, second = packages("one"), packages("two")
    assert hashlib.sha256(first.read_bytes()).hexdigest() == hashlib.sha256(second.read_bytes()).hexdigest()


@fails_with(("packaging/deb", r"rev-list --count HEAD", "rev-list --count HEAD~1"), ("packaging/deb", r"\$commits\.g", "$commits."))
def test_the_package_has_the_commits_version(package):
    version = output_of(["dpkg-deb", "--field", package, "Version"]).strip()
    commit = output_of(["git", "-C", TOP, "rev-parse", "--short=8", "HEAD"]).strip()
    count = output_of(["git", "-C", TOP, "rev-list", "--count", "HEAD"]).strip()
    assert version == f"{output_of(mcd('--version')).split()[1]}+{count}.g{commit}"


@fails_with(
    ("packaging/deb", r"SCALING CLIENTS; do", "SCALING; do"),
    ("packaging/deb", r" -e 's#crates/mcd/out/mcd#mcd#g'", ""),
    ("packaging/deb", r"mcd-dashboard\.json mcd-alerts\.yml", "mcd-alerts.yml"),
    ("packaging/mcd.default", r"--memory 64m", "--memory 65m"),
    ("docs/OPERATING.md", r"\Z", "\nSee docs/NOTHERE.md.\n"))
def test_the_package_has_all_documents(package):
    """And each page that a page names is beside it."""
    with tempfile.TemporaryDirectory() as folder:
        subprocess.run(["dpkg-deb", "--extract", package, folder], check=True, timeout=60)
        place = pathlib.Path(folder) / "usr/share/doc/mcd"
        for page in PAGES:
            text = (place / f"{page}.md").read_text()
            assert not ("crates/mcd/out" in text), page
            named = set(re.findall(r"\b(?:docs/)?([A-Z]+)\.md", text)) - {"PROOFS", "BENCHMARKS", "REPLAY", "DECISIONS", "ARCHITECTURE", "README"}
            assert sorted(named - set(PAGES)) == [], page
        assert [name for name in ("mcd-dashboard.json", "mcd-alerts.yml") if not (place / "examples" / name).exists()] == []
        assert service_options((pathlib.Path(folder) / "etc/default/mcd").read_text())[2:4] == ["--memory", "64m"]


# Runs dpkg in a copy of the system in which a systemd seems to run, and keeps how it is called.
IN_A_COPY = """
set -eu
mount -t tmpfs none "$1"
mkdir "$1/upper" "$1/work" "$1/root"
mount -t overlay overlay -o "lowerdir=/,upperdir=$1/upper,workdir=$1/work" "$1/root"
mkdir -p "$1/root/run/systemd/system"
cp "$2" "$1/root/srv/mcd.deb"
rm -f "$1/root/usr/sbin/policy-rc.d"
mv "$1/root/usr/bin/systemctl" "$1/root/usr/bin/systemctl.real"
cat > "$1/root/usr/bin/systemctl" <<'END'
#!/bin/sh
echo "$*" >> /srv/calls
case "$*" in
    *preset*) exec /usr/bin/systemctl.real "$@" ;;
    *is-enabled*) exec /usr/bin/systemctl.real --root=/ is-enabled mcd.service ;;
    *show*) echo loaded ;;
esac
END
chmod 755 "$1/root/usr/bin/systemctl"
wants=/etc/systemd/system/multi-user.target.wants/mcd.service
for words in "dpkg -i /srv/mcd.deb" "dpkg -i /srv/mcd.deb" "dpkg --remove mcd" "dpkg -i /srv/mcd.deb" "dpkg --purge mcd"; do
    rm -f "$1/root/srv/calls"; touch "$1/root/srv/calls"
    chroot "$1/root" $words >"$1/said" 2>&1 || { cat "$1/said"; exit 1; }
    enabled=no; [ -L "$1/root$wants" ] && enabled=yes
    echo "$words: enabled $enabled: $(tr '\n' ';' < "$1/root/srv/calls")"
done
find "$1/root/etc" "$1/root/usr/bin" "$1/root/usr/share/doc" "$1/root/var/lib/systemd" -name 'mcd*' | sed "s#^$1/root##"
"""


@fails_with(
    ("packaging/scripts/prerm", r"deb-systemd-invoke stop", "deb-systemd-invoke status"),
    ("packaging/scripts/postinst", r"action=restart", "action=start"),
    ("packaging/scripts/postinst", r"deb-systemd-helper enable", "deb-systemd-helper disable"),
    ("packaging/scripts/postrm", r"deb-systemd-helper purge mcd.service >/dev/null \|\| true", ":"))
def test_the_scripts_enable_restart_stop_and_purge(package):
    """In a copy of the system: installed it is enabled and started, installed again restarted, removed stopped, and purged
    nothing is left."""
    if os.geteuid() != 0:
        pytest.skip("it needs root")
    with tempfile.TemporaryDirectory() as folder:
        probe = ["unshare", "-m", "mount", "-t", "overlay", "overlay", "-o", f"lowerdir=/,upperdir={folder},workdir={folder}", folder]
        if not shutil.which("unshare") or subprocess.run(["unshare", "-m", "true"], capture_output=True, timeout=60).returncode:
            pytest.skip(f"no {probe[0]} here")
        ran = subprocess.run(["unshare", "-m", "bash", "-c", IN_A_COPY, "", folder, package], capture_output=True, text=True, timeout=300)
        if "mount:" in ran.stderr:
            pytest.skip("nothing may be mounted here")
        assert (ran.returncode, ran.stderr) == (0, "")
    lines = ran.stdout.splitlines()
    wanted = [("dpkg -i", "yes", "start"), ("dpkg -i", "yes", "restart"), ("dpkg --remove", None, "stop"), ("dpkg -i", "yes", "restart"),
              ("dpkg --purge", "no", "stop")]
    for line, (words, enabled, action) in zip(lines, wanted):
        assert line.startswith(words) and (enabled is None or f": enabled {enabled}: " in line), line
        assert re.search(rf"\b{action} mcd\.service", line), line
    assert lines[len(wanted):] == []


@contextlib.contextmanager
def unpacked(archive):
    """What starts the image's program, and the folder that it sees as `/`."""
    with tempfile.TemporaryDirectory() as folder:
        layout = pathlib.Path(folder) / "image"
        layout.mkdir()
        subprocess.run(["tar", "-C", layout, "-xf", archive], check=True, timeout=60)
        subprocess.run(["umoci", "unpack", "--image", f"{layout}:mcd", f"{folder}/bundle"], check=True, capture_output=True, timeout=60)
        config = json.loads((pathlib.Path(folder) / "bundle/config.json").read_text())
        yield config["process"], f"{folder}/bundle/rootfs"


@fails_with(
    ("packaging/oci", r"0\.0\.0\.0:11211", "0.0.0.0:11212"),
    ("packaging/oci", r"--config\.user 65532:65532", "--config.user 0:0"),
    ("packaging/oci", r"MALLOC_TRIM_THRESHOLD_=\d+", "MALLOC_TRIM_THRESHOLD_=1"),
    ("packaging/oci", r'install -D -m 755 "\$\(readlink -f "\$library"\)" "\$tree\$library"', ":"))
def test_the_image_serves():
    """Its program starts as the first process of a PID namespace, without privileges, and sees nothing but the image."""
    if not shutil.which("umoci") or os.geteuid() != 0:
        pytest.skip("it needs umoci and root")
    with tempfile.TemporaryDirectory() as folder, unpacked(output_of([TOP / "packaging/oci", folder]).split()[-1]) as (process, root):
        words = process["args"]
        assert words == ["/usr/bin/env", "--block-signal=TERM,INT,HUP", "/usr/bin/mcd", "--listen", "0.0.0.0:11211", "--memory", "64m", "--drop-in"]
        assert (process["user"]["uid"], process["user"]["gid"]) == (65532, 65532)
        for_the_c_library = re.search(r"^Environment=(MALLOC_.*)$", (TOP / "packaging/mcd.service").read_text(), re.M)[1].split()
        assert [it for it in process["env"] if it.startswith("MALLOC_")] == for_the_c_library
        words[words.index("--listen") + 1] = "127.0.0.1:0"
        inside = ["unshare", "--pid", "--fork", "--kill-child", "chroot", "--userspec=65532:65532", root, *words]
        with running(inside, stderr=subprocess.PIPE) as image:
            ready, _, _ = select.select([image.stderr], [], [], 30)
            port = int(LISTENING.fullmatch(image.stderr.readline().decode())[1]) if ready else None
            with Line(port) as line:
                line.ask(b"set a 0 0 2\r\nhi\r\nget a\r\n", b"STORED\r\nVALUE a 0 2\r\nhi\r\nEND\r\n")


@fails_with(("packaging/deb", r"mcd: bogus-mail-host\n", ""), ("packaging/deb", r'echo /etc/default/mcd > "\$tree/DEBIAN/conffiles"', ":"))
def test_lintian_finds_no_error(package):
    needs("lintian")
    ran = subprocess.run(["lintian", "--allow-root", "--fail-on", "error", package], capture_output=True, text=True, timeout=300)
    assert (ran.returncode, [it for it in ran.stdout.splitlines() if it.startswith("E:")]) == (0, [])


def the_installed_program_serves():
    """The program of the package starts by the options of the service, on a port that the system chooses, and follows
    memcached's rules."""
    words = service_options(pathlib.Path("/etc/default/mcd").read_text())
    words[words.index("--listen") + 1] = "127.0.0.1:0"
    with running(["/usr/bin/mcd", *words], stderr=subprocess.PIPE) as process:
        ready, _, _ = select.select([process.stderr], [], [], 30)
        assert bool(ready)
        port = int(LISTENING.fullmatch(process.stderr.readline().decode())[1])
        with Line(port) as line:
            line.ask(b"set a 0 0 2\r\nhi\r\nget a\r\n", b"STORED\r\nVALUE a 0 2\r\nhi\r\nEND\r\n")
            line.ask(b"set a 0 4294967295 2\r\nhi\r\nget a\r\n", b"STORED\r\nEND\r\n")


@fails_with(("packaging/deb", r"usr/lib/systemd/system/mcd\.service", "usr/lib/systemd/mcd.service"), ("packaging/mcd.default", r" --drop-in\"", '"'))
def test_the_package_is_installed_and_removed(package):
    if os.geteuid() != 0 or any(os.path.exists(it) for it in INSTALLED):
        pytest.skip("it needs root, and no mcd that is installed")
    subprocess.run(["dpkg", "-i", package], check=True, capture_output=True, timeout=120)
    try:
        assert [it for it in INSTALLED if not os.path.exists(it)] == []
        the_installed_program_serves()
    finally:
        subprocess.run(["dpkg", "--purge", "mcd"], check=True, capture_output=True, timeout=120)
    assert [it for it in INSTALLED if os.path.exists(it)] == []
