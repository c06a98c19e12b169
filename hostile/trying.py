"""What the scripts of this folder share: the worked scripts, and running the program with its time and memory."""
import pathlib
import subprocess
import sys
import tempfile

TOP = pathlib.Path(__file__).resolve().parent.parent

USERS = b'''version = 1
[[tables]]
name = "user"
key = ["id"]
columns = [{ name = "id", type = "int" }, { name = "name", type = "text", nullable = true }]
'''

POSTS = USERS + b'''array = [{ name = "posts", table = "post", from = ["id"], to = ["author_id"] }]
select = [{ role = "reader", columns = ["id", "name"], filter = '{}' }]
[[tables]]
name = "post"
key = ["id"]
columns = [{ name = "id", type = "int" }, { name = "author_id", type = "int", nullable = true }, { name = "title", type = "text" }, { name = "note", type = "text", nullable = true }]
object = [{ name = "author", table = "user", from = ["author_id"], to = ["id"] }]
select = [{ role = "reader", columns = ["id", "author_id", "title"], filter = '{"author_id":{"_eq":"X-Hasura-User-Id"}}' }]
'''

INIT = b'open 1\nrecv 1 {"type":"connection_init"}\n'

ACKNOWLEDGED = b'open 1\nrecv 1\n> 1 {"type":"connection_ack"}\n'


def program():
    """The program: the one that is named on the command line, or the repository's own, which has to be built."""
    path = pathlib.Path(sys.argv[1]) if len(sys.argv) > 1 else TOP / 'crates/subs_cli/out/subs_cli'
    if not path.exists():
        sys.exit('%s is missing: build it by ./subs, or name it' % path)
    return [str(path.resolve())]


def run(command, script, env=None):
    """Status and output of a run over a script."""
    with tempfile.TemporaryFile() as given:
        given.write(script)
        given.seek(0)
        done = subprocess.run([*command, 'run'], stdin=given, stdout=subprocess.PIPE, env=env)
        return done.returncode, done.stdout


def measured(command, script):
    """Status, output, seconds and the most memory in KiB of a run over a script, by the program `time`."""
    with tempfile.NamedTemporaryFile('r') as used:
        status, written = run(['/usr/bin/time', '-q', '-f', '%e %M', '-o', used.name, *command], script)
        seconds, memory = used.read().split()
        return status, written, float(seconds), int(memory)
