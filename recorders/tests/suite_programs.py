"""Programs that record by the modules for Node and Python: what recorders/suites runs them with."""

MOST = 1048576

# The client of each suite inserts `!` at the end of a line of 14 characters, one of which takes two
# units of UTF-16.
EXPLAINED = """no 702 snapshot 2 event 7
snapshot differs
event 7 snapshot 2
uri "file:///greeting.txt"
held 2 event 6 editor 4
version 2
encoding utf-16
at 0 14
by-messages "good 😀 mornin!g\\n"
in-editor "good 😀 morning!\\n"
codes U+0021 U+0067
snapshot event 7 snapshot 2
equal 1 event 5 snapshot 1
suspects 1
suspect 2 event 6 editor 4
fits utf-32
usually editor
so "The editor seems to count columns in utf-32; utf-16 was agreed."
"""

# `cat` gives back what it is given: bytes for more than two records.
SIZE = 2 * MOST + 3

NODE_ECHO = f"""
const {{ spawn }} = require("child_process");
const {{ record }} = require(process.argv[1]);
const child = spawn("cat");
record(child, process.argv[2]);
child.stdout.on("data", () => {{}});
child.stdin.write("x".repeat({SIZE}));
child.stdin.end("é");
"""

PYTHON_ECHO = f"""
import subprocess, sys, threading
sys.path.insert(0, sys.argv[1])
from lspcheck_recorder import record
child = subprocess.Popen(["cat"], stdin=subprocess.PIPE, stdout=subprocess.PIPE)
record(child, sys.argv[2])
def write():
    child.stdin.write(b"x" * {SIZE})
    child.stdin.write("é".encode())
    child.stdin.close()
threading.Thread(target=write).start()
while child.stdout.read(100000):
    pass
child.wait()
"""

# Two logs of one process in the first half of a second, and twice two of one name. The server is
# killed, and a session of nothing is asserted to be clean.
NODE_NAMES = """
const { spawn } = require("child_process");
const { record, assertClean } = require(process.argv[1]);
const [folder, named] = process.argv.slice(2);
const child = spawn("cat");
while (Date.now() % 1000 > 500);
const logs = [folder, folder, named, named].map((path) => record(child, path));
child.once("close", () => {
  for (const log of [logs[1], named]) {
    assertClean(log);
    try {
      assertClean(log, { compared: true });
    } catch (error) {
      console.log(error.message);
    }
  }
});
child.kill("SIGKILL");
"""

PYTHON_NAMES = """
import subprocess, sys, time
sys.path.insert(0, sys.argv[1])
from lspcheck_recorder import assert_clean, record
folder, named = sys.argv[2:]
child = subprocess.Popen(["cat"], stdin=subprocess.PIPE, stdout=subprocess.PIPE)
while time.time() % 1 > 0.5:
    pass
logs = [record(child, path) for path in (folder, folder, named, named)]
child.kill()
child.wait()
for log in (logs[1], named):
    assert_clean(log)
    try:
        assert_clean(log, compared=True)
    except AssertionError as error:
        print(error)
"""


# Where logs go, and what they are called: a line with the path of each. Last, a record is written
# to a log that was deleted.
NODE_PATHS = """
const fs = require("fs");
const { spawn } = require("child_process");
const { record } = require(process.argv[1]);
const [deleted, ...commands] = JSON.parse(process.argv[2]);
for (const [path, ...words] of commands) {
  const child = spawn(words[0], words.slice(1));
  console.log(record(child, path).path);
  child.kill();
}
const child = spawn("cat");
const log = record(child, deleted);
fs.unlinkSync(deleted);
child.stdin.end("x");
"""

PYTHON_PATHS = """
import json, os, subprocess, sys
sys.path.insert(0, sys.argv[1])
from lspcheck_recorder import record
deleted, *commands = json.loads(sys.argv[2])
for path, *words in commands:
    child = subprocess.Popen(words, stdin=subprocess.PIPE, stdout=subprocess.PIPE)
    print(record(child, path).path)
    child.kill()
    child.wait()
child = subprocess.Popen(["cat"], stdin=subprocess.PIPE, stdout=subprocess.PIPE)
log = record(child, deleted)
os.unlink(deleted)
child.stdin.write(b"x")
child.stdin.close()
child.wait()
"""

# What each folder for a log is answered, and a log in it that has become a link.
NODE_FOLDERS = """
const fs = require("fs");
const { spawn } = require("child_process");
const { record } = require(process.argv[1]);
const [linked, ...folders] = JSON.parse(process.argv[2]);
const child = spawn("cat");
for (const folder of folders) {
  try {
    record(child, folder);
    console.log("recorded");
  } catch (error) {
    console.log(error.message);
  }
}
const log = record(child, linked);
fs.unlinkSync(log.path);
fs.symlinkSync("elsewhere", log.path);
try {
  log.snapshot("file:///a", 1, "x");
} catch (error) {
  console.log(error.code);
}
child.kill();
"""

PYTHON_FOLDERS = """
import errno, json, os, subprocess, sys
sys.path.insert(0, sys.argv[1])
from lspcheck_recorder import record
linked, *folders = json.loads(sys.argv[2])
child = subprocess.Popen(["cat"], stdin=subprocess.PIPE, stdout=subprocess.PIPE)
for folder in folders:
    try:
        record(child, folder)
        print("recorded")
    except OSError as error:
        print(error)
log = record(child, linked)
os.unlink(log.path)
os.symlink("elsewhere", log.path)
try:
    log.snapshot("file:///a", 1, "x")
except OSError as error:
    print(errno.errorcode[error.errno])
child.kill()
"""

# What an assertion that texts were compared says about each log, or "clean".
NODE_ASSERTS = """
const { assertClean, isInstalled } = require(process.argv[1]);
console.log(isInstalled());
for (const path of JSON.parse(process.argv[2])) {
  try {
    assertClean(path, "--ignore-line-ends", { compared: true });
    console.log("clean");
  } catch (error) {
    console.log(error.message);
  }
}
"""

PYTHON_ASSERTS = """
import json, sys
sys.path.insert(0, sys.argv[1])
from lspcheck_recorder import assert_clean, is_installed
print(str(is_installed()).lower())
for path in json.loads(sys.argv[2]):
    try:
        assert_clean(path, "--ignore-line-ends", compared=True)
        print("clean")
    except (AssertionError, FileNotFoundError) as error:
        print(error)
"""

NODE_VERSION = 'console.log(require(process.argv[1]).version)'
PYTHON_VERSION = """
import sys
sys.path.insert(0, sys.argv[1])
import lspcheck_recorder
print(lspcheck_recorder.__version__)
"""
