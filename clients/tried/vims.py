"""vim's command-t, which lists the files of a directory by Watchman."""

from tried.room import Outcome, Room, outcome

SCRIPT = """
set runtimepath^=/usr/lib/vim-command-t
ruby $LOAD_PATH.unshift('/usr/lib/vim-command-t/ruby/command-t/ext', '/usr/lib/vim-command-t/ruby/command-t/lib')
ruby require 'command-t'
ruby require 'command-t/ext'
ruby $scanner = CommandT::Scanner::FileScanner::WatchmanFileScanner.new('{path}')
ruby File.write('{found}', $scanner.paths.sort.join("\\n") + "\\n")
ruby File.write('{path}/new.c', 'x')
ruby $scanner.flush
ruby File.write('{found}', $scanner.paths.sort.join("\\n") + "\\n", mode: 'a')
qall!
"""


def try_command_t(room: Room) -> Outcome:
    """The files that its scanner gives within vim, at first and after a new one."""
    (room.project / ".git").mkdir()
    room.put("sub/a.c")
    room.put("sub/deep/b.c")
    room.put("c.c")
    found = room.path / "found"
    script = room.path / "script.vim"
    script.write_text(SCRIPT.format(path=room.project / "sub", found=found))
    said = room.run(["vim", "-e", "-s", "-N", "-u", "NONE", "-S", str(script)])
    lines = found.read_text().splitlines() if found.exists() else (said.stdout + said.stderr).splitlines()
    watched = room.watchman("watch-list")["roots"]
    return outcome(
        "its scanner in vim lists the files, and a new one",
        [lines, watched],
        [["a.c", "deep/b.c", "a.c", "deep/b.c", "new.c"], [str(room.project)]],
    )
