"""The page of `wq --help`."""

USAGE = """\
usage: wq COMMAND [OPTION]... [WORD]...
       wq COMMAND --help
       wq --help | --version

Files:
  find [DIR|GLOB]...                print the names that match, one a line
  since [-n NAME] [DIR|GLOB]...     print what changed since this was last
                                    asked: + came, - went, ~ changed

Commands on change:
  run [DIR|GLOB]... -- COMMAND...   run a command now and after each change
  follow [DIR|GLOB]...              print changes as they come
  wait [DIR|GLOB]...                wait for the first change, and print it
  trigger NAME [DIR|GLOB]... -- COMMAND...
                                    have the server run a command on changes
  triggers [DIR]                    print the triggers of a root
  untrigger NAME [DIR]              remove a trigger

Server:
  status                            print what the server does and costs
  watch, unwatch [DIR]...           watch directories, or stop watching them
  roots                             print the directories that are watched
  start, stop, restart              a command that needs a server starts one
  log [-f]                          print what the server said
  sockname [--start]                print the path of its socket
  doctor [DIR]                      say whether wqd is right for a directory
  ask LINE...                       send lines of the protocol as they are
  explain EXPRESSION                say what an expression means and costs

A word that is a directory is a DIR, in any place; without one it is the
current directory. The root that is watched is the nearest directory at or
above it with .git, .hg or .watchmanconfig, else DIR. A GLOB without a slash
is for the last part of a name, as '*.c'; one with a slash is for the whole
name below DIR, as 'src/**/*.c'. What git ignores is left out, and outside of
git node_modules and target; .git and .hg always. -u lists everything.

Exit status: 0, or 1 if nothing is found; 2 for wrong options or words, 3 for
an error, 123 if a command of -x failed, 130 if you stop it.

Environment:
  WQD_SOCK                          the socket; `wq sockname` prints its path
  WQD                               the program of a server that wq starts
  XDG_RUNTIME_DIR, TMPDIR           the directory of the socket without WQD_SOCK
  XDG_STATE_HOME, XDG_CACHE_HOME    where notes and logs, and programs, are kept
  NO_COLOR, CLICOLOR_FORCE          no colours; or colours in a pipe too

`wq COMMAND --help` has the statuses of a command, and examples:

  wq find '*.c' '*.h'               the sources below here
  wq since                          what changed here since the last call
  wq run '*.c' -- make              builds now and after each change
"""
