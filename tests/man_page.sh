#!/usr/bin/env bash
# Prints the man page of a program, made of what its own help says: tests/man_page.sh hfs_tool > docs/hfs_tool.1, and
# tests/man_page.sh hfs_collect > docs/hfs_collect.1. Its lists of words, arguments and options are filled anew for the reader's width; all else is
# as its lines are in the help, which have at most 72 columns.
. "$(dirname "$0")/common.sh"
exec python3 - "$1" "$(program "$1")" << 'END'
import subprocess
import sys

NAME, TOOL = sys.argv[1:]
DOES = {
    'hfs_tool': 'reads, checks, repairs and makes HFS volumes, the disks of old Macintosh computers',
    'hfs_collect': 'collects HFS images of Macintosh disks in one database, and compares them with it',
}
OTHER = {'hfs_tool': 'hfs_collect', 'hfs_collect': 'hfs_tool'}
LISTS = ('Commands:', 'Arguments:', 'Options:')
WIDTH = 72


def escaped(line):
    line = line.replace('\\', '\\e').replace('-', '\\-')
    return '\\&' + line if line[:1] in ('.', "'") else line


def help_of(*words):
    """The blocks of a help between empty lines: its first line, its usage, its lists by their heads, and what stands behind them."""
    printed = subprocess.run([TOOL, *words, '--help'], capture_output=True, text=True, check=True).stdout
    about, usage, *blocks = [it.split('\n') for it in printed.strip('\n').split('\n\n')]
    lists = {it[0]: it[1:] for it in blocks if it[0] in LISTS}
    behind = [it for it in blocks if it[0] not in LISTS]
    for line in (it for block in behind for it in block):
        if len(line) > WIDTH:
            sys.exit(f'man_page: more than {WIDTH} columns: {line}')
    return about[0], usage[0].removeprefix('Usage: '), lists, behind


def entries(lines):
    """A list: what is typed, and below it what it is."""
    for line in lines:
        typed, _, text = line.strip().partition('  ')
        if typed.startswith('-h, --help'):
            text = 'Print help'
        print(f'.TP\n.B {escaped(typed)}\n{escaped(text.strip())}')


def as_it_stands(lines):
    print('.nf', *map(escaped, lines), '.fi', sep='\n')


def sections(about, usage, lists, behind):
    print(f'.SH SYNOPSIS\n.B {escaped(usage)}\n.SH DESCRIPTION\n{escaped(about)}.')
    if 'Commands:' in lists:
        words = [it for it in lists['Commands:'] if it.split()[0] != 'help']
        print('.SH COMMANDS')
        entries(words)
        for word in words:
            command(word.split()[0])
    for head in ('Arguments:', 'Options:'):
        if head in lists:
            print(f'.SH {head[:-1].upper()}')
            entries(lists[head])
    titled = {'Exit statuses:': 'EXIT STATUS', 'Examples:': 'EXAMPLES'}
    for head, title in titled.items():
        print(f'.SH {title}')
        as_it_stands(next(it[1:] for it in behind if it[0] == head))
    print('.SH NOTES')
    for block in (it for it in behind if it[0] not in titled):
        print('.PP')
        as_it_stands(block)


def command(word):
    about, usage, lists, behind = help_of(word)
    print(f'.SS {NAME} {word}\n{escaped(about)}.\n.PP\n.B {escaped(usage)}')
    for head in ('Arguments:', 'Options:'):
        entries(lists.get(head, ()))
    for block in behind:
        print('.PP')
        as_it_stands(block)


print(f'''.\\" Made by tests/man_page.sh of the program's own help; don't edit.
.TH {NAME.upper()} 1
.nh
.ad l
.SH NAME
{NAME} \\- {DOES[NAME]}''')
sections(*help_of())
print(f'''.SH "SEE ALSO"
.BR {OTHER[NAME]} (1)
.PP
The documents that are named here lie in /usr/share/doc/hfs\\-tool, where the package is installed.''')
END
