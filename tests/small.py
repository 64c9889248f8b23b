#!/usr/bin/env python3
"""Runs the published Rust's `is_meta_or_small` with a group dimension of 8.

usage: tests/small.py MOD.RS > SMALL.TXT

MOD.RS is the Rust's frame/modular/mod.rs. `is_meta` and `is_meta_or_small` are lifted from it unchanged, put on a
channel that has the two fields they read, and compiled with rustc. One channel to a line, `small W H HS VS => true` or
`false`, with `m m` for a meta channel's shifts: tests/lists.py takes the answers from there.
"""
import pathlib
import subprocess
import sys
import tempfile

from rules import STOPS

SIDES = [0, 1, 7, 8, 9, 16, 300, 65535]
SHIFTS = ['None', 'Some((0, 0))', 'Some((1, 30))']

PROGRAM = '''
struct ChannelInfo {
    size: (usize, usize),
    shift: Option<(usize, usize)>,
}

impl ChannelInfo {
%s
}

fn main() {
    for w in %s {
        for h in %s {
            for shift in [%s] {
                let small = ChannelInfo { size: (w, h), shift }.is_meta_or_small(%d);
                let shifts = shift.map_or("m m".to_string(), |(a, b)| format!("{a} {b}"));
                println!("small {w} {h} {shifts} => {small}");
            }
        }
    }
}
'''


def lifted(source, name):
    """The method's own text: from its head to the brace that closes it."""
    lines = source.split('\n')
    start = next(k for k, text in enumerate(lines) if text.startswith(f'    fn {name}('))
    return '\n'.join(lines[start:lines.index('    }', start) + 1])


if __name__ == '__main__':
    source = open(sys.argv[1]).read()
    methods = '\n\n'.join(lifted(source, name) for name in ('is_meta', 'is_meta_or_small'))
    with tempfile.TemporaryDirectory() as place:
        program = pathlib.Path(place, 'small')
        text = PROGRAM % (methods, SIDES, SIDES, ', '.join(SHIFTS), STOPS[1])
        subprocess.run(['rustc', '--edition', '2021', '-o', program, '-'], input=text, text=True, check=True)
        sys.stdout.write(subprocess.run([program], stdout=subprocess.PIPE, text=True, check=True).stdout)
