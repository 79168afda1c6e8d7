"""The command line, each time in a process of its own: exit status, what is said and where, and never a traceback."""
from __future__ import annotations

import contextlib
import json
import os
import pathlib
import pty
import re
import resource
import shutil
import signal
import subprocess
import sys
import tempfile
import time
import unittest
from typing import Any, Callable, Iterator

import setting

import gmsh

from cottontuff.mesh import read
from cottontuff.record import verify
from cottontuff.version import VERSION
from validate import validate

FOLDER = tempfile.TemporaryDirectory()
HERE = pathlib.Path(FOLDER.name)
CAVITY = setting.ROOT / 'target' / 'bin' / 'cavity'
ENVIRONMENT = {**os.environ, 'PYTHONPATH': str(setting.ROOT / 'python')}
COMMAND = [sys.executable, '-m', 'cottontuff']
DONE, REFUSED, USAGE, INTERRUPTED = 0, 1, 2, 130

# Four points on a plane, then a fifth above: a flat tetrahedron and two sound ones.
FLAT = """MeshVersionFormatted 2
Dimension 3
Vertices
5
0 0 0 0
1 0 0 0
0 1 0 0
1 1 0 0
0 0 1 0
Tetrahedra
3
1 2 3 4 1
1 2 3 5 1
2 4 3 5 1
End
"""


def setUpModule() -> None:
    (HERE / 'flat.mesh').write_text(FLAT)
    (HERE / 'nan.mesh').write_text(FLAT.replace('0 0 1 0', '0 nan 1 0'))
    (HERE / 'none.mesh').write_text(FLAT.split('Tetrahedra')[0] + 'Triangles\n1\n1 2 3 1\nEnd\n')
    (HERE / 'garbage.msh').write_bytes(bytes(range(256)) * 40)
    (HERE / 'garbage.vtu').write_text('<VTKFile> nothing')
    (HERE / 'empty.msh').write_bytes(b'')
    (HERE / 'part.xyz').write_text('x')
    gmsh.initialize()
    try:
        gmsh.option.setNumber('General.Terminal', 0)
        gmsh.option.setNumber('Mesh.ElementOrder', 2)
        gmsh.model.occ.addSphere(0, 0, 0, 1)
        gmsh.model.occ.synchronize()
        gmsh.model.mesh.generate(3)
        gmsh.write(str(HERE / 'second.msh'))
    finally:
        gmsh.finalize()


@contextlib.contextmanager
def folder() -> Iterator[pathlib.Path]:
    """A folder with the ball in it, as ball.msh."""
    with tempfile.TemporaryDirectory(dir=HERE) as made:
        shutil.copy(setting.mesh_file('small-ball'), pathlib.Path(made, 'ball.msh'))
        yield pathlib.Path(made)


class Case(unittest.TestCase):
    def run_it(self, *arguments: object, status: int = DONE, **options: Any) -> subprocess.CompletedProcess[str]:
        given = {'capture_output': True, 'text': True, 'timeout': 120, 'env': ENVIRONMENT, **options}
        done = subprocess.run([*COMMAND, *map(str, arguments)], **given)
        self.assertNotIn('Traceback', done.stderr)
        self.assertNotIn('Exception ignored', done.stderr)
        self.assertEqual(done.returncode, status, done.stderr)
        return done

    def refused(self, words: str, *arguments: object, status: int = REFUSED, **options: Any) -> None:
        """One sentence on standard error, nothing on standard output."""
        done = self.run_it(*arguments, status=status, **options)
        self.assertRegex(done.stderr, words)
        self.assertEqual(done.stdout, '')
        if status == REFUSED:
            self.assertTrue(done.stderr.startswith('cottontuff: '), done.stderr)
            self.assertEqual(done.stderr.count('\n'), 1, done.stderr)


class Inputs(Case):
    """Files that can't be taken."""

    def test_files(self):
        for name, words in (('absent.msh', 'No such file'), ('part.xyz', 'suffix'), ('garbage.msh', 'garbage.msh: '), ('garbage.vtu', 'garbage.vtu: '), ('empty.msh', 'it is empty'),
                            ('second.msh', 'second'), ('none.mesh', 'tetrahedra'), ('nan.mesh', 'nan.mesh: ')):
            with self.subTest(name):
                self.refused(words, 'measure', HERE / name)
        self.refused('folder', 'measure', HERE, '--format', 'msh')

    def test_by_each_command(self):
        for command in (['improve', '-o', HERE / 'out.msh'], ['cavity', '--tet', '0'], ['show', '--tet', '0', '-o', HERE / 'out.png']):
            self.refused('No such file', command[0], HERE / 'absent.msh', *command[1:])
        self.refused('No such file', 'verify', HERE / 'absent.msh', HERE / 'absent.msh', HERE / 'absent.record')
        self.assertFalse((HERE / 'out.msh').exists() or (HERE / 'out.png').exists())

    def test_unreadable(self):
        if os.getuid() == 0:
            self.skipTest('root reads everything')
        with folder() as here:
            (here / 'ball.msh').chmod(0)
            self.refused('Permission', 'measure', here / 'ball.msh')

    def test_a_named_format(self):
        with folder() as here:
            os.rename(here / 'ball.msh', here / 'ball.txt')
            self.refused('suffix', 'measure', here / 'ball.txt')
            self.assertIn('1,855 tetrahedra', self.run_it('measure', here / 'ball.txt', '--format', 'msh').stdout)
            self.refused('format', 'measure', here / 'ball.txt', '--format', 'xyz')

    def test_libraries(self):
        ball = setting.mesh_file('small-ball')
        self.refused('COTTONTUFF_LIBRARY', 'improve', ball, '-o', HERE / 'out.msh', env={**ENVIRONMENT, 'COTTONTUFF_LIBRARY': str(HERE / 'nothing.so')})
        self.refused('library', 'improve', ball, '-o', HERE / 'out.msh', env={**ENVIRONMENT, 'COTTONTUFF_LIBRARY': str(HERE / 'garbage.msh')})
        self.assertFalse((HERE / 'out.msh').exists())

    def test_helpers(self):
        ball = setting.mesh_file('small-ball')
        for helper in (HERE / 'garbage.msh', pathlib.Path(ENVIRONMENT['COTTONTUFF_LIBRARY'])):
            with self.subTest(helper.name):
                self.refused('helper', 'improve', ball, '-o', HERE / 'out.msh', env={**ENVIRONMENT, 'COTTONTUFF_HELPER': str(helper)})


class Usage(Case):
    def test_wrong_arguments(self):
        ball = setting.mesh_file('small-ball')
        wrong = [
            [], ['better', ball], ['measure'], ['measure', ball, '--what'], ['improve', ball], ['cavity', ball], ['cavity', ball, '--tet', '-1'], ['cavity', ball, '--tet', 'x'],
            ['show', ball, '-o', 'a.png'], ['show', ball, '--tet', '1', '--worst', '1', '-o', 'a.png'], ['show', ball, '--worst', '0', '-o', 'a.png'], ['verify', ball],
            ['measure', ball, '--measure', 'beauty'], ['improve', ball, '-o', 'a.msh', '--below', 'x'], ['improve', ball, '-o', 'a.msh', '--sizes', '5,x'],
            ['improve', ball, '-o', 'a.msh', '--passes', '0'], ['improve', ball, '-o', 'a.msh', '--jobs', '1.5'], ['improve', ball, '-o', 'a.msh', '--table', 'x'],
        ]
        for arguments in wrong:
            with self.subTest(arguments):
                self.refused('usage: ', *arguments, status=USAGE, cwd=HERE)

    def test_wrong_numbers(self):
        ball = setting.mesh_file('small-ball')
        for name, value in (('below', '0'), ('below', '1.5'), ('below', 'nan'), ('sizes', '4'), ('sizes', '6,5'), ('sizes', '17'), ('limit', '50001')):
            with self.subTest(name=name, value=value):
                self.refused(f'^cottontuff: {name}: ', 'improve', ball, '-o', 'a.msh', f'--{name}', value, status=USAGE, cwd=HERE)
        self.assertFalse((HERE / 'a.msh').exists())

    def test_help_and_version(self):
        self.assertEqual(self.run_it('--version').stdout, f'cottontuff {VERSION}\n')
        self.assertIn('improve', self.run_it('--help').stdout)
        for command in ('improve', 'measure', 'cavity', 'show', 'verify'):
            self.assertIn('usage: ', self.run_it(command, '--help').stdout)


class Outputs(Case):
    """Where OUT can't be written, and where it must not be."""

    def test_folders(self):
        with folder() as here:
            self.refused('the folder .*nowhere is not there', 'improve', here / 'ball.msh', '-o', here / 'nowhere' / 'out.msh')
            self.refused('suffix', 'improve', here / 'ball.msh', '-o', here / 'out.xyz')
            (here / 'dir.msh').mkdir()
            self.refused('folder', 'improve', here / 'ball.msh', '-o', here / 'dir.msh')
            for option in ('--record', '--report'):
                self.refused('is not there', 'improve', here / 'ball.msh', '-o', here / 'out.msh', option, here / 'nowhere' / 'x')
            self.refused('png', 'improve', here / 'ball.msh', '-o', here / 'out.msh', '--picture', here / 'x.gif')
            self.assertEqual(sorted(os.listdir(here)), ['ball.msh', 'dir.msh'])

    def test_out_is_in(self):
        with folder() as here:
            before = (here / 'ball.msh').read_bytes()
            os.symlink('ball.msh', here / 'link.msh')
            os.link(here / 'ball.msh', here / 'hard.msh')
            for out in (here / 'ball.msh', f'{here}/./ball.msh', here / 'link.msh', here / 'hard.msh'):
                self.refused('--force', 'improve', here / 'ball.msh', '-o', out)
            self.refused('--force', 'improve', here / 'link.msh', '-o', here / 'ball.msh')
            self.refused('--force', 'improve', 'ball.msh', '-o', here / 'ball.msh', cwd=here)
            self.assertEqual((here / 'ball.msh').read_bytes(), before)
            os.unlink(here / 'hard.msh')
            self.run_it('improve', '--quiet', '--force', here / 'ball.msh', '-o', here / 'link.msh')
            self.assertTrue((here / 'link.msh').is_symlink())
            self.assertEqual(validate(setting.mesh_file('small-ball'), here / 'ball.msh'), [])
            self.assertNotEqual((here / 'ball.msh').read_bytes(), before)

    def test_out_is_the_other_file_of_in(self):
        """tetgen's meshes are two files: writing one writes both."""
        source = setting.mesh_file('small-tetgen')
        with folder() as here:
            for suffix in ('.ele', '.node'):
                shutil.copy(source.with_suffix(suffix), here / f'block{suffix}')
            for one, other in (('.ele', '.node'), ('.node', '.ele')):
                self.refused('--force', 'improve', here / f'block{one}', '-o', here / f'block{other}')
            self.assertEqual((here / 'block.ele').read_bytes(), source.read_bytes())

    def test_other_files_are_not_in_nor_out(self):
        with folder() as here:
            before = (here / 'ball.msh').read_bytes()
            for option in ('--record', '--report'):
                self.run_it('improve', '--quiet', here / 'ball.msh', '-o', here / 'out.msh', option, here / 'ball.msh', status=REFUSED)
                self.assertEqual((here / 'ball.msh').read_bytes(), before)
                self.run_it('improve', '--quiet', here / 'ball.msh', '-o', here / 'out.msh', option, here / 'out.msh', status=REFUSED)

    def test_a_folder_that_takes_nothing(self):
        if os.getuid() == 0:
            self.skipTest('root writes everywhere')
        with folder() as here:
            here.chmod(0o500)
            self.refused('takes no new file', 'improve', here / 'ball.msh', '-o', here / 'out.msh')
            here.chmod(0o700)

    def limited(self, size: int) -> Callable[[], None]:
        return lambda: resource.setrlimit(resource.RLIMIT_FSIZE, (size, size))

    def test_a_full_disk(self):
        with folder() as here:
            (here / 'out.msh').write_text('as it was')
            self.refused('out.msh: not written: File too large', 'improve', here / 'ball.msh', '-o', here / 'out.msh', preexec_fn=self.limited(4096))
            self.assertEqual((here / 'out.msh').read_text(), 'as it was')
            self.assertEqual(sorted(os.listdir(here)), ['ball.msh', 'out.msh'])

    def test_a_full_disk_for_the_others(self):
        with folder() as here:
            for option, name, size in (('--record', 'x.record', 4096), ('--record', 'x.gz', 4096)):
                self.refused(f'{name}: the record was not written', 'improve', here / 'ball.msh', '-o', here / 'out.msh', option, here / name, preexec_fn=self.limited(size))
                self.assertFalse((here / 'out.msh').exists())
            self.refused('can\'t be written: File too large', 'cavity', here / 'ball.msh', '--tet', '5', '--grow', '12', '-o', here / 'job.txt', preexec_fn=self.limited(4096))
            self.refused('File too large', 'show', here / 'ball.msh', '--worst', '1', '-o', here / 'x.png', preexec_fn=self.limited(4096))
            self.assertEqual({name for name in os.listdir(here)} - {'x.record', 'x.gz'}, {'ball.msh'})

    def test_standard_output_full(self):
        if not os.path.exists('/dev/full'):
            self.skipTest('no /dev/full')
        ball = setting.mesh_file('small-ball')
        for arguments in (['measure', ball], ['measure', ball, '--json'], ['cavity', ball, '--tet', '5'], ['improve', ball, '-o', HERE / 'full.msh']):
            with self.subTest(arguments[0]), open('/dev/full', 'w') as full:
                done = self.run_it(*arguments, status=REFUSED, capture_output=False, stdout=full, stderr=subprocess.PIPE)
                self.assertIn('No space left', done.stderr)

    def test_a_pipe_that_closes(self):
        for arguments in (['measure', setting.mesh_file('small-ball')], ['cavity', setting.mesh_file('small-ball'), '--tet', '5', '--grow', '12'], ['--help']):
            with subprocess.Popen([*COMMAND, *map(str, arguments)], stdout=subprocess.PIPE, stderr=subprocess.PIPE, text=True, env=ENVIRONMENT) as process:
                process.stdout.close()
                said = process.stderr.read()
                self.assertNotIn('Traceback', said)
                self.assertNotIn('Exception ignored', said)

    def test_the_first_line_alone(self):
        for arguments in (['measure'], ['measure', '--json']):
            with subprocess.Popen([*COMMAND, *arguments, str(setting.mesh_file('small-ball'))], stdout=subprocess.PIPE, stderr=subprocess.PIPE, text=True, env=ENVIRONMENT) as process:
                first = subprocess.run(['head', '-1'], stdin=process.stdout, capture_output=True, text=True).stdout
                process.stdout.close()
                self.assertEqual((process.stderr.read(), len(first.splitlines())), ('', 1))

    def test_too_many_processes(self):
        limit = lambda: resource.setrlimit(resource.RLIMIT_NOFILE, (40, 40))
        self.refused('cottontuff: ', 'improve', '--quiet', setting.mesh_file('small-ball'), '-o', HERE / 'many.msh', '--jobs', '60', preexec_fn=limit)


class Improve(Case):
    def test_all_of_it(self):
        with folder() as here:
            done = self.run_it('improve', 'ball.msh', '-o', 'out.vtu', '--record', 'r.gz', '--report', 'r.json', '--picture', 'p.svg', '--below', '0.4', '--jobs', '2', cwd=here)
            report = json.loads((here / 'r.json').read_text())
            mesh = read(here / 'out.vtu')
            self.assertEqual((report['after']['tets'], report['input'], report['output']), (len(mesh.tets), 'ball.msh', 'out.vtu'))
            self.assertIn(f"{report['after']['tets']:,}", done.stdout)
            self.assertIn('<svg', (here / 'p.svg').read_text())
            self.assertTrue(verify(read(here / 'ball.msh'), mesh, here / 'r.gz'))
            self.assertEqual(sorted(os.listdir(here)), ['ball.msh', 'out.vtu', 'p.svg', 'r.gz', 'r.json'])

    def test_quiet(self):
        with folder() as here:
            done = self.run_it('improve', '--quiet', here / 'ball.msh', '-o', here / 'out.msh')
            self.assertEqual((done.stdout, done.stderr), ('', ''))
            self.assertEqual(validate(here / 'ball.msh', here / 'out.msh'), [])

    def test_no_bar_without_a_terminal(self):
        with folder() as here:
            done = self.run_it('improve', here / 'ball.msh', '-o', here / 'out.msh')
            self.assertEqual(done.stderr, '')
            self.assertIn('0.000235', done.stdout)

    def on_terminal(self, *arguments: object) -> str:
        """What comes on standard error where that is a terminal."""
        master, slave = pty.openpty()
        said = b''
        with subprocess.Popen([*COMMAND, *map(str, arguments)], stdout=subprocess.DEVNULL, stderr=slave, env={**ENVIRONMENT, 'TERM': 'xterm', 'COLUMNS': '120'}) as process:
            os.close(slave)
            with contextlib.suppress(OSError):  # the end of a terminal
                while part := os.read(master, 4096):
                    said += part
            self.assertEqual(process.wait(), 0)
        os.close(master)
        return said.decode(errors='replace')

    def test_a_bar_on_a_terminal(self):
        with folder() as here:
            for jobs in ('1', '2'):
                said = self.on_terminal('improve', setting.mesh_file('small-bracket'), '-o', here / 'out.msh', '--jobs', jobs, '--below', '0.5')
                self.assertIn('bad ones left, worst 0.', said)
                self.assertNotIn('Traceback', said)
            self.assertEqual(self.on_terminal('improve', '--quiet', setting.mesh_file('small-bracket'), '-o', here / 'out.msh'), '')


class Looking(Case):
    """measure, cavity, show, verify."""

    def test_measure(self):
        ball = setting.mesh_file('small-regions')
        text, data = self.run_it('measure', ball).stdout, json.loads(self.run_it('measure', '--json', ball).stdout)
        mesh = read(ball)
        self.assertEqual((data['tetrahedra'], data['points'], data['total']['tets']), (len(mesh.tets), len(mesh.points), len(mesh.tets)))
        self.assertIn(f"{data['tetrahedra']:,} tetrahedra, {data['points']:,} points", text)
        for region in [*data['regions'], data['total']]:
            self.assertRegex(text, rf"{region['tets']:,} +{region['worst'] / 1e6:.6f} .* {region['under_300000']:,} ")
        for worst in data['worst']:
            self.assertRegex(text, rf"{worst['tet']:,} +{worst['millionths'] / 1e6:.6f} +{worst['region']} ")

    def test_measure_with_picture(self):
        with folder() as here:
            self.run_it('measure', here / 'ball.msh', '--picture', here / 'p.png', '--measure', 'gamma')
            self.assertTrue((here / 'p.png').read_bytes().startswith(b'\x89PNG'))

    def test_cavity(self):
        if not CAVITY.exists():
            self.skipTest('no program cavity')
        for tet, more in ((5, []), (871, []), (40, ['--grow', '0']), (40, ['--grow', '12']), (1000, ['--measure', 'gamma', '--grow', '3'])):
            done = self.run_it('cavity', setting.mesh_file('small-ball'), '--tet', tet, *more)
            answer = subprocess.run([CAVITY], input=done.stdout, capture_output=True, text=True).stdout.splitlines()
            points = [int(word) for word in re.search('its points: (.*)', done.stderr).group(1).split()]
            said = [(float(row[0]), *map(int, row[1:])) for row in (line.split() for line in done.stderr.splitlines() if line.startswith('  '))]
            found = [[int(word) for word in line.split(',')[1:]] for line in answer]
            self.assertEqual(answer[0][0], 'F')
            self.assertEqual([(row[4] / 1e6, *(points[k] for k in row[:4])) for row in found[1:]], said)
            self.assertIn(f'the worst of quality {found[0][1] / 1e6:.6f}', done.stderr.split('the best filling')[1])

    def test_cavity_into_a_file(self):
        with folder() as here:
            shown = self.run_it('cavity', here / 'ball.msh', '--tet', 5)
            kept = self.run_it('cavity', here / 'ball.msh', '--tet', 5, '-o', here / 'job.txt')
            self.assertEqual((here / 'job.txt').read_text(), shown.stdout)
            self.assertEqual(kept.stdout, shown.stderr)

    def test_tetrahedra_that_are_not_there(self):
        for command in (['cavity'], ['show', '-o', HERE / 'out.png']):
            self.refused('there is no tetrahedron 1855', command[0], setting.mesh_file('small-ball'), '--tet', 1855, *command[1:])
            self.refused('tetrahedron 0 is flat', command[0], HERE / 'flat.mesh', '--tet', 0, *command[1:])
        self.refused('there is no 1,856th worst', 'show', setting.mesh_file('small-ball'), '--worst', 1856, '-o', HERE / 'out.png')
        self.refused('flat', 'show', HERE / 'flat.mesh', '--worst', 1, '-o', HERE / 'out.png')
        self.refused('gif', 'show', setting.mesh_file('small-ball'), '--worst', 1, '-o', HERE / 'out.gif')

    def test_show(self):
        with folder() as here:
            for name, start in (('a.png', b'\x89PNG'), ('a.svg', b'<?xml'), ('a.vtu', b'<?xml')):
                done = self.run_it('show', here / 'ball.msh', '--worst', 2, '-o', here / name)
                self.assertTrue((here / name).read_bytes().startswith(start) or (here / name).read_bytes().startswith(b'<VTKFile'))
                self.assertIn('a cavity of', done.stdout)

    def test_verify(self):
        with folder() as here:
            self.run_it('improve', '--quiet', here / 'ball.msh', '-o', here / 'out.msh', '--record', here / 'r.record')
            self.assertRegex(self.run_it('verify', here / 'ball.msh', here / 'out.msh', here / 'r.record', '--search').stdout, r'^144 replacements hold, and the search')
            self.refused('does not end', 'verify', here / 'ball.msh', here / 'ball.msh', here / 'r.record')
            self.refused('another mesh', 'verify', here / 'out.msh', here / 'out.msh', here / 'r.record')
            self.refused('can\'t be read', 'verify', here / 'ball.msh', here / 'out.msh', here / 'absent')
            self.refused('no record', 'verify', here / 'ball.msh', here / 'out.msh', HERE / 'garbage.msh')


class Interrupts(Case):
    """Ctrl-C while a larger mesh is bettered."""

    def interrupted(self, name: str, here: pathlib.Path, jobs: int, group: bool, wait: float) -> None:
        source, out, record = setting.mesh_file(name), here / 'out.msh', here / 'r.record'
        arguments = ['improve', source, '-o', out, '--below', 0.9, '--jobs', jobs, '--record', record]
        with subprocess.Popen([*COMMAND, *map(str, arguments)], stdout=subprocess.PIPE, stderr=subprocess.PIPE, text=True, env=ENVIRONMENT, start_new_session=True) as process:
            end = time.monotonic() + 60
            while not record.exists() and time.monotonic() < end and process.poll() is None:
                time.sleep(0.01)
            time.sleep(wait)
            (os.killpg if group else os.kill)(process.pid, signal.SIGINT)
            try:
                said, wrong = process.communicate(timeout=20)
            except subprocess.TimeoutExpired:
                os.killpg(process.pid, signal.SIGKILL)  # its own session: itself and its parts
                self.fail('it does not end')
        self.assertNotIn('Traceback', wrong)
        self.assertEqual(process.returncode, INTERRUPTED, wrong)
        self.assertIn(f'cottontuff: interrupted: {out} has what was reached\n', wrong)
        self.assertIn('interrupted', said)
        self.assertEqual(validate(source, out), [])
        done = verify(read(source), read(out), record)
        self.assertEqual(done.wrong, [])
        self.assertTrue(done.replacements or wait < 0.5)

    def test_all_ways(self):
        large, thin = 'bracket-20k', 'small-stretched-0.01'  # the thin one is small, and as much work: all of it is bad
        for name, jobs, group, wait in ((large, 1, False, 0.6), (thin, 1, True, 0.4), (thin, 2, False, 0.4), (large, 2, True, 0.9), (thin, 2, True, 0)):
            with self.subTest(name=name, jobs=jobs, group=group), folder() as here:
                self.interrupted(name, here, jobs, group, wait)

    def test_a_second_one_ends_the_program(self):
        code = 'import os, signal\nfrom cottontuff.cli import Interrupt\nwith Interrupt() as stop:\n    os.kill(os.getpid(), 2)\n    print(stop(), flush=True)\n    os.kill(os.getpid(), 2)\n    print("goes on", flush=True)\n'
        done = subprocess.run([sys.executable, '-c', code], env=ENVIRONMENT, capture_output=True, text=True)
        self.assertEqual(done.stdout, 'True\n')
        self.assertNotEqual(done.returncode, 0)


if __name__ == '__main__':
    unittest.main()
