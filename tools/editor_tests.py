"""Tries what is in editors/: that each grammar knows the words of the language and the lines of a script, that each
completion knows the words of `./run`, and, where an editor or a shell is installed, what it makes of the examples. So
is the manual page of the program, by groff.
"""
import json
import pathlib
import re
import shutil
import subprocess
import sys
import tempfile

from tools import grammar, manual, words
from tools.calls import tell
from tools.programs import TOP

EDITORS = TOP / 'editors'
GRAMMARS = ('vim/syntax/ceal.vim', 'emacs/ceal-mode.el', 'vscode/syntaxes/ceal.tmLanguage.json')
COMPLETIONS = ('completion/run.bash', 'completion/_run')
EXAMPLES = sorted((TOP / 'examples').glob('*.ceal'))
MAKE = '''#!/bin/sh
echo 'fault S3 at 2:10: unexpected token'
echo 'run: not proved: draft/ceal answers' >&2
echo "run: $2:2:10: unexpected token" >&2
printf 'run:   \\twrite(m\\t1);\\nrun:   \\t       \\t^\\nrun:   expected a comma\\n' >&2
exit 1
'''
VIM = '''
set nocompatible
let g:ceal_run = '{folder}/make'
set runtimepath^={editors}/vim
filetype plugin on
syntax on
let told = []
for name in {names}
  execute 'silent edit ' . name
  for number in range(1, line('$'))
    let at = match(getline(number), '\\S') + 1
    call add(told, join([name, number, synIDattr(synID(number, at, 1), 'name')], ' '))
  endfor
endfor
silent make
for it in getqflist()
  if it.valid
    call add(told, join(['make', bufname(it.bufnr), it.lnum, it.col, it.text], ' '))
  endif
endfor
call writefile(told, '{folder}/told')
qall!
'''
EMACS = '''
(require 'ceal-mode)
(dolist (name command-line-args-left)
  (with-current-buffer (find-file-noselect name)
    (font-lock-ensure)
    (goto-char (point-min))
    (while (not (eobp))
      (skip-chars-forward " \\t")
      (princ (format "%s %s %s\\n" name (line-number-at-pos) (get-text-property (point) 'face)))
      (forward-line))))
(setq command-line-args-left nil)
'''
# What the first word of a line is to an editor: of a source text, and of a script.
SOURCE = (
    (r'//', 'comment'),
    (r'(ceal|init|struct)\b', 'declaration'),
    (r'%%$', 'mark'),
    (r'(if|while|return)\b', 'control'),
)
SCRIPT = ((r'//', 'comment'), (r'(mod|new|set|run|propagate|get|show|blocks|steps|work|bound)\b', 'command'))
IN_VIM = {
    'comment': 'cealComment cealScriptComment',
    'declaration': 'cealStructure',
    'mark': 'cealMark',
    'control': 'cealConditional cealRepeat cealStatement',
    'command': 'cealCommand',
}
IN_EMACS = {
    'comment': 'font-lock-comment-face font-lock-comment-delimiter-face',
    'declaration': 'font-lock-keyword-face',
    'mark': 'font-lock-preprocessor-face',
    'control': 'font-lock-keyword-face',
    'command': 'font-lock-keyword-face',
}


def commands():
    """The first words of the lines of a script."""
    return {
        re.match(r'`(\w+)', row[0])[1] for row in manual.table(manual.PAGE.read_text(), 'Line', 'What it does', 'Reply')
    }


def words_of_all():
    for name in GRAMMARS:
        missing = sorted((grammar.RESERVED | commands()) - set(re.findall(r'\w+', (EDITORS / name).read_text())))
        tell(f'the words of {name}', [f'it has no {it}' for it in missing])
    wanted = {
        *words.MODES,
        'gen',
        *words.OPTIONS,
        '--fuel',
        *(it for it in words.ALONE if it[:2] == '--' and it != '--built'),
    }
    for name in COMPLETIONS:
        missing = sorted(wanted - set(re.findall(r'(?:--)?\w+', (EDITORS / name).read_text())))
        tell(f'the words of {name}', [f'it has no {it}' for it in missing])


def wanted():
    """The lines of the examples of which it is known what their first word is: the file, the number, and what it is."""
    for path in EXAMPLES:
        of_lines = SOURCE
        for number, line in enumerate(path.read_text().split('\n'), 1):
            found = next((told for form, told in of_lines if re.match(form, line.lstrip(' '))), None)
            if found:
                yield str(path), number, found
            if line == '%%':
                of_lines = SCRIPT


def compare(editor, told, names):
    """What an editor tells of the lines of the examples, beside what they are."""
    seen = {tuple(it.split(' ')[:2]): it.split(' ', 2)[2] for it in told if it.count(' ') >= 2}
    lines = list(wanted())
    wrong = [
        f'{path}:{at} is {seen.get((path, str(at)))}'
        for path, at, it in lines
        if seen.get((path, str(at))) not in names[it].split()
    ]
    tell(f'{editor} opens the examples', wrong[:5] or ([] if lines else ['there are none']))


def vim(folder):
    if '+syntax' not in subprocess.run(['vim', '--version'], stdout=subprocess.PIPE, universal_newlines=True).stdout:
        return  # (a small vim that highlights nothing)
    (folder / 'make').write_text(MAKE)
    (folder / 'make').chmod(0o755)
    (folder / 'script.vim').write_text(VIM.format(folder=folder, editors=EDITORS, names=[str(it) for it in EXAMPLES]))
    how = {'stdin': subprocess.DEVNULL, 'stdout': subprocess.PIPE, 'stderr': subprocess.STDOUT, 'timeout': 300}
    subprocess.run(['vim', '-e', '-s', '-i', 'NONE', '-u', 'NONE', '-S', str(folder / 'script.vim')], **how)
    told = (folder / 'told').read_text().splitlines() if (folder / 'told').is_file() else []
    compare('vim', told, IN_VIM)
    made = [it for it in told if it.startswith('make ')]
    tell(
        ':make in vim',
        (
            []
            if len(made) == 1 and re.match(rf'make \S*{EXAMPLES[-1].name} 2 10 unexpected token', made[0])
            else [f'told {made}']
        ),
    )


def emacs(folder):
    (folder / 'tried.el').write_text(EMACS)
    call = ['emacs', '-Q', '--batch', '-L', str(EDITORS / 'emacs'), '-l', str(folder / 'tried.el'), *map(str, EXAMPLES)]
    ended = subprocess.run(
        call,
        stdin=subprocess.DEVNULL,
        stdout=subprocess.PIPE,
        stderr=subprocess.PIPE,
        universal_newlines=True,
        timeout=300,
    )
    compare('emacs', ended.stdout.splitlines(), IN_EMACS)


def vscode(folder):
    for name in ('package.json', 'language-configuration.json', 'syntaxes/ceal.tmLanguage.json'):
        json.loads((EDITORS / 'vscode' / name).read_text())
    patterns = re.findall(
        r'"(?:match|begin|end|regexp)": ("(?:[^"\\]|\\.)*")',
        ''.join(it.read_text() for it in (EDITORS / 'vscode').rglob('*.json')),
    )
    for it in patterns:
        re.compile(json.loads(it))
    tell('the patterns of vscode', [] if len(patterns) > 15 else ['there are too few'])


def bash(folder):
    for line, wanted in (
        ('./run --d', '--dot --draft'),
        ('./run che', 'check'),
        ('./run gen ', 'list tree'),
        ('./run --wo', '--work'),
    ):
        given = line.split(' ')
        script = (
            f'source {EDITORS}/completion/run.bash; COMP_WORDS=({line} {chr(39) * 2 if given[-1] == "" else ""});'
            f' COMP_CWORD={len(given) - 1}; _ceal_run; echo ${{COMPREPLY[*]}}'
        )
        said = subprocess.run(
            ['bash', '-c', script], cwd=folder, stdout=subprocess.PIPE, universal_newlines=True
        ).stdout.strip()
        tell(f'bash completes {line}', [] if said == wanted else [f'by {said!r}'])


def zsh(folder):
    tell(
        'zsh reads its completion',
        [] if subprocess.run(['zsh', '-n', str(EDITORS / 'completion/_run')]).returncode == 0 else ['it does not'],
    )


def groff(folder):
    page = '\n'.join(manual.manual(manual.PAGE.read_text(), 'ceal'))
    ended = subprocess.run(
        ['groff', '-man', '-Tutf8', '-ww'], input=page.encode(), stdout=subprocess.PIPE, stderr=subprocess.PIPE
    )
    shown = re.sub(rb'\x1b\[[0-9;]*m|.\x08', b'', ended.stdout).decode(errors='replace')
    faults = [ended.stderr.decode()] if ended.stderr else []
    tell(
        'the manual page',
        faults
        + [
            f'it does not show {it}'
            for it in ('propagate READS', 'refused', 'out of memory', 'gen KIND SEED SIZE')
            if it not in shown
        ],
    )


def all():
    words_of_all()
    for name, tool in (('vim', vim), ('emacs', emacs), ('', vscode), ('bash', bash), ('zsh', zsh), ('groff', groff)):
        if not name or shutil.which(name):
            with tempfile.TemporaryDirectory(prefix='ceal-') as folder:
                tool(pathlib.Path(folder))


if __name__ == '__main__':
    from tools import calls

    all()
    print(f'{calls.passed} passed, {calls.failed} failed')
    sys.exit(calls.failed > 0)
