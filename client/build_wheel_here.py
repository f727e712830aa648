"""Makes the wheel of this folder for `pip install ./client`, with nothing but Python's own library."""
from __future__ import annotations

import base64
import hashlib
import os
import re
import zipfile
from collections.abc import Mapping
from typing import Optional

MODULES = ('ceal.py', 'ceal_ctypes.py')
HERE = os.path.dirname(os.path.abspath(__file__))
WHEEL = 'Wheel-Version: 1.0\nGenerator: build_wheel_here\nRoot-Is-Purelib: true\nTag: py3-none-any\n'
Settings = Optional[Mapping[str, object]]


def _text(*path: str) -> str:
    with open(os.path.join(HERE, *path), encoding='utf-8') as file:
        return file.read()


def _project() -> dict[str, str]:
    """What pyproject.toml says of the project, and the newest version that the changelog of the repository names."""
    project = dict(re.findall(r'(?m)^([a-z-]+) = "(.*)"$', _text('pyproject.toml').split('[project]')[1]))
    project['version'] = re.findall(r'(?m)^## (\d[.\d]*)', _text(os.pardir, 'CHANGELOG.md'))[0]
    return project


def _metadata(project: Mapping[str, str]) -> str:
    return (
        f'Metadata-Version: 2.1\nName: {project["name"]}\nVersion: {project["version"]}\n'
        f'Summary: {project["description"]}\nRequires-Python: {project["requires-python"]}\n'
    )


def _row(name: str, data: bytes) -> str:
    told = base64.urlsafe_b64encode(hashlib.sha256(data).digest()).rstrip(b'=').decode()
    return f'{name},sha256={told},{len(data)}\n'


def build_wheel(
    wheel_directory: str, config_settings: Settings = None, metadata_directory: Optional[str] = None
) -> str:
    """Writes the wheel, and returns the name of its file (the hook of PEP 517)."""
    project = _project()
    info = f'{project["name"]}-{project["version"]}.dist-info'
    files: dict[str, bytes] = {}
    for name in MODULES:
        files[name] = _text(name).encode()
    files[f'{info}/METADATA'], files[f'{info}/WHEEL'] = _metadata(project).encode(), WHEEL.encode()
    rows = [_row(name, data) for name, data in files.items()]
    files[f'{info}/RECORD'] = ''.join([*rows, f'{info}/RECORD,,\n']).encode()
    made = f'{project["name"]}-{project["version"]}-py3-none-any.whl'
    with zipfile.ZipFile(os.path.join(wheel_directory, made), 'w', zipfile.ZIP_DEFLATED) as wheel:
        for name, data in files.items():
            wheel.writestr(name, data)
    return made


def build_sdist(sdist_directory: str, config_settings: Settings = None) -> str:
    raise NotImplementedError('there are no source archives: install from a clone of the repository')
