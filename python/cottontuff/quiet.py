"""Calls of meshio: it prints, warns and ends the process; what it says is caught here and handed on."""
from __future__ import annotations

import contextlib
import io
import re
import warnings
from typing import Any, Callable


class GaveUp(Exception):
    """meshio gave up; the text is what it said."""


def sentence(text: object) -> str:
    return ' '.join(str(text).split()).rstrip('. ')


def quietly(call: Callable[[], Any]) -> tuple[Any, list[str]]:
    """The call's result and its warnings; meshio prints, and ends the process, so both are caught here."""
    said = io.StringIO()
    try:
        with contextlib.redirect_stdout(said), contextlib.redirect_stderr(said), warnings.catch_warnings():
            warnings.simplefilter('ignore')
            warnings.filterwarnings('error', message='string or file could not be read')
            result = call()
    except SystemExit as exit:
        raise GaveUp(sentence(said.getvalue().split('Error:')[0])) from exit
    except (OSError, GaveUp):
        raise
    except Exception as error:
        raise GaveUp(sentence(f'{type(error).__name__}: {error}' if not isinstance(error, ValueError) else error)) from error
    return result, [sentence(text) for text in re.split(r'\b(?:Warning|Info):', said.getvalue()) if text.strip()]
