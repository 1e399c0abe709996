"""The server of server/ for the scripts beside this file: how it is compiled, configured and started."""
import glob
import os
import re
import subprocess
from pathlib import Path

from sources import TOP

SERVER = TOP / "server"
NEEDED = "erlang-base erlang-ssl erlang-inets"  # And erlang-eunit, -common-test, -dialyzer, -tools for its tests.
WORDS = ["+debug_info", "-Wall", "-Werror"]
RA = os.environ.get("IMEM_RA", "/usr/lib/rabbitmq/lib/rabbitmq_server-*/plugins")  # Debian's rabbitmq-server


def ra():
    """Returns the folders of Ra and of what it needs, or none if it isn't there."""
    found = [sorted(glob.glob(f"{RA}/{it}-*/ebin")) for it in ("ra", "gen_batch_server", "aten", "seshat")]
    return [it[-1] for it in found] if all(found) else []


def compile_server(ebin, *more):
    """Compiles the server and these sources more into a folder, with the application's file."""
    ebin = Path(ebin)
    ebin.mkdir(parents=True, exist_ok=True)
    sources = sorted((SERVER / "src").glob("*.erl"))
    first = [SERVER / "src" / "imem_program.erl"]  # A behaviour of others.
    known = [word for it in ra() for word in ("-pa", it)] + ["-DRA"] * bool(ra())
    for part in (first, [*(it for it in sources if it not in first), *more]):
        subprocess.run(["erlc", *WORDS, *known, "-I", SERVER / "include", "-pa", ebin, "-o", ebin, *part], check=True)
    modules = ", ".join(it.stem for it in sources)
    text = (SERVER / "src" / "imem_server.app.src").read_text()
    (ebin / "imem_server.app").write_text(text.replace("{modules, []}", f"{{modules, [{modules}]}}"))
    return ebin


def term(value):
    """Returns a value of Python as a term of Erlang: a string in quotes, a `Term` as it stands."""
    if isinstance(value, Term):
        return value.text
    if isinstance(value, str):
        return '"' + re.sub(r'([\\"])', r"\\\1", value) + '"'
    if isinstance(value, Path):
        return term(str(value))
    if isinstance(value, dict):
        return "#{" + ", ".join(f"{key} => {term(it)}" for key, it in value.items()) + "}"
    if isinstance(value, tuple):
        return "{" + ", ".join(map(term, value)) + "}"
    if isinstance(value, list):
        return "[" + ", ".join(map(term, value)) + "]"
    return str(value)


class Term:
    """A term of Erlang, as it stands."""

    def __init__(self, text):
        self.text = text


def atom(text):
    return Term(f"'{text}'")


def config(logs_to=None, **given):
    """Returns the text of a `sys.config`: what the server is given, and the file to which it logs."""
    to = f'file => "{logs_to}"' if logs_to else "type => standard_error"
    formatter = "{logger_formatter, #{single_line => true}}"
    handler = f"{{handler, default, logger_std_h, #{{config => #{{{to}}}, filters => [], filter_default => log, formatter => {formatter}}}}}"
    kept = ",\n   ".join(f"{{{key}, {term(value)}}}" for key, value in given.items())
    return f"[{{kernel, [{{logger_level, notice}}, {{logger, [{handler}]}}]}},\n {{imem_server, [\n   {kept}]}}].\n"
