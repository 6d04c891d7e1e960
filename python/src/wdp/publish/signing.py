"""Signs the files of results by OpenSSH's `ssh-keygen`, which alone knows anything of keys and
signatures.
"""
import os
import re
import shutil
import subprocess
import tempfile
from collections.abc import Mapping
from dataclasses import dataclass
from pathlib import Path

from wdp.files import map_errors, read, temporary_folder
from wdp.texts.refusals import NotFound, Refused
from wdp.texts.tables import compute_digest

SUMS = "SHA256SUMS"
SIGNATURE = f"{SUMS}.sig"
NAMESPACE = "wdp-award"  # what the signature is for
_TOOL = "ssh-keygen"
_MOST_OF_KEY = 1_000_000  # bytes of a key's file
_MOST_OF_SIGNATURE = 100_000  # bytes
_MOST_OF_MESSAGES = 65_536  # bytes of what ssh-keygen prints that are read
_SECONDS = 300  # for ssh-keygen, which may ask somebody for a passphrase
_PRIVATE = re.compile(rb"-----BEGIN [A-Z0-9 ]*PRIVATE KEY-----")
_PUBLIC = re.compile(rb"(?:ssh|ecdsa|sk-ssh|sk-ecdsa)-\S+ \S+")
_SIGNATURE = re.compile(
    rb"-----BEGIN SSH SIGNATURE-----\n(?:[A-Za-z0-9+/]{1,70}={0,2}\n)+-----END SSH SIGNATURE-----\n"
)
_TOO_OPEN = re.compile(r"^Permissions .* are too open", re.MULTILINE)
_WRONG_PASSPHRASE = "incorrect passphrase"


def format_sums(texts: Mapping[str, bytes]) -> bytes:
    """The SHA-256 of each file by its name, as `sha256sum -c` reads them."""
    lines = [f"{compute_digest(text)}  {name}\n" for name, text in sorted(texts.items())]
    return "".join(lines).encode()


@dataclass(frozen=True)
class Signer:
    """Who signs: the path of a file with a private key, as `ssh-keygen` makes them."""

    key: str

    def check(self) -> None:
        """Raises NotFound if `ssh-keygen` isn't installed, and Refused if the file can't be read or
        has no private key.
        """
        if shutil.which(_TOOL) is None:
            raise NotFound(f"to sign needs {_TOOL}: apt-get install -y openssh-client")
        text = read(self.key, _MOST_OF_KEY, regular=True)
        if _PUBLIC.match(text):
            raise Refused(f"{self.key}: it is a public key; the private one signs")
        if not _PRIVATE.search(text):
            raise Refused(f"{self.key}: it is no private key as {_TOOL} makes them")

    def sign(self, sums: bytes) -> bytes:
        """The signature of the sums. If the key has a passphrase, the terminal is asked for it.

        Raises Refused if `ssh-keygen` doesn't sign, and what `check` does.
        """
        self.check()
        with temporary_folder("wdp-sign-") as folder:
            path = folder / SUMS
            with map_errors(str(path)):
                path.write_bytes(sums)
            said = _run_tool("sign", "-f", os.path.abspath(self.key), str(path))
            signature = folder / SIGNATURE
            if not signature.exists():
                raise Refused(f"{self.key}: {_explain(said)}")
            text = read(str(signature), _MOST_OF_SIGNATURE, regular=True)
            with map_errors(str(path)), path.open("rb") as file:
                said = _run_tool("check-novalidate", "-s", str(signature), file=file.fileno())
            is_good = said.startswith(f'Good "{NAMESPACE}" signature')
            if not is_good or not _SIGNATURE.fullmatch(text):
                raise Refused(f"{self.key}: {_TOOL} doesn't find its signature good")
            return text


def _run_tool(command: str, *arguments: str, file: int = subprocess.DEVNULL) -> str:
    """The beginning of what `ssh-keygen` prints.

    Raises NotFound if it can't be started, and Refused if its time is over. (It stays in the
    session of this process, so that it can ask the terminal.)
    """
    words = [_TOOL, "-Y", command, "-n", NAMESPACE, *arguments]
    with tempfile.TemporaryFile() as printed:
        try:
            subprocess.run(
                words,
                stdin=file,
                stdout=printed,
                stderr=subprocess.STDOUT,
                check=False,
                timeout=_SECONDS,
            )
        except subprocess.TimeoutExpired:
            raise Refused(f"{_TOOL} didn't end in {_SECONDS} s, and was ended") from None
        except OSError as error:
            raise NotFound(f"{_TOOL} can't be started: {error.strerror}") from None
        printed.seek(0)
        return printed.read(_MOST_OF_MESSAGES).decode("utf-8", "backslashreplace")


def _explain(said: str) -> str:
    """Why there is no signature, from what `ssh-keygen` printed."""
    if _WRONG_PASSPHRASE in said and not _has_terminal():
        return "it has a passphrase, and there is no terminal that could be asked for it"
    if match := _TOO_OPEN.search(said):
        return f"{_TOOL} doesn't sign with it: {match[0]}"
    lines = said.strip().splitlines() or ["it says nothing"]
    return f"{_TOOL} doesn't sign with it: {lines[-1]}"


def _has_terminal() -> bool:
    """Whether this process has a terminal that can be asked."""
    try:
        Path("/dev/tty").open("rb").close()
    except OSError:
        return False
    return True
