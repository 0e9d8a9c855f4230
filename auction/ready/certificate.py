"""nginx's certificate: its key, its names, its time, and who trusts it."""
import socket
import ssl
import subprocess

from .auction import Auction
from .findings import Check, ensure

DAYS = 7
SECONDS = 10


def openssl(*words: object) -> tuple[bool, str]:
    """Whether openssl is content, and what it prints."""
    ran = subprocess.run(["openssl", *map(str, words)], capture_output=True, text=True, check=False)
    return ran.returncode == 0, ran.stdout + ran.stderr


def served(port: int) -> str:
    """The certificate that nginx sends, as PEM."""
    context = ssl._create_unverified_context()
    with socket.create_connection(("127.0.0.1", port), SECONDS) as peer, context.wrap_socket(
        peer
    ) as secure:
        return ssl.DER_cert_to_PEM_cert(secure.getpeercert(binary_form=True) or b"")


def certificate(auction: Auction) -> str:
    """Whether nginx sends cert.pem, browsers trust it for the host, and it is valid for a week."""
    file, key = auction.folder / "cert.pem", auction.folder / "key.pem"
    public = openssl("x509", "-in", file, "-noout", "-pubkey")
    ensure(public == openssl("pkey", "-in", key, "-pubout"), "key.pem is not the key of cert.pem")
    for seconds, words in ((0, "has expired"), (DAYS * 86_400, f"expires within {DAYS} days")):
        ensure(openssl("x509", "-in", file, "-noout", "-checkend", seconds)[0], f"cert.pem {words}")
    _, told = openssl("x509", "-in", file, "-noout", "-checkhost", auction.host)
    ensure("does match" in told, f"cert.pem is not for {auction.host}: name the host with --host")
    sent = served(auction.bidders_port).split()
    ensure(
        sent == first_of(file.read_text()).split(), "nginx sends another certificate: reload nginx"
    )
    trusted, told = openssl("verify", "-untrusted", file, file)
    ensure(trusted, f"browsers do not trust it: {told.splitlines()[-1]}")
    _, until = openssl("x509", "-in", file, "-noout", "-enddate")
    return f"for {auction.host}, trusted, until {until.strip().removeprefix('notAfter=')}"


def first_of(chain: str) -> str:
    """The first certificate of a file, which is the server's own."""
    end = "-----END CERTIFICATE-----"
    return chain[chain.index("-----BEGIN CERTIFICATE-----") :].partition(end)[0] + end


CHECKS = [Check("certificate", certificate)]
